"use strict";
// Draws the city, and at each moment of the slider the vehicles, the waiting riders and the stops of those aboard.
// `city` has the nodes' longitudes and latitudes in millionths of a degree and the roads' ends, `starts` the number and the
// first node of each vehicle, and `events` what happened:
//   [0, vehicle, leave, [nodes], [seconds from each to the next]]                    a drive
//   [1, request, moment, pickup, dropoff, vehicle, left, arrived]                    a ride that was served

const IDLE = "#555", COLORS = ["#8d99ae", "#2a9d5c", "#e07a1f"], WAITING = "#c1121f";
const PLAY_SECONDS = 45, STREET_METRES = 12;

function project(city) {
  const middle = (Math.min(...city.bounds[1]) + Math.max(...city.bounds[1])) / 2e6 * Math.PI / 180;
  const metres = 6371008.8 * Math.PI / 180 / 1e6;
  return (node) => L.latLng(
    (city.latitudes[node - 1] - city.bounds[1][0]) * metres,
    (city.longitudes[node - 1] - city.bounds[0][0]) * metres * Math.cos(middle));
}

function drawRoads(map, city, place) {
  const lines = [];
  for (let road = 0; road < city.roads.length; road += 2) {
    lines.push([place(city.roads[road]), place(city.roads[road + 1])]);
  }
  const width = () => Math.min(4, Math.max(0.4, STREET_METRES * 2 ** map.getZoom()));
  const style = {color: "#b5b0a5", weight: width(), renderer: L.canvas(), interactive: false, noClip: true};
  const roads = L.polyline(lines, style).addTo(map);
  map.on("zoomend", () => roads.setStyle({weight: width()}));
}

function readEvents(starts, events) {
  const vehicles = new Map(starts.map(([number, node]) => [number, {node, drives: []}])), rides = [];
  for (const event of events) {
    if (event[0] === 0) {
      const [, number, leave, nodes, steps] = event;
      const arrive = steps.reduce((sum, step) => sum + step, leave);
      vehicles.get(number).drives.push({leave, arrive, nodes, steps});
    } else {
      const [, request, moment, pickup, dropoff, vehicle, left, arrived] = event;
      rides.push({request, moment, pickup, dropoff, vehicle, left, arrived});
    }
  }
  return {vehicles, rides};
}

// The last of the drives that has begun by a moment, or none.
function driveAt(drives, moment) {
  let low = 0, high = drives.length;
  while (low < high) {
    const middle = (low + high) >> 1;
    if (drives[middle].leave <= moment) low = middle + 1; else high = middle;
  }
  return drives[low - 1];
}

function placeOn(drive, moment, place) {
  let rest = moment - drive.leave;
  for (let at = 0; at < drive.steps.length; at++) {
    if (rest < drive.steps[at]) {
      const from = place(drive.nodes[at]), to = place(drive.nodes[at + 1]), share = rest / drive.steps[at];
      return L.latLng(from.lat + (to.lat - from.lat) * share, from.lng + (to.lng - from.lng) * share);
    }
    rest -= drive.steps[at];
  }
  return place(drive.nodes[drive.nodes.length - 1]);
}

function clockText(moment) {
  const two = (number) => String(number).padStart(2, "0"), days = Math.floor(moment / 86400), rest = moment % 86400;
  const shown = `${two(Math.floor(rest / 3600))}:${two(Math.floor(rest / 60) % 60)}:${two(rest % 60)}`;
  return days ? `${days}d ${shown}` : shown;
}

function start() {
  const map = L.map("map", {crs: L.CRS.Simple, minZoom: -12, maxZoom: 6, zoomSnap: 0.25, attributionControl: false});
  const place = project(city), {vehicles, rides} = readEvents(starts, events);
  map.fitBounds(L.latLngBounds(city.corners.map(place)).pad(0.03));
  L.control.scale({imperial: false}).addTo(map);
  drawRoads(map, city, place);
  const stops = L.layerGroup().addTo(map), renderer = L.svg();
  const markers = new Map([...vehicles.keys()].map((number) => {
    const marker = L.circleMarker([0, 0], {radius: 5, weight: 1, color: "#fff", fillOpacity: 1, renderer});
    return [number, marker.bindTooltip(`vehicle ${number}`).addTo(map)];
  }));
  const slider = document.getElementById("slider"), clock = document.getElementById("clock");
  const play = document.getElementById("play");

  function draw() {
    const moment = Number(slider.value), loads = new Map();
    clock.textContent = clockText(moment);
    stops.clearLayers();
    for (const ride of rides) {
      if (ride.moment <= moment && moment < ride.left) {
        L.circleMarker(place(ride.pickup), {radius: 3, weight: 1, color: WAITING, fillOpacity: 0.8, renderer})
          .bindTooltip(`request ${ride.request} waits for vehicle ${ride.vehicle}`).addTo(stops);
      } else if (ride.left <= moment && moment < ride.arrived) {
        loads.set(ride.vehicle, (loads.get(ride.vehicle) || 0) + 1);
        L.circleMarker(place(ride.dropoff), {radius: 4, weight: 1.5, color: COLORS[1], fill: false, renderer})
          .bindTooltip(`request ${ride.request} rides with vehicle ${ride.vehicle} to here`).addTo(stops);
      }
    }
    for (const [number, {node, drives}] of vehicles) {
      const drive = driveAt(drives, moment), parties = loads.get(number) || 0, marker = markers.get(number);
      const rests = !parties && (!drive || moment >= drive.arrive);
      marker.setLatLng(drive ? placeOn(drive, moment, place) : place(node));
      marker.setStyle({fillColor: rests ? IDLE : COLORS[Math.min(2, parties)]}).bringToFront();
    }
  }

  let before = null;
  function step(now) {
    if (before === null) return;
    const length = Number(slider.max) - Number(slider.min), passed = (now - before) / 1000 * length / PLAY_SECONDS;
    if (passed >= 1) {
      before = now;
      slider.value = Math.min(Number(slider.max), Number(slider.value) + Math.floor(passed));
      draw();
    }
    if (slider.value === slider.max) toggle(); else requestAnimationFrame(step);
  }
  function toggle() {
    before = before === null ? performance.now() : null;
    play.textContent = before === null ? "Play" : "Pause";
    if (before !== null) {
      if (slider.value === slider.max) slider.value = slider.min;
      requestAnimationFrame(step);
    }
  }
  const asked = Number(location.hash.slice(1));
  if (location.hash.length > 1 && Number.isFinite(asked)) slider.value = asked;
  slider.addEventListener("input", draw);
  play.addEventListener("click", toggle);
  draw();
}

start();
