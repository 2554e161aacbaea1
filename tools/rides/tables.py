"""The tables of a report, written as the replay goes on."""

from __future__ import annotations

import json
from typing import TextIO

from rides.cities import City
from rides.figures import LOADS, Driven, Figures
from rides.fleets import Cab
from rides.places import MILLIONTHS
from rides.replay import Outcome
from rides.schedules import Drive, Ride

RIDE_COLUMNS = [
    "request", "moment", "pickup", "dropoff", "riders", "spaces", "outcome", "reason", "vehicle",
    "planned_departure", "planned_arrival", "left", "arrived", "wait", "ride", "direct", "detour",
]  # fmt: skip

VEHICLE_COLUMNS = [
    "vehicle", "start", "seats", "spaces", "rides", "riders",
    "seconds_empty", "seconds_one_party", "seconds_shared", "seconds_full",
    "metres_empty", "metres_one_party", "metres_shared", "metres_full",
]  # fmt: skip


class RideTable:
    """Watches a replay and writes a CSV row for each ride, in the order in which they end. Times are in seconds."""

    def __init__(self, file: TextIO) -> None:
        self.file = file
        file.write(",".join(RIDE_COLUMNS) + "\n")

    def drove(self, drive: Drive) -> None:
        """A drive has no row here."""

    def ended(self, ride: Ride, outcome: Outcome, reason: str) -> None:
        """Writes a row. What isn't known is empty."""
        plan, service = ride.plan, ride.service
        fields: list[object] = [ride.request, ride.moment, ride.pickup, ride.dropoff, ride.riders, ride.spaces]
        fields += [outcome, reason]
        fields += [plan.vehicle, plan.departure, plan.arrival] if plan else [""] * 3
        fields.append("" if ride.left is None else ride.left)
        fields += (
            [service.arrived, service.wait, service.taken, service.direct, service.detour] if service else [""] * 5
        )
        self.file.write(",".join(map(str, fields)) + "\n")


class RouteCollection:
    """Watches a replay and writes each drive as a line of a GeoJSON collection (RFC 7946), in degrees."""

    def __init__(self, file: TextIO, city: City) -> None:
        self.file = file
        self.city = city
        self.between = ""
        file.write('{"type":"FeatureCollection","features":[\n')

    def drove(self, drive: Drive) -> None:
        """Writes a drive."""
        places = [
            [self.city.longitudes[node] / MILLIONTHS, self.city.latitudes[node] / MILLIONTHS]
            for node in drive.walk.nodes
        ]
        properties = {
            "vehicle": drive.cab.number,
            "leave": drive.leave,
            "arrive": drive.arrive,
            "requests": [ride.request for ride in drive.aboard],
            "riders": sum(ride.riders for ride in drive.aboard),
            "spaces": sum(ride.spaces for ride in drive.aboard),
        }
        feature = {
            "type": "Feature",
            "geometry": {"type": "LineString", "coordinates": places},
            "properties": properties,
        }
        self.file.write(self.between + json.dumps(feature, separators=(",", ":")))
        self.between = ",\n"

    def ended(self, ride: Ride, outcome: Outcome, reason: str) -> None:
        """A ride has no line here."""

    def close(self) -> None:
        """Ends the collection."""
        self.file.write("\n]}\n")


def write_vehicles(file: TextIO, cabs: list[Cab], figures: Figures) -> None:
    """Writes a CSV row for each vehicle: who was served, and seconds and metres driven by load."""
    file.write(",".join(VEHICLE_COLUMNS) + "\n")
    for cab in cabs:
        driven = figures.by_vehicle.get(cab.number, Driven())
        fields = [cab.number, cab.start, cab.seats, cab.spaces]
        fields += [figures.rides_of_vehicle[cab.number], figures.riders_of_vehicle[cab.number]]
        fields += [*(driven.seconds[load] for load in LOADS), driven.full_seconds]
        fields += [*(round(driven.metres[load]) for load in LOADS), round(driven.full_metres)]
        file.write(",".join(map(str, fields)) + "\n")
