"""The replay of a journal over a city and a fleet, by the program's own rules."""

from __future__ import annotations

from collections.abc import Iterator
from enum import StrEnum
from functools import cached_property
from heapq import heappop, heappush
from typing import Protocol

from rides import limits
from rides.cities import City
from rides.distances import Distances
from rides.faults import Fault
from rides.fleets import Cab
from rides.journals import Advance, Assign, Cancel, Event, Journal, Nobody, PrintedWalk, Serve, Submit
from rides.schedules import Drive, Plan, Ride, Service, Stop, Vehicle, Walk, inserted_legs, joined_legs


class Outcome(StrEnum):
    """What became of a request: the last two where the journal ends before more is known."""

    SERVED = "served"
    TURNED_DOWN = "turned down"
    REFUSED = "refused"
    CANCELLED = "cancelled"
    PLANNED = "planned"
    WAITING = "waiting"


class Watcher(Protocol):
    """Is told what happens, as it happens."""

    def drove(self, drive: Drive) -> None:
        """A vehicle drove from a stop, or a place where it changed its route, to the next."""

    def ended(self, ride: Ride, outcome: Outcome, reason: str) -> None:
        """Nothing more happens to a ride. The reason is that of a refusal, else empty."""


class Replay:
    """Follows a journal: the vehicles' lists of stops, walks and times, and the rides that wait or are planned.

    Every walk has to be one of the city with the ends that the list wants, every planned and served time the one that
    follows from the walks and the stop time, every stop served when its moment comes, and nobody rides without a seat
    or a space or beyond a vehicle's service. Else the journal doesn't fit, which is a fault of its line. Whether a
    better answer was there isn't asked, nor whether a promise was broken.
    """

    def __init__(self, city: City, cabs: list[Cab], stop_time: int, path: str, watchers: list[Watcher]) -> None:
        self.city = city
        self.vehicles = [Vehicle(cab, cab.start, cab.begin) for cab in cabs]
        self.places = {cab.number: place for place, cab in enumerate(cabs)}
        self.stop_time = stop_time
        self.journal = Journal(path)
        self.watchers = watchers
        self.clock = 0
        self.waiting: dict[int, Ride] = {}
        self.planned: dict[int, Ride] = {}
        self.arrivals: list[tuple[int, int]] = []
        self.due: Iterator[Serve] = iter(())

    @cached_property
    def distances(self) -> Distances:
        """The distances of the city, which are made ready when the first one is asked for."""
        return Distances(self.city)

    def run(self) -> None:
        """Follows the journal to its end."""
        for event in self.journal.events():
            if not isinstance(event, Serve):
                self.expect_no_stop(event.line)
            self.take(event)
        self.expect_no_stop(self.journal.line)
        for outcome, rides in ((Outcome.WAITING, self.waiting), (Outcome.PLANNED, self.planned)):
            for number in sorted(rides):
                self.tell_ended(rides[number], outcome)

    def take(self, event: Event) -> None:
        """Follows one entry."""
        if isinstance(event, Submit):
            self.submit(event)
        elif isinstance(event, Assign):
            self.assign(event)
        elif isinstance(event, Nobody):
            self.tell_ended(self.answered(event), Outcome.TURNED_DOWN)
        elif isinstance(event, Advance):
            self.advance(event)
        elif isinstance(event, Serve):
            self.serve(event)
        elif isinstance(event, Cancel) and not event.refusal:
            self.cancel(event)

    def fault(self, line: int, what: str) -> Fault:
        """The fault of a line that doesn't fit."""
        return self.journal.fault(line, f"doesn't fit: {what}")

    def tell_ended(self, ride: Ride, outcome: Outcome, reason: str = "") -> None:
        """Tells the watchers the end of a ride."""
        for watcher in self.watchers:
            watcher.ended(ride, outcome, reason)

    def tell_drove(self, drive: Drive | None) -> None:
        """Tells the watchers of a drive, where there is one that leaves its node."""
        if drive and len(drive.walk.nodes) > 1:
            for watcher in self.watchers:
                watcher.drove(drive)

    def submit(self, event: Submit) -> None:
        """A request waits, or is refused."""
        ride = Ride(event.request, event.pickup, event.dropoff, event.moment, event.riders, event.spaces)
        is_inside = all(1 <= node <= self.city.nodes for node in (event.pickup, event.dropoff))
        if event.refusal:
            if event.refusal == "place" and is_inside:
                raise self.fault(event.line, "both places of the refused request are in the map")
            self.tell_ended(ride, Outcome.REFUSED, event.refusal)
            return
        if not is_inside:
            raise self.fault(event.line, f"a place isn't a node from 1 to {self.city.nodes}")
        if event.moment < self.clock or event.moment > limits.MOMENT:
            raise self.fault(event.line, f"the moment {event.moment} isn't at or after the clock {self.clock}")
        if event.riders > limits.SEATS or event.spaces > limits.SEATS or not event.riders + event.spaces:
            raise self.fault(event.line, "no board accepts so many riders")
        if event.request in self.waiting or event.request in self.planned:
            raise self.fault(event.line, f"request {event.request} was accepted before")
        self.waiting[event.request] = ride

    def answered(self, event: Assign | Nobody) -> Ride:
        """The waiting ride that an answer is for."""
        ride = self.waiting.pop(event.request, None)
        if ride is None:
            raise self.fault(event.line, f"request {event.request} doesn't wait")
        return ride

    def vehicle(self, line: int, number: int) -> Vehicle:
        """The vehicle of a number."""
        if number not in self.places:
            raise self.fault(line, f"vehicle {number} isn't in the fleet")
        return self.vehicles[self.places[number]]

    def assign(self, event: Assign) -> None:
        """A vehicle takes a ride."""
        ride, vehicle = self.answered(event), self.vehicle(event.line, event.vehicle)
        pickup, dropoff, count = event.pickup_place, event.dropoff_place, len(vehicle.stops)
        if not pickup <= dropoff <= count or count + 2 > limits.STOPS:
            raise self.fault(event.line, f"no places {pickup} and {dropoff} in a list of {count} stops")
        if pickup == 0:
            self.tell_drove(vehicle.move_to_front(self.clock))
        walks = self.known_walks(event, event.walks, inserted_legs(pickup, dropoff, count))
        ride.plan = Plan(event.vehicle, event.departure, event.arrival)
        vehicle.insert(pickup, dropoff, ride, walks)
        self.check_ends(vehicle, event.walks)
        vehicle.plan(self.stop_time)
        if pickup == dropoff:
            ride.direct = walks[pickup + 1].offsets[-1]
        departure, arrival = vehicle.stops[pickup].departure, vehicle.stops[dropoff + 1].arrival
        if (departure, arrival) != (event.departure, event.arrival):
            raise self.fault(
                event.line,
                f"departure {event.departure} and arrival {event.arrival} aren't the {departure} and {arrival} "
                f"that the walks and a stop time of {self.stop_time} give",
            )
        self.check_room(event.line, vehicle)
        self.planned[ride.request] = ride
        self.note_arrival(vehicle)

    def cancel(self, event: Cancel) -> None:
        """A planned ride is taken out of its vehicle's list."""
        ride, vehicle = self.planned.get(event.request), self.vehicle(event.line, event.vehicle)
        pickup, dropoff, count = event.pickup_position, event.dropoff_position, len(vehicle.stops)
        is_its = 1 <= pickup < dropoff <= count and all(
            (stop.ride, stop.is_pickup) == (ride, is_pickup)
            for stop, is_pickup in ((vehicle.stops[pickup - 1], True), (vehicle.stops[dropoff - 1], False))
        )
        if ride is None or not is_its:
            raise self.fault(
                event.line, f"stops {pickup} and {dropoff} of vehicle {event.vehicle} aren't those of {event.request}"
            )
        if pickup == 1:
            self.tell_drove(vehicle.move_to_front(self.clock))
        walks = self.known_walks(event, event.walks, joined_legs(pickup, dropoff, count))
        vehicle.remove(pickup, dropoff, walks)
        self.check_ends(vehicle, event.walks)
        vehicle.plan(self.stop_time)
        self.note_arrival(vehicle)
        self.tell_ended(self.planned.pop(event.request), Outcome.CANCELLED)

    def known_walks(self, event: Assign | Cancel, walks: list[PrintedWalk], legs: list[int]) -> dict[int, Walk]:
        """The printed walks by leg, with their lengths. They have to be of exactly these legs."""
        for walk, leg in zip(walks, legs):
            if walk.leg != leg:
                raise self.fault(walk.line, f"a walk of leg {walk.leg} where one of leg {leg} belongs")
        if len(walks) != len(legs):
            last = walks[-1].line if walks else event.line
            raise self.fault(last, f"{len(walks)} walks in place of {len(legs)}")
        return {walk.leg: self.known_walk(walk) for walk in walks}

    def known_walk(self, printed: PrintedWalk) -> Walk:
        """A printed walk with its lengths. Its nodes have to be joined by roads of the city."""
        nodes, offset = printed.nodes, 0
        offsets = [0]
        if not all(1 <= node <= self.city.nodes for node in nodes):
            raise self.fault(printed.line, f"the walk has a node that isn't from 1 to {self.city.nodes}")
        for tail, head in zip(nodes, nodes[1:]):
            weight = self.city.weight(tail, head)
            if weight is None:
                raise self.fault(printed.line, f"no road leads from node {tail} to node {head}")
            offset += weight
            offsets.append(offset)
        return Walk(nodes, offsets)

    def check_ends(self, vehicle: Vehicle, walks: list[PrintedWalk]) -> None:
        """Each printed walk has to join the two places of its leg."""
        for walk in walks:
            ends = (vehicle.place(walk.leg), vehicle.place(walk.leg + 1))
            if (walk.nodes[0], walk.nodes[-1]) != ends:
                raise self.fault(walk.line, f"the walk doesn't lead from node {ends[0]} to node {ends[1]}")

    def check_room(self, line: int, vehicle: Vehicle) -> None:
        """Every rider has to have a seat or a space, and the last stop to be left within the vehicle's service."""
        cab = vehicle.cab
        riders, spaces = vehicle.most_aboard()
        if riders > cab.seats or spaces > cab.spaces:
            raise self.fault(
                line, f"vehicle {cab.number} has {cab.seats} seats and {cab.spaces} spaces for {riders} and {spaces}"
            )
        if vehicle.stops[-1].departure > cab.end:
            raise self.fault(
                line,
                f"vehicle {cab.number} would leave its last stop at {vehicle.stops[-1].departure}, after {cab.end}",
            )

    def note_arrival(self, vehicle: Vehicle) -> None:
        """Remembers when a vehicle reaches its first stop."""
        if vehicle.stops:
            heappush(self.arrivals, (vehicle.stops[0].arrival, self.places[vehicle.cab.number]))

    def advance(self, event: Advance) -> None:
        """The clock moves, and stops fall due."""
        if event.refused_at != (self.clock if event.moment < self.clock else None):
            raise self.fault(event.line, f"the clock stands at {self.clock}")
        if event.refused_at is None:
            self.clock = event.moment
            self.due = self.stops_due()

    def stops_due(self) -> Iterator[Serve]:
        """Serves the stops that are reached by the clock, vehicle by vehicle, and gives the lines that tell so."""
        due: set[int] = set()
        while self.arrivals and self.arrivals[0][0] <= self.clock:
            due.add(heappop(self.arrivals)[1])
        for place in sorted(due):
            vehicle = self.vehicles[place]
            while vehicle.stops and vehicle.stops[0].arrival <= self.clock:
                stop, drive = vehicle.serve()
                self.tell_drove(drive)
                self.keep_time(stop)
                kind = "p" if stop.is_pickup else "d"
                yield Serve(0, vehicle.cab.number, stop.ride.request, kind, stop.node, stop.arrival, stop.departure)
            self.note_arrival(vehicle)

    def keep_time(self, stop: Stop) -> None:
        """Notes the time of a served stop with its ride, which ends at its dropoff."""
        ride = stop.ride
        if stop.is_pickup:
            ride.left = stop.departure
        elif ride.left is not None:
            taken = stop.arrival - ride.left
            direct = ride.direct
            if direct is None:
                direct = self.distances.between(ride.pickup, ride.dropoff, taken)
            ride.service = Service(ride.left, stop.arrival, ride.left - ride.moment, taken, direct)
            del self.planned[ride.request]
            self.tell_ended(ride, Outcome.SERVED)

    def serve(self, event: Serve) -> None:
        """A printed stop has to be the one that is due next, at its times."""
        wanted = next(self.due, None)
        if wanted is None:
            raise self.fault(event.line, "no stop is due")
        wanted.line = event.line
        if event != wanted:
            raise self.fault(event.line, f"due is '{served_line(wanted)}'")

    def expect_no_stop(self, line: int) -> None:
        """No stop may be due before an entry at this line, or the end of the journal before it."""
        missing = next(self.due, None)
        if missing is not None:
            raise self.fault(line, f"before it '{served_line(missing)}' is due")


def served_line(stop: Serve) -> str:
    """The line that tells of a served stop."""
    return f"s {stop.vehicle} {stop.request} {stop.kind} {stop.node} {stop.arrival} {stop.departure}"
