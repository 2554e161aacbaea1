"""Vehicles with their lists of stops, and the rules of the times in them."""

from __future__ import annotations

from bisect import bisect_left
from dataclasses import dataclass, field

from rides.fleets import Cab


@dataclass(slots=True)
class Walk:
    """A way along nodes, with the seconds from its first node to each of them."""

    nodes: list[int]
    offsets: list[int]


@dataclass(frozen=True, slots=True)
class Plan:
    """What an answer promises: the vehicle, when it leaves the pickup, and when it reaches the dropoff."""

    vehicle: int
    departure: int
    arrival: int


@dataclass(frozen=True, slots=True)
class Service:
    """How a ride was: when its pickup was left and its dropoff reached, and the seconds that it waited and rode.

    `direct` is the distance from the pickup to the dropoff.
    """

    left: int
    arrived: int
    wait: int
    taken: int
    direct: int

    @property
    def detour(self) -> int:
        """The seconds that it rode beyond the distance."""
        return self.taken - self.direct


@dataclass(slots=True, eq=False)
class Ride:
    """A request for a ride, what was promised, and how it was served; None where that hasn't come yet.

    `direct` is the distance from the pickup to the dropoff where the journal tells it, as legs are least walks.
    """

    request: int
    pickup: int
    dropoff: int
    moment: int
    riders: int
    spaces: int
    plan: Plan | None = None
    direct: int | None = None
    left: int | None = None
    service: Service | None = None


@dataclass(slots=True)
class Stop:
    """A pickup or a dropoff of a ride, with its planned times."""

    ride: Ride
    is_pickup: bool
    arrival: int = 0
    departure: int = 0

    @property
    def node(self) -> int:
        """Where it is."""
        return self.ride.pickup if self.is_pickup else self.ride.dropoff

    @property
    def ready(self) -> int:
        """The moment before which it isn't left."""
        return self.ride.moment if self.is_pickup else 0


@dataclass(slots=True)
class Drive:
    """A drive from one node to another without a stop, with the rides aboard."""

    cab: Cab
    leave: int
    walk: Walk
    aboard: tuple[Ride, ...]

    @property
    def arrive(self) -> int:
        """When it ends."""
        return self.leave + self.walk.offsets[-1]


@dataclass(slots=True)
class Front:
    """From where a vehicle can change its route: a node, a time, and the node's index on the walk of the first leg."""

    node: int
    time: int
    index: int


@dataclass(slots=True)
class Vehicle:
    """A place that is left at a time, and the stops behind it. Leg k leads from place k to place k + 1.

    Place 0 is the vehicle's own, place k its stop k, counted from 1. `has_halted` says that place 0 was a stop. The
    rules are those of the program: a stop takes the stop time, but none where it lies at the node of the place before
    it and that place was a stop too.
    """

    cab: Cab
    node: int
    departure: int
    has_halted: bool = False
    stops: list[Stop] = field(default_factory=list)
    legs: list[Walk] = field(default_factory=list)
    aboard: list[Ride] = field(default_factory=list)

    def front(self, clock: int) -> Front:
        """The front at a clock that is before the first stop's arrival, where there is a stop."""
        if not self.stops:
            return Front(self.node, max(self.departure, clock), 0)
        walk = self.legs[0]
        index = bisect_left(walk.offsets, max(0, clock - self.departure))
        return Front(walk.nodes[index], self.departure + walk.offsets[index], index)

    def move_to_front(self, clock: int) -> Drive | None:
        """Makes the front the vehicle's place, and gives the drive to it where it is a later node."""
        front, drive = self.front(clock), None
        if self.stops and front.index:
            walk = self.legs[0]
            done = Walk(walk.nodes[: front.index + 1], walk.offsets[: front.index + 1])
            drive = Drive(self.cab, self.departure, done, tuple(self.aboard))
        if front.time != self.departure:
            self.has_halted = False
        self.node, self.departure = front.node, front.time
        return drive

    def insert(self, pickup_place: int, dropoff_place: int, ride: Ride, walks: dict[int, Walk]) -> None:
        """Puts a ride's stops behind two places, with the walks of the changed legs. Place 0 is the front by then."""
        count = len(self.stops)
        broken = {pickup_place, dropoff_place}
        kept = iter([leg for at, leg in enumerate(self.legs) if at not in broken])
        self.stops = [
            *self.stops[:pickup_place],
            Stop(ride, True),
            *self.stops[pickup_place:dropoff_place],
            Stop(ride, False),
            *self.stops[dropoff_place:],
        ]
        self.legs = [walks[at] if at in walks else next(kept) for at in range(count + 2)]

    def remove(self, pickup: int, dropoff: int, walks: dict[int, Walk]) -> None:
        """Takes the stops at two positions from 1 out, with the walks of the joined legs."""
        count = len(self.stops)
        broken = {pickup - 1, pickup, dropoff - 1, dropoff}
        kept = iter([leg for at, leg in enumerate(self.legs) if at not in broken])
        self.stops = [stop for at, stop in enumerate(self.stops, 1) if at not in (pickup, dropoff)]
        self.legs = [walks[at] if at in walks else next(kept) for at in range(count - 2)]

    def plan(self, stop_time: int) -> None:
        """Computes all planned times anew."""
        node, departure, was_stop = self.node, self.departure, self.has_halted
        for stop, leg in zip(self.stops, self.legs):
            stop.arrival = departure + leg.offsets[-1]
            halt = 0 if was_stop and stop.node == node else stop_time
            stop.departure = max(stop.arrival + halt, stop.ready)
            node, departure, was_stop = stop.node, stop.departure, True

    def serve(self) -> tuple[Stop, Drive]:
        """Drives to the first stop, which becomes the vehicle's place."""
        stop, walk = self.stops.pop(0), self.legs.pop(0)
        drive = Drive(self.cab, self.departure, walk, tuple(self.aboard))
        self.node, self.departure, self.has_halted = stop.node, stop.departure, True
        if stop.is_pickup:
            self.aboard.append(stop.ride)
        else:
            self.aboard.remove(stop.ride)
        return stop, drive

    def place(self, at: int) -> int:
        """The node of a place: 0 is the vehicle's own, from 1 on those of the stops."""
        return self.stops[at - 1].node if at else self.node

    def most_aboard(self) -> tuple[int, int]:
        """The most riders on seats and the most in spaces on a leg of the list."""
        riders = sum(ride.riders for ride in self.aboard)
        spaces = sum(ride.spaces for ride in self.aboard)
        most_riders, most_spaces = riders, spaces
        for stop in self.stops:
            sign = 1 if stop.is_pickup else -1
            riders += sign * stop.ride.riders
            spaces += sign * stop.ride.spaces
            most_riders, most_spaces = max(most_riders, riders), max(most_spaces, spaces)
        return most_riders, most_spaces


def inserted_legs(pickup_place: int, dropoff_place: int, stops: int) -> list[int]:
    """The legs of the new list that an insertion into so many stops changes."""
    legs = [pickup_place, pickup_place + 1]
    if dropoff_place > pickup_place:
        legs.append(dropoff_place + 1)
    if dropoff_place < stops:
        legs.append(dropoff_place + 2)
    return legs


def joined_legs(pickup: int, dropoff: int, stops: int) -> list[int]:
    """The legs of the new list that a removal of the stops at two positions from 1 joins."""
    legs = [pickup - 1] if dropoff > pickup + 1 or dropoff < stops else []
    if dropoff > pickup + 1 and dropoff < stops:
        legs.append(dropoff - 2)
    return legs
