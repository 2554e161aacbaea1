"""Figures of a replay: outcomes, waits, rides, detours, driving, and occupancy over the day."""

from __future__ import annotations

from collections import Counter
from dataclasses import dataclass, field

from rides.cities import City
from rides.replay import Outcome
from rides.schedules import Drive, Ride
from rides.texts import clock

LOADS = ("empty", "one party", "shared")
"""What a vehicle drives with: nobody aboard, the riders of one request, those of several."""

WIDENINGS = (5, 3, 4, 5, 3)
"""From a second by 5 and 15 seconds and 1 and 5 minutes to 15; from there on by twos."""

MOST_SPANS = 150


@dataclass
class Spread:
    """Whole numbers, by how often each came. Memory is that of the different numbers alone."""

    counts: Counter[int] = field(default_factory=Counter)

    def add(self, value: int) -> None:
        """Takes one more."""
        self.counts[value] += 1

    def count(self) -> int:
        """How many there are."""
        return self.counts.total()

    def mean(self) -> float:
        """Their mean; there is at least one."""
        return sum(value * count for value, count in self.counts.items()) / self.count()

    def at(self, rank: int) -> int:
        """The number at a rank from 1 in rising order."""
        for value in sorted(self.counts):
            rank -= self.counts[value]
            if rank <= 0:
                return value
        raise ValueError("no such rank")

    def median(self) -> float:
        """The middle one, or the mean of the two in the middle."""
        count = self.count()
        return (self.at((count + 1) // 2) + self.at(count // 2 + 1)) / 2

    def percentile(self, percent: int) -> int:
        """The least number such that so many percent are at most it."""
        return self.at(max(1, -(-self.count() * percent // 100)))


@dataclass
class Driven:
    """Seconds and metres driven, by load, and with every seat taken."""

    seconds: dict[str, int] = field(default_factory=lambda: dict.fromkeys(LOADS, 0))
    metres: dict[str, float] = field(default_factory=lambda: dict.fromkeys(LOADS, 0.0))
    full_seconds: int = 0
    full_metres: float = 0.0

    def add(self, load: str, is_full: bool, seconds: int, metres: float) -> None:
        """Takes one more drive."""
        self.seconds[load] += seconds
        self.metres[load] += metres
        if is_full:
            self.full_seconds += seconds
            self.full_metres += metres


class Occupancy:
    """Seconds driven by load, and riders' seconds, in spans of the day of one length.

    The spans are widened as the day grows, so that there are at most 150 of them.
    """

    def __init__(self) -> None:
        self.width = 1
        self.widened = 0
        self.spans: dict[int, list[int]] = {}
        self.first: int | None = None
        self.last = 0

    def add(self, begin: int, end: int, load: str, riders: int) -> None:
        """Takes a drive from a moment until a later one."""
        if begin == end:
            return
        self.first = begin if self.first is None else min(self.first, begin)
        self.last = max(self.last, end)
        while (self.last - 1) // self.width - self.first // self.width >= MOST_SPANS:
            self.widen()
        while begin < end:
            span = begin // self.width
            until = min(end, (span + 1) * self.width)
            sums = self.spans.setdefault(span, [0] * (len(LOADS) + 1))
            sums[LOADS.index(load)] += until - begin
            sums[-1] += riders * (until - begin)
            begin = until

    def widen(self) -> None:
        """Joins spans, so that they are longer."""
        factor = WIDENINGS[self.widened] if self.widened < len(WIDENINGS) else 2
        self.width *= factor
        self.widened += 1
        joined: dict[int, list[int]] = {}
        for span, sums in self.spans.items():
            before = joined.setdefault(span // factor, [0] * len(sums))
            joined[span // factor] = [one + other for one, other in zip(before, sums)]
        self.spans = joined

    def rows(self) -> list[tuple[int, list[float]]]:
        """For each span its beginning, the mean numbers of vehicles driving with each load, and that of riders."""
        if self.first is None:
            return []
        spans = range(self.first // self.width, (self.last - 1) // self.width + 1)
        none = [0] * (len(LOADS) + 1)
        return [(span * self.width, [sums / self.width for sums in self.spans.get(span, none)]) for span in spans]


class Figures:
    """Watches a replay and keeps its figures."""

    def __init__(self, city: City) -> None:
        self.city = city
        self.outcomes: Counter[Outcome] = Counter()
        self.refusals: Counter[str] = Counter()
        self.waits, self.rides, self.detours = Spread(), Spread(), Spread()
        self.driven = Driven()
        self.by_vehicle: dict[int, Driven] = {}
        self.riders_of_vehicle: Counter[int] = Counter()
        self.rides_of_vehicle: Counter[int] = Counter()
        self.occupancy = Occupancy()

    def drove(self, drive: Drive) -> None:
        """Takes a drive."""
        load = LOADS[min(2, len(drive.aboard))]
        riders = sum(ride.riders for ride in drive.aboard)
        seconds = drive.arrive - drive.leave
        nodes = drive.walk.nodes
        metres = sum(self.city.metres(tail, head) for tail, head in zip(nodes, nodes[1:]))
        own = self.by_vehicle.setdefault(drive.cab.number, Driven())
        for driven in (self.driven, own):
            driven.add(load, riders == drive.cab.seats, seconds, metres)
        everyone = riders + sum(ride.spaces for ride in drive.aboard)
        self.occupancy.add(drive.leave, drive.arrive, load, everyone)

    def ended(self, ride: Ride, outcome: Outcome, reason: str) -> None:
        """Takes the end of a ride."""
        self.outcomes[outcome] += 1
        if reason:
            self.refusals[reason] += 1
        if ride.service and ride.plan:
            self.waits.add(ride.service.wait)
            self.rides.add(ride.service.taken)
            self.detours.add(ride.service.detour)
            self.rides_of_vehicle[ride.plan.vehicle] += 1
            self.riders_of_vehicle[ride.plan.vehicle] += ride.riders + ride.spaces

    def summary(self) -> str:
        """The figures as a text."""
        parts = (self.outcome_lines(), self.spread_lines(), self.driven_lines(), self.day_lines())
        return "\n\n".join("\n".join(lines) for lines in parts) + "\n"

    def outcome_lines(self) -> list[str]:
        """How many requests came to which end."""
        found = [f"{'requests':<22}{self.outcomes.total():>10}"]
        for outcome in Outcome:
            found.append(f"  {outcome:<20}{self.outcomes[outcome]:>10}")
            if outcome is Outcome.REFUSED:
                found += [f"    {reason:<18}{self.refusals[reason]:>10}" for reason in sorted(self.refusals)]
        return found

    def spread_lines(self) -> list[str]:
        """Waits, rides and detours of the served, in seconds."""
        found = [f"{'seconds of the served':<22}{'mean':>10}{'median':>10}{'95 %':>10}"]
        for name, spread in (("wait", self.waits), ("ride", self.rides), ("detour", self.detours)):
            shown = (
                [f"{spread.mean():.1f}", f"{spread.median():.1f}", str(spread.percentile(95))]
                if spread.count()
                else ["-"] * 3
            )
            found.append(f"  {name:<20}" + "".join(f"{figure:>10}" for figure in shown))
        return found

    def driven_lines(self) -> list[str]:
        """What was driven, by load. The kilometres are straight from node to node."""
        seconds, metres = sum(self.driven.seconds.values()), sum(self.driven.metres.values())
        found = [f"{'driven':<22}{'seconds':>10}{'share':>10}{'km':>10}"]
        rows = [("all", seconds, metres)]
        rows += [(load, self.driven.seconds[load], self.driven.metres[load]) for load in LOADS]
        rows.append(("full", self.driven.full_seconds, self.driven.full_metres))
        for name, some, length in rows:
            share = f"{100 * some / seconds:.1f} %" if seconds else "-"
            found.append(f"  {name:<20}{some:>10}{share:>10}{length / 1000:>10.1f}")
        return found

    def day_lines(self) -> list[str]:
        """Vehicles driving by load, and riders aboard, over the day."""
        found = [f"{'vehicles driving from':<22}" + "".join(f"{load:>10}" for load in LOADS) + f"{'riders':>10}"]
        for begin, means in self.occupancy.rows():
            found.append(f"  {clock(begin):<20}" + "".join(f"{mean:>10.1f}" for mean in means))
        return found
