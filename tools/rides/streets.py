"""From streets between places, as a source of maps tells them, to a city in which every node reaches every other."""

from __future__ import annotations

import math
from array import array
from dataclasses import dataclass, field

from rides import limits
from rides.cities import City, by_tail
from rides.faults import Fault
from rides.texts import Progress


@dataclass
class Streets:
    """Places, numbered from 1 in the order in which they were added, and one-way roads between them."""

    longitudes: array = field(default_factory=lambda: array("i", [0]))
    latitudes: array = field(default_factory=lambda: array("i", [0]))
    tails: array = field(default_factory=lambda: array("I"))
    heads: array = field(default_factory=lambda: array("I"))
    weights: array = field(default_factory=lambda: array("I"))
    dropped: dict[str, int] = field(default_factory=dict)

    def add_place(self, longitude: int, latitude: int) -> int:
        """Adds a place in millionths of a degree, and gives its number."""
        self.longitudes.append(longitude)
        self.latitudes.append(latitude)
        return len(self.longitudes) - 1

    def add_road(self, tail: int, head: int, metres: float, speed: float) -> None:
        """Adds a one-way road; its weight is the seconds at a speed in metres a second, rounded up, and at least 1."""
        self.tails.append(tail)
        self.heads.append(head)
        self.weights.append(min(limits.WEIGHT, max(1, math.ceil(round(metres / speed, 6)))))

    def drop(self, reason: str, count: int = 1) -> None:
        """Counts what was left out, by the reason."""
        self.dropped[reason] = self.dropped.get(reason, 0) + count


def city_of(streets: Streets, source: str) -> City:
    """The largest part of the streets in which every node reaches every other, as a city.

    Nodes stand in the order of the streets' places. Of parallel roads the quickest is kept, and roads from a node to
    itself are left out. What is left out is counted in the streets. `source` is the file that a fault names.
    """
    places = len(streets.longitudes) - 1
    offsets, heads, weights = quickest_roads(streets, places)
    numbers, nodes = largest_part(places, offsets, heads)
    tails, new_heads, new_weights = array("I"), array("I"), array("I")
    for tail in range(1, places + 1):
        for road in range(offsets[tail], offsets[tail + 1]):
            if numbers[tail] and numbers[heads[road]]:
                tails.append(numbers[tail])
                new_heads.append(numbers[heads[road]])
                new_weights.append(weights[road])
    streets.drop("places outside the largest part", places - nodes)
    streets.drop("roads outside the largest part", len(heads) - len(tails))
    if not tails:
        raise Fault(source, None, "has no roads that lead to and fro for a car")
    if nodes > limits.NODES or len(tails) > limits.ROADS:
        raise Fault(
            source,
            None,
            f"{nodes:,} nodes and {len(tails):,} roads are more than {limits.NODES:,} and {limits.ROADS:,}",
        )
    longitudes, latitudes = array("i", [0]), array("i", [0])
    for place in range(1, places + 1):
        if numbers[place]:
            longitudes.append(streets.longitudes[place])
            latitudes.append(streets.latitudes[place])
    return City(nodes, *by_tail(nodes, tails, new_heads, new_weights), longitudes, latitudes)


def quickest_roads(streets: Streets, places: int) -> tuple[array, array, array]:
    """Offsets, heads and weights, by heads, without loops and with the quickest of parallel roads alone."""
    offsets, heads, weights = by_tail(places, streets.tails, streets.heads, streets.weights)
    kept_offsets, kept_heads, kept_weights = array("I", [0, 0]), array("I"), array("I")
    for tail in range(1, places + 1):
        quickest: dict[int, int] = {}
        loops = 0
        for road in range(offsets[tail], offsets[tail + 1]):
            head = heads[road]
            if head == tail:
                loops += 1
            else:
                quickest[head] = min(weights[road], quickest.get(head, limits.WEIGHT))
        for head in sorted(quickest):
            kept_heads.append(head)
            kept_weights.append(quickest[head])
        kept_offsets.append(len(kept_heads))
        streets.drop("roads from a node to itself", loops)
        streets.drop("roads beside a quicker one", offsets[tail + 1] - offsets[tail] - loops - len(quickest))
    return kept_offsets, kept_heads, kept_weights


def largest_part(places: int, offsets: array, heads: array) -> tuple[array, int]:
    """New numbers from 1 for the places of the largest strongly connected part, 0 for the others; and their count.

    The new numbers keep the order of the places. Of parts of one size it is the one that holds the first place.
    """
    parts = strong_parts(places, offsets, heads)
    sizes = array("I", bytes(4 * (places + 1)))
    for place in range(1, places + 1):
        sizes[parts[place]] += 1
    largest = parts[max(range(1, places + 1), key=lambda place: sizes[parts[place]])] if places else 0
    numbers, count = array("I", bytes(4 * (places + 1))), 0
    for place in range(1, places + 1):
        if parts[place] == largest:
            count += 1
            numbers[place] = count
    return numbers, count


def strong_parts(places: int, offsets: array, heads: array) -> array:
    """For each place the number of its strongly connected part (Tarjan 1972, with a stack in place of calls)."""
    parts = array("I", bytes(4 * (places + 1)))
    entered = array("I", bytes(4 * (places + 1)))
    lowest = array("I", bytes(4 * (places + 1)))
    next_road = offsets[:]
    open_places: list[int] = []
    clock = part = 0
    progress = Progress("finding the largest part")
    for start in range(1, places + 1):
        if entered[start]:
            continue
        path = [start]
        while path:
            place = path[-1]
            if not entered[place]:
                clock += 1
                entered[place] = lowest[place] = clock
                open_places.append(place)
                progress.tell(clock, places)
            if next_road[place] < offsets[place + 1]:
                head = heads[next_road[place]]
                next_road[place] += 1
                if not entered[head]:
                    path.append(head)
                elif not parts[head]:
                    lowest[place] = min(lowest[place], entered[head])
                continue
            path.pop()
            if path:
                lowest[path[-1]] = min(lowest[path[-1]], lowest[place])
            if lowest[place] == entered[place]:
                part += 1
                while not parts[place]:
                    parts[open_places.pop()] = part
    return parts
