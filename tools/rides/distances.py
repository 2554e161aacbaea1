"""Distances in a city."""

from __future__ import annotations

from array import array
from heapq import heappop, heappush

from rides.cities import City, by_tail


class Distances:
    """Searches from both ends (Nicholson 1966), over the roads and the roads turned round."""

    def __init__(self, city: City) -> None:
        tails = array("I", bytes(4 * len(city.heads)))
        for node in range(1, city.nodes + 1):
            for road in range(city.offsets[node], city.offsets[node + 1]):
                tails[road] = node
        self.forward = (city.offsets, city.heads, city.weights)
        self.backward = by_tail(city.nodes, city.heads, tails, city.weights)

    def between(self, start: int, end: int, known: int) -> int:
        """The distance from a node to another, where a walk of the length `known` is known."""
        if start == end:
            return 0
        best = known
        near_start, near_end = {start: 0}, {end: 0}
        from_start, from_end = [(0, start)], [(0, end)]
        while from_start and from_end and from_start[0][0] + from_end[0][0] < best:
            if from_start[0][0] <= from_end[0][0]:
                best = settle(from_start, near_start, near_end, self.forward, best)
            else:
                best = settle(from_end, near_end, near_start, self.backward, best)
        return best


def settle(
    heap: list, near: dict[int, int], other: dict[int, int], roads: tuple[array, array, array], best: int
) -> int:
    """Settles one node of a search, and gives the least length of a walk that the two searches know then."""
    offsets, heads, weights = roads
    distance, node = heappop(heap)
    if distance > near[node]:
        return best
    for road in range(offsets[node], offsets[node + 1]):
        head, length = heads[road], distance + weights[road]
        if length < best and length < near.get(head, best):
            near[head] = length
            heappush(heap, (length, head))
            if head in other:
                best = min(best, length + other[head])
    return best
