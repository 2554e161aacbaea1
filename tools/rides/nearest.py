"""The nearest node of a city to a place."""

from __future__ import annotations

import math
from array import array
from collections.abc import Iterator

from rides.cities import City
from rides.places import DEGREE_METRES, MILLIONTHS, metres_between

NODES_IN_CELL = 2


class NearestNodes:
    """The nodes of a city in a grid of square cells, about two nodes in each."""

    def __init__(self, city: City) -> None:
        """The city has at least one node."""
        self.city = city
        longitudes, latitudes = city.longitudes[1:], city.latitudes[1:]
        self.west, self.south = min(longitudes), min(latitudes)
        middle = math.radians((self.south + max(latitudes)) / 2 / MILLIONTHS)
        self.east_metres = DEGREE_METRES / MILLIONTHS * max(0.01, math.cos(middle))
        self.north_metres = DEGREE_METRES / MILLIONTHS
        width = (max(longitudes) - self.west) * self.east_metres
        height = (max(latitudes) - self.south) * self.north_metres
        self.cell = max(1.0, math.sqrt(width * height * NODES_IN_CELL / city.nodes), max(width, height) / 4096)
        self.columns = int(width // self.cell) + 1
        self.rows = int(height // self.cell) + 1
        self.fill()

    def fill(self) -> None:
        """Sorts the nodes by their cells: those of cell c are at `starts[c]` to `starts[c + 1] - 1` of `members`."""
        cells = array("I", [0])
        starts = array("I", bytes(4 * (self.columns * self.rows + 1)))
        for node in range(1, self.city.nodes + 1):
            column, row = self.cell_of(self.city.longitudes[node], self.city.latitudes[node])
            cells.append(row * self.columns + column)
            starts[cells[node] + 1] += 1
        for cell in range(1, len(starts)):
            starts[cell] += starts[cell - 1]
        free = starts[:]
        self.members = array("I", bytes(4 * self.city.nodes))
        for node in range(1, self.city.nodes + 1):
            self.members[free[cells[node]]] = node
            free[cells[node]] += 1
        self.starts = starts

    def cell_of(self, longitude: int, latitude: int) -> tuple[int, int]:
        """Column and row of a place, outside the grid too."""
        column = (longitude - self.west) * self.east_metres // self.cell
        row = (latitude - self.south) * self.north_metres // self.cell
        return int(column), int(row)

    def nearest(self, longitude: int, latitude: int, within: float) -> tuple[int, float] | None:
        """The nearest node to a place, and its distance in metres, or None where none is within the distance.

        Of nodes equally near it is the one with the lowest number.
        """
        column, row = self.cell_of(longitude, latitude)
        best: tuple[float, int] | None = None
        last = min(int(within // self.cell) + 2, max(self.columns, self.rows) + self.outside(column, row))
        for ring in range(last + 1):
            if best and best[0] < (ring - 1) * self.cell * 0.9:
                break
            for node in self.ring(column, row, ring):
                metres = metres_between(longitude, latitude, self.city.longitudes[node], self.city.latitudes[node])
                if metres <= within and (best is None or (metres, node) < best):
                    best = (metres, node)
        return (best[1], best[0]) if best else None

    def outside(self, column: int, row: int) -> int:
        """How many cells a cell is away from the grid."""
        return max(0, -column, column - self.columns + 1, -row, row - self.rows + 1)

    def ring(self, column: int, row: int, ring: int) -> Iterator[int]:
        """The nodes of the cells that are exactly so many columns or rows away."""
        whole = range(max(0, column - ring), min(self.columns - 1, column + ring) + 1)
        ends = [at for at in sorted({column - ring, column + ring}) if 0 <= at < self.columns]
        for at_row in range(max(0, row - ring), min(self.rows - 1, row + ring) + 1):
            for at_column in whole if abs(at_row - row) == ring else ends:
                cell = at_row * self.columns + at_column
                yield from self.members[self.starts[cell] : self.starts[cell + 1]]
