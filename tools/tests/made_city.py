"""Makes a city as an OpenStreetMap extract: a bent grid, one-way streets, a roundabout, a motorway, footpaths.

As a program: /usr/bin/python3 tools/tests/made_city.py COLUMNS ROWS OUTPUT.osm
"""

from __future__ import annotations

import math
import random
import sys
from collections.abc import Iterable
from typing import TextIO

WEST, SOUTH = 7.80, 47.95
BLOCK_METRES = 180.0
METRES_NORTH = 111_195.0
METRES_EAST = METRES_NORTH * math.cos(math.radians(SOUTH))

ONE_WAY_ROW = 2
"""The street along this row may be driven in the order of its nodes alone."""

FOOTPATH = "footpath"
MOTORWAY = "motorway"
ROUNDABOUT = "roundabout"


class Extract:
    """Writes nodes first and keeps the ways for the end, as extracts do."""

    def __init__(self, file: TextIO) -> None:
        self.file = file
        self.nodes = 0
        self.ways: list[tuple[list[int], dict[str, str]]] = []
        file.write('<?xml version="1.0" encoding="UTF-8"?>\n<osm version="0.6" generator="made city">\n')

    def node(self, x: float, y: float) -> int:
        """Adds a node at metres east and north of the south-western corner."""
        self.nodes += 1
        longitude, latitude = WEST + x / METRES_EAST, SOUTH + y / METRES_NORTH
        self.file.write(f'<node id="{self.nodes}" lat="{latitude:.7f}" lon="{longitude:.7f}"/>\n')
        return self.nodes

    def way(self, nodes: Iterable[int], **tags: str) -> None:
        """Adds a way."""
        self.ways.append((list(nodes), tags))

    def end(self) -> None:
        """Writes the ways and ends the extract."""
        for number, (nodes, tags) in enumerate(self.ways, 1):
            self.file.write(f'<way id="{number}">' + "".join(f'<nd ref="{node}"/>' for node in nodes))
            self.file.write("".join(f'<tag k="{key}" v="{value}"/>' for key, value in tags.items()) + "</way>\n")
        self.file.write("</osm>\n")


def write_city(file: TextIO, columns: int, rows: int, seed: int = 7) -> Extract:
    """Writes a city of columns times rows junctions, at least 5 each."""
    draw = random.Random(seed)
    extract = Extract(file)
    grid = [[extract.node(*junction(column, row, draw)) for column in range(columns)] for row in range(rows)]
    for row in range(rows):
        kind = street_kind(row)
        for column in range(columns - 1):
            tags = {"oneway": "yes"} if row % 5 == ONE_WAY_ROW else {}
            extract.way(grid[row][column : column + 2], highway=kind, name=f"Row {row}", **tags)
    for column in range(columns):
        kind = street_kind(column)
        for row in range(rows - 1):
            tags = {"oneway": "-1"} if column % 5 == 3 else {}
            extract.way([grid[row][column], grid[row + 1][column]], highway=kind, name=f"Column {column}", **tags)
    add_roundabout(extract, grid[1][1])
    add_motorway(extract, grid, columns, rows)
    for at in range(min(columns, rows) - 1):
        extract.way([grid[at][at], grid[at + 1][at + 1]], highway="footway", name=FOOTPATH)
    extract.way([grid[0][0], extract.node(-200, -200)], highway="residential", access="private")
    extract.way([extract.node(-900, 0), extract.node(-900, 100)], highway="residential", name="island")
    extract.end()
    return extract


def junction(column: int, row: int, draw: random.Random) -> tuple[float, float]:
    """The place of a junction, on a grid that is bent round and shaken."""
    x, y = column * BLOCK_METRES, row * BLOCK_METRES
    bend = math.sin(x / 2500) * 260 + math.cos(y / 1900) * 190
    return x + bend * 0.6 + draw.uniform(-38, 38), y + bend + draw.uniform(-38, 38)


def street_kind(at: int) -> str:
    """Every sixth street is a main street."""
    return "secondary" if at % 6 == 0 else "residential"


def add_roundabout(extract: Extract, centre: int) -> None:
    """Adds a ring of four nodes with an arm to a junction."""
    ring = [extract.node(x, y) for x, y in ((-60, -90), (-30, -60), (-60, -30), (-90, -60))]
    extract.way([*ring, ring[0]], highway="tertiary", junction="roundabout", name=ROUNDABOUT)
    extract.way([ring[1], centre], highway="tertiary", maxspeed="30 mph")


def add_motorway(extract: Extract, grid: list[list[int]], columns: int, rows: int) -> None:
    """Adds a motorway of two carriageways along the city, with ramps at both ends."""
    length, y = columns * BLOCK_METRES, rows * BLOCK_METRES + 450
    there = [extract.node(x * length / 8, y) for x in range(9)]
    back = [extract.node(x * length / 8, y + 40) for x in range(8, -1, -1)]
    extract.way(there, highway="motorway", maxspeed="120", name=MOTORWAY)
    extract.way(back, highway="motorway", maxspeed="120", name=MOTORWAY)
    for ramp in (
        [grid[-1][0], there[0]],
        [there[-1], grid[-1][-1]],
        [grid[-1][-1], back[0]],
        [back[-1], grid[-1][0]],
    ):
        extract.way(ramp, highway="motorway_link", oneway="yes")


if __name__ == "__main__":
    with open(sys.argv[3], "w", encoding="utf-8") as output:
        write_city(output, int(sys.argv[1]), int(sys.argv[2]))
