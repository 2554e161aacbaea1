"""The line of four nodes that tests are worked by hand on."""

from __future__ import annotations

from tests.support import FolderTest

LINE = "p sp 4 6\na 1 2 10\na 2 1 10\na 2 3 10\na 3 2 10\na 3 4 10\na 4 3 10\n"
"""Nodes 1 to 4 in a line, both ways, ten seconds apart."""

PLACES = "p aux sp co 4\nv 1 0 0\nv 2 900 0\nv 3 1800 0\nv 4 2700 0\n"
"""A hundred metres apart, along the equator."""

FLEET = "vehicle,start,seats,from,until\n1,1,2,0,1000\n"
"""One vehicle at node 1 with two seats."""


def put_line(test: FolderTest) -> None:
    """Puts the line's graph, places and fleet into a test's folder."""
    test.put("line.gr", LINE)
    test.put("line.co", PLACES)
    test.put("line.csv", FLEET)
