"""Lengths between places on the ground."""

from __future__ import annotations

import math

EARTH_RADIUS = 6_371_008.8
"""The mean radius of the earth in metres (IUGG)."""

DEGREE_METRES = math.pi * EARTH_RADIUS / 180
"""The length of a degree of latitude, in metres."""

MILLIONTHS = 1_000_000
"""Millionths of a degree in a degree."""


def metres_between(longitude: int, latitude: int, other_longitude: int, other_latitude: int) -> float:
    """The distance in metres of two places in millionths of a degree, as on a plane at their middle latitude.

    Right to a thousandth for places less than 100 kilometres apart and not near a pole.
    """
    middle = math.radians((latitude + other_latitude) / 2 / MILLIONTHS)
    east = (other_longitude - longitude) * math.cos(middle)
    return math.hypot(east, other_latitude - latitude) * DEGREE_METRES / MILLIONTHS
