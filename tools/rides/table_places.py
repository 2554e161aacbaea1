"""Places in the rows of tables, and the nodes that they go to."""

from __future__ import annotations

from rides.nearest import NearestNodes
from rides.places import MILLIONTHS


class Unusable(Exception):
    """Why a row can't be used."""


def node_of(fields: dict[str, str], prefix: str, nodes: NearestNodes, within: float) -> int:
    """The node nearest to the place of a row's columns PREFIXlongitude and PREFIXlatitude, in degrees.

    A place that is further than `within` metres from every node can't be used.
    """
    longitude = coordinate_of(fields, f"{prefix}longitude", 180)
    latitude = coordinate_of(fields, f"{prefix}latitude", 90)
    found = nodes.nearest(longitude, latitude, within)
    if found is None:
        place = f"{fields[f'{prefix}longitude']},{fields[f'{prefix}latitude']}"
        raise Unusable(f"no node of the map is within {within:g} metres of {place}")
    return found[0]


def coordinate_of(fields: dict[str, str], name: str, most: int) -> int:
    """A column of degrees, from -`most` to `most`, in millionths of a degree."""
    try:
        degrees = float(fields[name])
    except ValueError:
        raise Unusable(f"{name} '{fields[name]}' is no number") from None
    if not -most <= degrees <= most:
        raise Unusable(f"{name} '{fields[name]}' isn't from -{most} to {most} degrees")
    return round(degrees * MILLIONTHS)
