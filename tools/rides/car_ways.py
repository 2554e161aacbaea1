"""Which ways of OpenStreetMap a taxi may use, in which directions, and how fast, by their tags."""

from __future__ import annotations

from collections.abc import Mapping

SPEEDS = {
    "motorway": 110,
    "motorway_link": 60,
    "trunk": 90,
    "trunk_link": 50,
    "primary": 50,
    "primary_link": 40,
    "secondary": 50,
    "secondary_link": 40,
    "tertiary": 50,
    "tertiary_link": 40,
    "unclassified": 40,
    "residential": 30,
    "living_street": 10,
    "service": 15,
    "road": 30,
}
"""The kinds of `highway` that are for cars, with the speed in km/h that stands for a missing limit."""

ACCESS_KEYS = ("taxi", "motorcar", "motor_vehicle", "vehicle", "access")
"""The keys that say who may use a way; the first one that is there decides."""

CLOSED = {"no", "private", "agricultural", "forestry", "agricultural;forestry", "delivery", "emergency", "military"}
"""The values of those keys that keep a taxi out."""

BARRIERS = {"bollard", "block", "jersey_barrier", "cycle_barrier", "debris", "log", "planter", "chain"}
"""The kinds of `barrier` on a node that stop a car, unless a key of access lets it through."""

WORDS_FOR_SPEEDS = {"none": 130.0, "walk": 6.0}
"""Limits that are words, in km/h."""

MILE = 1.609344
"""Kilometres in a mile."""


def is_closed(tags: Mapping[str, str]) -> bool:
    """Whether the keys of access keep a taxi out."""
    return next((tags[key] in CLOSED for key in ACCESS_KEYS if key in tags), False)


def is_barrier(tags: Mapping[str, str]) -> bool:
    """Whether no car gets past a node."""
    if tags.get("barrier") not in BARRIERS:
        return False
    return is_closed(tags) or not any(key in tags for key in ACCESS_KEYS)


def reason_to_drop(tags: Mapping[str, str]) -> str | None:
    """Why a way with a key `highway` is no road for a taxi, or None where it is one."""
    if tags["highway"] not in SPEEDS or tags.get("area") == "yes":
        return "ways that aren't for cars"
    if is_closed(tags):
        return "ways closed to taxis"
    if tags.get("oneway") in ("reversible", "alternating"):
        return "ways whose direction changes"
    return None


def directions(tags: Mapping[str, str]) -> tuple[bool, bool]:
    """Whether a way may be driven in the order of its nodes, and whether against it."""
    oneway = tags.get("oneway")
    if oneway in ("yes", "true", "1"):
        return True, False
    if oneway in ("-1", "reverse"):
        return False, True
    if oneway in ("no", "false", "0"):
        return True, True
    is_oneway = tags.get("junction") in ("roundabout", "circular") or tags["highway"] == "motorway"
    return True, not is_oneway


def speed(tags: Mapping[str, str], direction: str) -> float:
    """The speed of a way in metres a second; the direction is `forward` or `backward`."""
    for key in (f"maxspeed:{direction}", "maxspeed"):
        limit = limit_of(tags.get(key, ""))
        if limit:
            return limit / 3.6
    return SPEEDS[tags["highway"]] / 3.6


def limit_of(text: str) -> float | None:
    """A speed limit in km/h, or None where the text is none: `50`, `50 km/h`, `30 mph`, `none` and `walk` are."""
    if text in WORDS_FOR_SPEEDS:
        return WORDS_FOR_SPEEDS[text]
    unit = MILE if text.endswith("mph") else 1.0
    digits = text.removesuffix("mph").removesuffix("km/h").removesuffix("kmh").strip()
    if not digits.isascii() or not digits.isdigit() or len(digits) > 3 or not int(digits):
        return None
    return int(digits) * unit
