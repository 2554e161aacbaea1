"""`ride fleet`: a table of vehicles; and the reading of such tables."""

from __future__ import annotations

import random
from collections.abc import Iterator
from dataclasses import dataclass
from typing import TextIO

from rides import limits
from rides.cities import City, read_city
from rides.faults import Fault
from rides.nearest import NearestNodes
from rides.outputs import Outputs
from rides.table_places import Unusable, node_of
from rides.texts import number_of, table_rows

HEADER = ["vehicle", "start", "seats", "from", "until"]
PLACE_COLUMNS = ["longitude", "latitude"]


@dataclass(frozen=True, slots=True)
class Cab:
    """A vehicle of a fleet table. Service is from `begin` until `end`, in seconds."""

    number: int
    start: int
    seats: int
    begin: int
    end: int
    spaces: int


@dataclass(frozen=True, slots=True)
class Kind:
    """What the vehicles of a new table have in common, but where a table of places says otherwise."""

    seats: int
    spaces: int
    begin: int
    end: int


def spread_fleet(prefix: str, cars: int, seed: int, kind: Kind, output: str) -> int:
    """Writes a table of vehicles at nodes drawn by the seed, and gives their count."""
    city = read_city(prefix)
    draw = random.Random(seed)
    starts = (draw.randint(1, city.nodes) for _ in range(cars))
    return write_fleet(output, (cab_of(number, start, kind) for number, start in enumerate(starts, 1)), kind.spaces > 0)


def placed_fleet(prefix: str, places: str, within: float, kind: Kind, output: str) -> int:
    """Writes a table of the vehicles of a CSV file of places, and gives their count.

    Columns `seats`, `spaces`, `from` and `until` hold in the place of what the vehicles have in common. A place that
    can't be used, as one further than `within` metres from every node, is a fault.
    """
    city = read_city(prefix)
    cabs = list(cabs_at_places(city, places, within, kind))
    return write_fleet(output, iter(cabs), any(cab.spaces for cab in cabs))


def cab_of(number: int, start: int, kind: Kind) -> Cab:
    """A vehicle of a kind at a node."""
    return Cab(number, start, kind.seats, kind.begin, kind.end, kind.spaces)


def cabs_at_places(city: City, places: str, within: float, kind: Kind) -> Iterator[Cab]:
    """The vehicles of a CSV file of places, with their rows as numbers."""
    nodes = NearestNodes(city)
    for row, line, fields in table_rows(places, PLACE_COLUMNS, ["seats", "spaces", "from", "until"]):
        try:
            start = node_of(fields, "", nodes, within)
        except Unusable as reason:
            raise Fault(places, line, str(reason)) from None
        if row > limits.VEHICLES:
            raise Fault(places, line, f"more than {limits.VEHICLES:,} vehicles")
        own = {
            name: number_in(places, line, fields[name], name, least, most) if fields.get(name) else usual
            for name, least, most, usual in (
                ("seats", 1, limits.SEATS, kind.seats),
                ("spaces", 0, limits.SEATS, kind.spaces),
                ("from", 0, limits.MOMENT, kind.begin),
                ("until", 0, limits.MOMENT, kind.end),
            )
        }
        if own["from"] > own["until"]:
            raise Fault(places, line, "its service ends before it begins")
        yield Cab(row, start, own["seats"], own["from"], own["until"], own["spaces"])


def number_in(path: str, line: int, text: str, name: str, least: int, most: int) -> int:
    """The number that a field of a table is, in its range, or a fault."""
    number = number_of(text.encode(), most)
    if number is None or number < least:
        raise Fault(path, line, f"{name} '{text}' is no number from {least} to {most}")
    return number


def write_fleet(output: str, cabs: Iterator[Cab], has_spaces: bool) -> int:
    """Writes a table, with the column of spaces where some vehicle has any, and gives its number of vehicles."""
    with Outputs() as outputs:
        return write_table(outputs.open(output), cabs, has_spaces)


def write_table(file: TextIO, cabs: Iterator[Cab], has_spaces: bool) -> int:
    """As `write_fleet`, into an open file."""
    count = 0
    file.write(",".join([*HEADER, "spaces"] if has_spaces else HEADER) + "\n")
    for cab in cabs:
        fields = [cab.number, cab.start, cab.seats, cab.begin, cab.end]
        file.write(",".join(map(str, [*fields, cab.spaces] if has_spaces else fields)) + "\n")
        count += 1
    return count


def read_fleet(path: str, nodes: int) -> list[Cab]:
    """The vehicles of a table, in rising order of number. Their starts are nodes from 1 to `nodes`."""
    cabs: dict[int, Cab] = {}
    for row, line, fields in table_rows(path, HEADER, ["spaces"]):
        number = number_in(path, line, fields["vehicle"], "vehicle", 1, limits.VEHICLE_NUMBER)
        start = number_in(path, line, fields["start"], "start", 1, nodes)
        seats = number_in(path, line, fields["seats"], "seats", 1, limits.SEATS)
        begin = number_in(path, line, fields["from"], "from", 0, limits.MOMENT)
        end = number_in(path, line, fields["until"], "until", begin, limits.MOMENT)
        spaces = number_in(path, line, fields["spaces"], "spaces", 0, limits.SEATS) if "spaces" in fields else 0
        if number in cabs:
            raise Fault(path, line, f"vehicle {number} stood in an earlier row")
        if row > limits.VEHICLES:
            raise Fault(path, line, f"more than {limits.VEHICLES:,} vehicles")
        cabs[number] = Cab(number, start, seats, begin, end, spaces)
    return [cabs[number] for number in sorted(cabs)]
