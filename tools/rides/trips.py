"""`ride trips`: a request stream from a table of trips."""

from __future__ import annotations

import heapq
import sys
import tempfile
from collections.abc import Iterable, Iterator
from contextlib import ExitStack
from dataclasses import dataclass
from typing import TextIO

from rides import limits
from rides.cities import read_city
from rides.faults import Fault
from rides.nearest import NearestNodes
from rides.outputs import Outputs
from rides.table_places import Unusable, node_of
from rides.texts import number_of, table_rows

PLACES = ["pickup_longitude", "pickup_latitude", "dropoff_longitude", "dropoff_latitude"]
COLUMNS = ["moment", *PLACES, "riders"]
OPTIONAL_COLUMNS = ["spaces"]

PARAMETERS = "--stop 30 --wait 300 --trip-num 17 --trip-den 10 --trip-add 120 --wait-weight 1 --trip-weight 10"
"""Parameters of the program for times in seconds: those of the experiments on LOUD (Buchhold, Sanders, Wagner, ALENEX
2021), but with half a minute for a stop."""

TRIPS_IN_RUN = 250_000


@dataclass(order=True, frozen=True, slots=True)
class Trip:
    """A trip that can be asked for, in the order of moments and then rows."""

    moment: int
    row: int
    pickup: int
    dropoff: int
    riders: int
    spaces: int


def make_stream(table: str, prefix: str, output: str, within: float) -> tuple[int, int]:
    """Writes a stream of the trips of a CSV file, and gives how many rows were used and how many were skipped.

    A place further than `within` metres from every node of the city can't be used. Each row that is skipped is told
    on the standard error, with its number and the reason.
    """
    nodes = NearestNodes(read_city(prefix))
    skipped = 0

    def usable() -> Iterator[Trip]:
        nonlocal skipped
        for row, line, fields in table_rows(table, COLUMNS, OPTIONAL_COLUMNS):
            try:
                yield trip_of(row, fields, nodes, within)
            except Unusable as reason:
                skipped += 1
                print(f"{table}: line {line}: row {row} is skipped: {reason}", file=sys.stderr)

    with ExitStack() as stack:
        runs = sorted_runs(usable(), stack)
        with Outputs() as outputs:
            used = write_stream(outputs.open(output), output, heapq.merge(*runs))
    return used, skipped


def trip_of(row: int, fields: dict[str, str], nodes: NearestNodes, within: float) -> Trip:
    """The trip of a row, or why it can't be used."""
    moment = moment_of(fields["moment"])
    pickup, dropoff = (node_of(fields, prefix, nodes, within) for prefix in ("pickup_", "dropoff_"))
    riders = count_of(fields, "riders")
    spaces = count_of(fields, "spaces") if fields.get("spaces") else 0
    if riders + spaces == 0:
        raise Unusable("nobody rides")
    if row > limits.REQUEST_NUMBER:
        raise Unusable(f"its number is above {limits.REQUEST_NUMBER:,}")
    return Trip(moment, row, pickup, dropoff, riders, spaces)


def moment_of(text: str) -> int:
    """A moment in seconds: a whole number, or hours, minutes and perhaps seconds as 8:05 or 08:05:00."""
    parts = [number for part in text.split(":") if (number := number_of(part.encode(), limits.MOMENT)) is not None]
    if len(parts) != text.count(":") + 1 or len(parts) > 3 or any(part > 59 for part in parts[1:]):
        raise Unusable(f"moment '{text}' is neither whole seconds nor a time of the day as 8:05 or 08:05:00")
    hours, minutes, seconds = [*parts, 0, 0][:3] if len(parts) > 1 else (0, 0, parts[0])
    moment = 3600 * hours + 60 * minutes + seconds
    if moment > limits.MOMENT:
        raise Unusable(f"moment '{text}' is after {limits.MOMENT:,} seconds")
    return moment


def count_of(fields: dict[str, str], name: str) -> int:
    """The riders on seats or in spaces of a row."""
    count = number_of(fields[name].encode(), limits.SEATS)
    if count is None:
        raise Unusable(f"{name} '{fields[name]}' is no number from 0 to {limits.SEATS}")
    return count


def sorted_runs(trips: Iterator[Trip], stack: ExitStack) -> list[Iterator[Trip]]:
    """The trips as sorted runs in temporary files, so that memory holds one run at a time."""
    runs: list[Iterator[Trip]] = []
    some: list[Trip] = []
    for trip in trips:
        some.append(trip)
        if len(some) == TRIPS_IN_RUN:
            runs.append(kept_run(some, stack))
            some = []
    some.sort()
    return [*runs, iter(some)]


def kept_run(trips: list[Trip], stack: ExitStack) -> Iterator[Trip]:
    """Sorts trips, writes them to a temporary file that lives as long as the stack, and reads them again."""
    file = stack.enter_context(tempfile.TemporaryFile("w+", prefix="ride-"))
    for trip in sorted(trips):
        print(trip.moment, trip.row, trip.pickup, trip.dropoff, trip.riders, trip.spaces, file=file)
    file.seek(0)
    return (Trip(*map(int, line.split())) for line in file)


def write_stream(file: TextIO, name: str, trips: Iterable[Trip]) -> int:
    """Writes `t` and `r` lines for the trips, and a last `t` line that lets every stop be served; counts the trips."""
    used = size = 0
    last = f"t {limits.MOMENT}\n"
    for trip in trips:
        spaces = f" {trip.spaces}" if trip.spaces else ""
        lines = f"t {trip.moment}\nr {trip.row} {trip.pickup} {trip.dropoff} {trip.moment} {trip.riders}{spaces}\n"
        size += len(lines)
        if size + len(last) > limits.TEXT_BYTES:
            raise Fault(name, None, f"the stream would be larger than {limits.TEXT_BYTES:,} bytes: split the table")
        file.write(lines)
        used += 1
    file.write(last)
    return used
