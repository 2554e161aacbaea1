"""Journals read entry by entry."""

from __future__ import annotations

from collections import Counter
from collections.abc import Iterator
from dataclasses import dataclass

from rides import limits
from rides.faults import Fault
from rides.texts import lines

USUAL_STOP_TIME = 2
"""The stop time of the program where no option gives it, in seconds."""

SUBMIT_REASONS = {b"closed", b"place", b"riders", b"moment", b"repeated"}
CANCEL_REASONS = {b"unknown", b"waiting", b"nobody", b"cancelled", b"served"}
PROOF_WORDS = {b"u", b"w", b"e", b"f"}


@dataclass(slots=True)
class PrintedWalk:
    """The walk of a changed leg. `leg` is its index in the new list."""

    line: int
    leg: int
    nodes: list[int]


@dataclass(slots=True)
class Submit:
    """A request for a ride. `refusal` is the reason of a refused one."""

    line: int
    request: int
    pickup: int
    dropoff: int
    moment: int
    riders: int
    spaces: int
    refusal: str | None


@dataclass(slots=True)
class Assign:
    """A vehicle takes a request: pickup behind its stop `pickup_place`, dropoff behind its stop `dropoff_place`."""

    line: int
    request: int
    vehicle: int
    pickup_place: int
    dropoff_place: int
    cost: int
    departure: int
    arrival: int
    walks: list[PrintedWalk]


@dataclass(slots=True)
class Nobody:
    """No vehicle can take a request."""

    line: int
    request: int


@dataclass(slots=True)
class Advance:
    """The clock moves, or is refused to; `refused_at` is then where it stands, else None."""

    line: int
    moment: int
    refused_at: int | None


@dataclass(slots=True)
class Serve:
    """A stop was reached and left. `kind` is `p` or `d`."""

    line: int
    vehicle: int
    request: int
    kind: str
    node: int
    arrival: int
    departure: int


@dataclass(slots=True)
class Cancel:
    """A rider cancels: the stops at two positions from 1 leave the vehicle's list.

    A refused one has a reason as `refusal`, and no vehicle, positions and walks.
    """

    line: int
    request: int
    refusal: str | None
    vehicle: int
    pickup_position: int
    dropoff_position: int
    walks: list[PrintedWalk]


@dataclass(slots=True)
class Other:
    """A claim, its return, or the end of an open board, which move no vehicle."""

    line: int


Event = Submit | Assign | Nobody | Advance | Serve | Cancel | Other


class Journal:
    """The entries of a journal. Reads one line further than the entry that it has given."""

    def __init__(self, path: str) -> None:
        self.path = path
        self.lines = lines(path)
        self.line = 0
        self.fields: list[bytes] = []

    def events(self) -> Iterator[Event]:
        """The entries in order. A line that has no form of a journal, or not its place, is a fault."""
        self.step()
        while self.fields:
            line, fields = self.line, self.fields
            self.step()
            yield self.entry(line, fields)

    def entry(self, line: int, fields: list[bytes]) -> Event:
        """The entry that begins with a line of these fields; the lines that belong to it stand next."""
        match fields[0]:
            case b"r":
                return self.submit(line, fields)
            case b"a":
                return self.assign(line, fields)
            case b"n":
                return self.nobody(line, fields)
            case b"t":
                return self.advance(line, fields)
            case b"s":
                return self.serve(line, fields)
            case b"y":
                return self.cancel(line, fields)
            case b"k" | b"b" | b"z":
                return self.other(line, fields)
        raise self.fault(line, "no line that begins an entry of a journal")

    def step(self) -> None:
        """Goes to the next line. At the end there are no fields, and the line is the one behind the last."""
        self.line, text = next(self.lines, (self.line + 1, None))
        self.fields = [] if text is None else text.split()
        if text is not None and not self.fields:
            raise self.fault(self.line, "blank")

    def fault(self, line: int, what: str) -> Fault:
        """The fault of a line."""
        return Fault(self.path, line, what)

    def numbers(self, line: int, fields: list[bytes], least: int, most: int) -> list[int]:
        """The numbers that fields are, of which there are so many."""
        if not least <= len(fields) <= most:
            raise self.fault(line, f"{len(fields)} fields where {least} belong")
        if not b"".join(fields).isdigit() and fields:
            raise self.fault(line, "a field isn't a number")
        numbers = [int(field) if len(field) <= 19 else 1 << 63 for field in fields]
        if fields and max(numbers) > 1 << 62:
            raise self.fault(line, "a number is above 2^62")
        return numbers

    def refusal(self, reasons: set[bytes], request: int) -> str | None:
        """The reason of an `x` line of this request, where one stands next."""
        if self.fields[:1] != [b"x"]:
            return None
        line, fields = self.line, self.fields
        if len(fields) != 3 or fields[1] != b"%d" % request or fields[2] not in reasons:
            raise self.fault(line, f"no refusal of {request} for a reason that fits")
        self.step()
        return fields[2].decode()

    def submit(self, line: int, fields: list[bytes]) -> Submit:
        """A request, with its refusal."""
        request, pickup, dropoff, moment, riders, *spaces = self.numbers(line, fields[1:], 5, 6)
        refusal = self.refusal(SUBMIT_REASONS, request)
        return Submit(line, request, pickup, dropoff, moment, riders, spaces[0] if spaces else 0, refusal)

    def assign(self, line: int, fields: list[bytes]) -> Assign:
        """An answer by a vehicle, with its walks."""
        request, vehicle, pickup, dropoff, cost, departure, arrival = self.numbers(line, fields[1:], 7, 7)
        return Assign(line, request, vehicle, pickup, dropoff, cost, departure, arrival, self.walks())

    def nobody(self, line: int, fields: list[bytes]) -> Nobody:
        """An answer that turns a request down."""
        [request] = self.numbers(line, fields[1:], 1, 1)
        self.skip_proof()
        return Nobody(line, request)

    def advance(self, line: int, fields: list[bytes]) -> Advance:
        """A move of the clock, or one that is refused."""
        [moment] = self.numbers(line, fields[1:], 1, 1)
        if self.fields[:2] != [b"x", b"back"]:
            return Advance(line, moment, None)
        [clock] = self.numbers(self.line, self.fields[2:], 1, 1)
        self.step()
        return Advance(line, moment, clock)

    def serve(self, line: int, fields: list[bytes]) -> Serve:
        """A served stop."""
        if len(fields) != 7 or fields[3] not in (b"p", b"d"):
            raise self.fault(line, "no line 's VEHICLE REQUEST p|d NODE ARRIVAL DEPARTURE'")
        vehicle, request = self.numbers(line, fields[1:3], 2, 2)
        node, arrival, departure = self.numbers(line, fields[4:], 3, 3)
        return Serve(line, vehicle, request, fields[3].decode(), node, arrival, departure)

    def cancel(self, line: int, fields: list[bytes]) -> Cancel:
        """A cancellation, with its refusal or the walks of the joined legs."""
        [request] = self.numbers(line, fields[1:], 1, 1)
        refusal = self.refusal(CANCEL_REASONS, request)
        if refusal:
            return Cancel(line, request, refusal, 0, 0, 0, [])
        if self.fields[:1] != [b"o"]:
            raise self.fault(self.line, f"the cancellation of {request} is neither refused nor done")
        line, fields = self.line, self.fields
        removed, vehicle, pickup, dropoff = self.numbers(line, fields[1:], 4, 4)
        if removed != request:
            raise self.fault(line, f"{removed} in place of {request} is taken out")
        self.step()
        return Cancel(line, request, None, vehicle, pickup, dropoff, self.walks())

    def other(self, line: int, fields: list[bytes]) -> Other:
        """A claim of a request by a desk, its return, or the end of an open board."""
        count = {b"k": 2, b"b": 1, b"z": 0}[fields[0]]
        self.numbers(line, fields[1:], count, count)
        return Other(line)

    def walks(self) -> list[PrintedWalk]:
        """The walks that stand next, and the proof behind them, which is left out."""
        walks = []
        while self.fields[:1] == [b"g"]:
            walks.append(self.walk())
        self.skip_proof()
        return walks

    def walk(self) -> PrintedWalk:
        """The walk that stands next, with the lines that continue it."""
        line = self.line
        leg, *nodes = self.numbers(line, self.fields[1:], 2, 1 + limits.WALK_LINE_NODES)
        last = len(nodes)
        self.step()
        while self.fields[:1] == [b"h"]:
            if last < limits.WALK_LINE_NODES or len(nodes) > limits.NODES:
                raise self.fault(self.line, "continues a walk that has ended")
            same_leg, *more = self.numbers(self.line, self.fields[1:], 2, 1 + limits.WALK_LINE_NODES)
            if same_leg != leg:
                raise self.fault(self.line, f"continues leg {same_leg} in place of leg {leg}")
            nodes += more
            last = len(more)
            self.step()
        return PrintedWalk(line, leg, nodes)

    def skip_proof(self) -> None:
        """Goes past the lines of a proof."""
        while self.fields and self.fields[0] in PROOF_WORDS:
            self.step()


def stop_time_of(path: str) -> int:
    """The stop time that most served dropoffs of a journal show.

    It is 0 where all of them took none, and the program's usual one where no dropoff was served.
    """
    shown: Counter[int] = Counter()
    for _, line in lines(path):
        if line.startswith(b"s "):
            fields = line.split()
            if len(fields) == 7 and fields[3] == b"d" and b"".join(fields[5:]).isdigit() and len(line) < 200:
                shown[int(fields[6]) - int(fields[5])] += 1
    positive = [(count, -time) for time, count in shown.items() if 0 < time <= limits.STOP_TIME]
    if positive:
        return -max(positive)[1]
    return 0 if shown else USUAL_STOP_TIME
