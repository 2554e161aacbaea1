"""Texts read line by line, numbers in them, and progress on the standard error."""

from __future__ import annotations

import csv
import os
import sys
import time
from collections.abc import Iterator

from rides import limits
from rides.faults import Fault, system_fault

LINES_BETWEEN_LOOKS = 4096
DIGITS = 19


class Progress:
    """Tells on the standard error how far a long step is, once it has taken a second and then every other second."""

    def __init__(self, step: str) -> None:
        self.step = step
        self.next_word = time.monotonic() + 1

    def tell(self, done: int, whole: int) -> None:
        """Says which share is done, where it is time for a word. `whole` may be 0 where it isn't known."""
        now = time.monotonic()
        if now >= self.next_word:
            share = f"{100 * done // whole} %" if whole else f"{done:,}"
            print(f"{self.step}: {share}", file=sys.stderr, flush=True)
            self.next_word = now + 2


def lines(path: str) -> Iterator[tuple[int, bytes]]:
    """The lines of a file, with their numbers from 1 and without their line ends (LF or CR LF).

    Reads no further than the line asked for. A line of more than 65,536 bytes is a fault.
    """
    number = 0
    try:
        with open(path, "rb") as file:
            whole = os.fstat(file.fileno()).st_size
            progress = Progress(f"reading {path}")
            while line := file.readline(limits.LINE_BYTES + 1):
                number += 1
                if line.endswith(b"\n"):
                    line = line[:-2] if line.endswith(b"\r\n") else line[:-1]
                elif len(line) > limits.LINE_BYTES:
                    raise Fault(path, number, f"longer than {limits.LINE_BYTES:,} bytes")
                if number % LINES_BETWEEN_LOOKS == 0:
                    progress.tell(file.tell(), whole)
                yield number, line
    except OSError as error:
        raise system_fault(path, error) from error


def number_of(field: bytes, most: int) -> int | None:
    """The decimal number that a field is, or None where it is none or above `most`."""
    if not field.isdigit() or len(field) > DIGITS:
        return None
    number = int(field)
    return number if number <= most else None


def table_rows(path: str, wanted: list[str], optional: list[str]) -> Iterator[tuple[int, int, dict[str, str]]]:
    """The rows of a CSV file: the row's number from 1, the line that it ends at, and its fields by column.

    The first record is the header, with the wanted columns, and perhaps optional ones, in any order; other columns
    are left out. A row with fewer fields than the header has empty ones for the rest. Blanks round a field are
    dropped. A file that isn't such a table is a fault.
    """
    texts = (line.decode("utf-8-sig" if number == 1 else "utf-8", "replace") + "\n" for number, line in lines(path))
    records = csv.reader(texts, skipinitialspace=True)
    try:
        header = [name.strip().lower() for name in next(records, [])]
        for name in wanted:
            if name not in header:
                raise Fault(path, 1, f"the header has no column '{name}' (wanted: {','.join(wanted)})")
        places = {name: header.index(name) for name in wanted + optional if name in header}
        row = 0
        for record in records:
            if record:
                row += 1
                yield row, records.line_num, {
                    name: record[place].strip() if place < len(record) else "" for name, place in places.items()
                }
    except csv.Error as error:
        raise Fault(path, records.line_num, str(error)) from error


def clock(moment: int) -> str:
    """A moment in seconds as hours, minutes and seconds, with days before them from the second day on."""
    days, rest = divmod(moment, 86_400)
    shown = f"{rest // 3600:02}:{rest // 60 % 60:02}:{rest % 60:02}"
    return f"{days}d {shown}" if days else shown
