"""The words of `ride`, and its faults as one line."""

from __future__ import annotations

import argparse
import os
import sys
import tempfile
from collections.abc import Callable
from typing import NoReturn

from rides import limits
from rides.faults import Fault, system_fault
from rides.fleets import Kind, placed_fleet, spread_fleet
from rides.maps import make_map
from rides.report import make_report
from rides.trips import PARAMETERS, make_stream

USAGE, FAULT, STOPPED = 2, 1, 130


class Words(argparse.ArgumentParser):
    """A parser whose errors are one line."""

    def error(self, message: str) -> NoReturn:
        """Ends the program with the status of wrong words."""
        self.exit(USAGE, f"{self.prog}: {message} (see {self.prog} --help)\n")


def number(least: int, most: int) -> Callable[[str], int]:
    """A type of words: whole numbers in a range."""

    def parse(word: str) -> int:
        if not word.isascii() or not word.isdigit() or len(word) > 19 or not least <= int(word) <= most:
            raise argparse.ArgumentTypeError(f"'{word}' is no number from {least} to {most}")
        return int(word)

    return parse


def words() -> Words:
    """The words that `ride` takes."""
    top = Words(prog="ride", description="From a city's map and a day of trips to answers, a picture and figures.")
    commands = top.add_subparsers(dest="command", required=True, metavar="map | trips | fleet | report")

    command = commands.add_parser("map", help="a road graph and places from OpenStreetMap or SUMO")
    command.add_argument("source", metavar="MAP", help="an extract (.osm, .osm.pbf) or a net (.net.xml)")
    command.add_argument("-o", dest="output", metavar="CITY", required=True, help="writes CITY.gr and CITY.co")

    command = commands.add_parser("trips", help="a request stream from a table of trips")
    command.add_argument("table", metavar="TRIPS.csv")
    command.add_argument("city", metavar="CITY", help="of CITY.gr and CITY.co")
    command.add_argument("-o", dest="output", metavar="STREAM", required=True)
    add_within(command)

    command = commands.add_parser("fleet", help="a table of vehicles")
    command.add_argument("city", metavar="CITY", help="of CITY.gr and CITY.co")
    spread = command.add_mutually_exclusive_group(required=True)
    spread.add_argument("--cars", type=number(0, limits.VEHICLES), help="this many, at nodes drawn by the seed")
    spread.add_argument("--places", metavar="PLACES.csv", help="one at each place of a table")
    command.add_argument("--seed", type=number(0, 2**63 - 1), default=1)
    command.add_argument("--seats", type=number(1, limits.SEATS), default=4)
    command.add_argument("--spaces", type=number(0, limits.SEATS), default=0, help="for wheelchairs")
    command.add_argument("--from", dest="begin", type=number(0, limits.MOMENT), default=0, help="service, in seconds")
    command.add_argument("--until", dest="end", type=number(0, limits.MOMENT), default=limits.MOMENT)
    command.add_argument("-o", dest="output", metavar="FLEET.csv", required=True)
    add_within(command)

    command = commands.add_parser("report", help="figures, tables and a page with a map from a journal")
    command.add_argument("city", metavar="CITY", help="of CITY.gr and CITY.co")
    command.add_argument("fleet", metavar="FLEET.csv")
    command.add_argument("journal", metavar="JOURNAL")
    command.add_argument("-o", dest="output", metavar="FOLDER", required=True)
    command.add_argument(
        "--stop", type=number(0, limits.STOP_TIME), help="the stop time of the run; else the journal's own"
    )
    return top


def add_within(command: argparse.ArgumentParser) -> None:
    """Adds the word for how far a place may lie from the map."""
    command.add_argument(
        "--within", metavar="METRES", type=number(0, 1_000_000), default=1000, help="of a node each place lies"
    )


def run(asked: argparse.Namespace) -> None:
    """Does what the words ask for."""
    if asked.command == "map":
        print(*make_map(asked.source, asked.output), sep="\n")
    elif asked.command == "trips":
        used, skipped = make_stream(asked.table, asked.city, asked.output, asked.within)
        print(f"used {used:,} rows, skipped {skipped:,}", file=sys.stderr)
        print(PARAMETERS)
    elif asked.command == "fleet":
        kind = Kind(asked.seats, asked.spaces, asked.begin, asked.end)
        if asked.places is None:
            count = spread_fleet(asked.city, asked.cars, asked.seed, kind, asked.output)
        else:
            count = placed_fleet(asked.city, asked.places, asked.within, kind, asked.output)
        print(f"{count:,} vehicles")
    else:
        print(make_report(asked.city, asked.fleet, asked.journal, asked.output, asked.stop), end="")


def main(arguments: list[str]) -> int:
    """Runs `ride` with these words, and gives its exit status."""
    top = words()
    asked = top.parse_args(arguments)
    if asked.command == "fleet" and asked.begin > asked.end:
        top.error("--from is after --until")
    try:
        run(asked)
        sys.stdout.flush()
    except Fault as fault:
        print(f"ride: {fault}", file=sys.stderr)
        return FAULT
    except BrokenPipeError:
        os.dup2(os.open(os.devnull, os.O_WRONLY), sys.stdout.fileno())  # the reader of the output has gone
        return FAULT
    except OSError as error:
        print(f"ride: {system_fault(error.filename or tempfile.gettempdir(), error)}", file=sys.stderr)
        return FAULT
    except KeyboardInterrupt:
        return STOPPED
    return 0
