"""The five commands from a map and a table of trips to a report."""

from __future__ import annotations

import random
import subprocess
from unittest import mock

from tests import made_city
from tests.support import FolderTest, needs_program, needs_sumo, vaugrenis

TRIPS = 120


def trips_of_a_day() -> str:
    """A table of trips between places in the made city, some of them with wheelchairs, and one row that is no trip."""
    draw = random.Random(4)
    rows = ["moment,pickup_longitude,pickup_latitude,dropoff_longitude,dropoff_latitude,riders,spaces"]
    for _ in range(TRIPS):
        places = (f"{start + draw.uniform(0, 0.012):.6f}" for start in (7.80, 47.95, 7.80, 47.95))
        spaces = int(draw.random() < 0.1)
        rows.append(f"{draw.randint(21_600, 25_200)},{','.join(places)},{draw.randint(1, 3)},{spaces}")
    return "\n".join([*rows, "8 o'clock,7.8,47.95,7.81,47.96,1,0"]) + "\n"


class DayTest(FolderTest):
    """A day in a made city."""

    def setUp(self) -> None:
        super().setUp()
        with open(self.path("city.osm"), "w", encoding="utf-8") as file:
            made_city.write_city(file, 6, 6)

    def prepare(self, source: str) -> list[str]:
        """Makes map, stream and fleet, and gives the options that `trips` prints."""
        self.put("trips.csv", trips_of_a_day())
        self.ride("map", source, "-o", "city")
        told = self.ride("trips", "trips.csv", "city", "-o", "day.txt")
        self.assertIn(f"trips.csv: line {TRIPS + 2}: row {TRIPS + 1} is skipped: moment '8 o'clock'", told.stderr)
        self.ride("fleet", "city", "--cars", "12", "--seats", "4", "--spaces", "1", "-o", "fleet.csv")
        return told.stdout.split()

    def run_all(self, source: str) -> None:
        """Runs the five commands over a map."""
        options = self.prepare(source)
        told = vaugrenis(self.folder, "run", "city.gr", "fleet.csv", "day.txt", *options)
        self.assertEqual(told.returncode, 0, told.stderr)
        self.put("day.journal", told.stdout)
        self.put("leaflet.js", "")
        self.put("leaflet.css", "")
        with mock.patch("rides.pages.LEAFLET", self.folder):
            summary = self.ride("report", "city", "fleet.csv", "day.journal", "-o", "report").stdout
        self.assertIn(f"requests{TRIPS:>24}\n", summary)
        self.assertIn(f"  planned{0:>23}\n", summary)

    def test_map_stream_and_fleet(self) -> None:
        options = self.prepare("city.osm")
        self.assertEqual(options[:4], ["--stop", "30", "--wait", "300"])
        lines = self.get("day.txt").splitlines()
        self.assertEqual(len(lines), 2 * TRIPS + 1)
        for move, request in zip(lines[::2], lines[1::2]):
            self.assertEqual(move.split()[1], request.split()[4])
        self.assertEqual(lines[-1], f"t {2**40}")

    @needs_program
    def test_the_five_commands(self) -> None:
        self.run_all("city.osm")

    @needs_program
    @needs_sumo
    def test_the_five_commands_on_a_sumo_net(self) -> None:
        words = ["netconvert", "--osm-files", "city.osm", "-o", "city.net.xml", "--xml-validation", "never"]
        subprocess.run(words, cwd=self.folder, stdin=subprocess.DEVNULL, capture_output=True, check=True)
        self.run_all("city.net.xml")
