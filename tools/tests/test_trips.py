"""`ride trips`."""

from __future__ import annotations

import math
import random
import unittest
from unittest import mock

from rides.cities import City, by_tail, read_city
from rides.nearest import NearestNodes
from rides.places import metres_between
from tests.support import FolderTest, needs_program, vaugrenis
from tests.towns import put_line

HEADER = "moment,pickup_longitude,pickup_latitude,dropoff_longitude,dropoff_latitude,riders"
OPTIONS = "--stop 30 --wait 300 --trip-num 17 --trip-den 10 --trip-add 120 --wait-weight 1 --trip-weight 10\n"
LAST = "t 1099511627776\n"


class TripsTest(FolderTest):
    """Streams over the line of four nodes, which lie 100 metres apart."""

    def setUp(self) -> None:
        super().setUp()
        put_line(self)

    def stream(self, *rows: str, header: str = HEADER, words: tuple[str, ...] = ()) -> tuple[str, str]:
        """The stream of a table, and what was said of it."""
        self.put("trips.csv", "\n".join((header, *rows)) + "\n")
        told = self.ride("trips", "trips.csv", "line", "-o", "day.txt", *words)
        self.assertEqual(told.stdout, OPTIONS)
        return self.get("day.txt"), told.stderr

    def test_a_row_becomes_a_move_of_the_clock_and_a_request_between_the_nearest_nodes(self) -> None:
        stream, said = self.stream("7,0.0008,0.0001,0.00275,-0.0001,2")
        self.assertEqual(stream, f"t 7\nr 1 2 4 7 2\n{LAST}")
        self.assertEqual(said, "used 1 rows, skipped 0\n")

    def test_rows_are_sorted_by_moment_and_keep_their_numbers(self) -> None:
        stream, _ = self.stream("9,0,0,0.0009,0,1", "5,0,0,0.0009,0,1", "9,0,0,0.0018,0,1", "5,0,0,0.0018,0,1")
        self.assertEqual(stream, f"t 5\nr 2 1 2 5 1\nt 5\nr 4 1 3 5 1\nt 9\nr 1 1 2 9 1\nt 9\nr 3 1 3 9 1\n{LAST}")

    def test_runs_on_the_disk_give_the_same_stream(self) -> None:
        draw = random.Random(5)
        rows = [f"{draw.randrange(50)},0,0,0.0027,0,1" for _ in range(40)]
        whole, _ = self.stream(*rows)
        with mock.patch("rides.trips.TRIPS_IN_RUN", 7):
            self.assertEqual(self.stream(*rows)[0], whole)

    def test_spaces_are_a_further_column(self) -> None:
        stream, _ = self.stream(
            "0,0,0,0.0009,0,1,2",
            "1,0,0,0.0009,0,1,0",
            "2,0,0,0.0009,0,0,1",
            "3,0,0,0.0009,0,1,",
            header=f"{HEADER},spaces",
        )
        self.assertEqual(stream, f"t 0\nr 1 1 2 0 1 2\nt 1\nr 2 1 2 1 1\nt 2\nr 3 1 2 2 0 1\nt 3\nr 4 1 2 3 1\n{LAST}")

    def test_columns_may_stand_in_any_order_with_others_between(self) -> None:
        columns = HEADER.split(",")
        header = ",".join(["name", *reversed(columns)])
        stream, _ = self.stream('"Ann, Bo",1,0,0.0009,0,0,4', header=header)
        self.assertEqual(stream, f"t 4\nr 1 1 2 4 1\n{LAST}")

    def test_moments_may_be_times_of_the_day(self) -> None:
        stream, _ = self.stream("8:05,0,0,0.0009,0,1", "25:00:01,0,0,0.0009,0,1")
        self.assertEqual(stream, f"t 29100\nr 1 1 2 29100 1\nt 90001\nr 2 1 2 90001 1\n{LAST}")

    def test_rows_that_cannot_be_used_are_told_with_their_numbers(self) -> None:
        cases = {
            "soon,0,0,0.0009,0,1": "moment 'soon' is neither whole seconds nor a time of the day as 8:05 or 08:05:00",
            "8:61,0,0,0.0009,0,1": "moment '8:61' is neither whole seconds nor a time of the day as 8:05 or 08:05:00",
            "-1,0,0,0.0009,0,1": "moment '-1' is neither whole seconds nor a time of the day as 8:05 or 08:05:00",
            "1099511627776:00,0,0,0,0,1": "moment '1099511627776:00' is after 1,099,511,627,776 seconds",
            "1,east,0,0.0009,0,1": "pickup_longitude 'east' is no number",
            "1,0,0,0.0009,91,1": "dropoff_latitude '91' isn't from -90 to 90 degrees",
            "1,nan,0,0.0009,0,1": "pickup_longitude 'nan' isn't from -180 to 180 degrees",
            "1,0,0,0.5,0,1": "no node of the map is within 1000 metres of 0.5,0",
            "1,0,0,0.0009,0,17": "riders '17' is no number from 0 to 16",
            "1,0,0,0.0009,0,0": "nobody rides",
            "1,0,0,0.0009": "dropoff_latitude '' is no number",
        }
        stream, said = self.stream(*cases, "3,0,0,0.0009,0,1")
        self.assertEqual(stream, f"t 3\nr {len(cases) + 1} 1 2 3 1\n{LAST}")
        wanted = [
            f"trips.csv: line {row + 1}: row {row} is skipped: {reason}" for row, reason in enumerate(cases.values(), 1)
        ]
        self.assertEqual(said.splitlines(), [*wanted, f"used 1 rows, skipped {len(cases)}"])

    def test_how_far_a_place_may_lie_can_be_said(self) -> None:
        far = "1,0.01,0,0.0009,0,1"
        self.assertIn("skipped 0", self.stream(far)[1])
        self.assertIn("within 500 metres of 0.01,0", self.stream(far, words=("--within", "500"))[1])

    def test_faults(self) -> None:
        self.put("trips.csv", "moment,riders\n1,1\n")
        self.assertEqual(
            self.fault("trips", "trips.csv", "line", "-o", "day.txt"),
            f"trips.csv: line 1: the header has no column 'pickup_longitude' (wanted: {HEADER})",
        )
        self.assertEqual(
            self.fault("trips", "gone.csv", "line", "-o", "day.txt"), "gone.csv: No such file or directory"
        )
        self.put("trips.csv", f"{HEADER}\n{'1' * 70000}\n")
        self.assertEqual(
            self.fault("trips", "trips.csv", "line", "-o", "day.txt"), "trips.csv: line 2: longer than 65,536 bytes"
        )
        self.put("trips.csv", f"{HEADER}\n1,0,0,0.0009,0,1\n")
        self.assertEqual(
            self.fault("trips", "trips.csv", "gone", "-o", "day.txt"), "gone.gr: No such file or directory"
        )
        self.assertEqual(self.fault("trips", "trips.csv", "line", "-o", "."), ".: is a folder")
        with mock.patch("rides.limits.TEXT_BYTES", 30):
            self.assertEqual(
                self.fault("trips", "trips.csv", "line", "-o", "day.txt"),
                "day.txt: the stream would be larger than 30 bytes: split the table",
            )

    def test_a_run_that_finds_no_room_is_a_fault(self) -> None:
        self.put("trips.csv", f"{HEADER}\n1,0,0,0.0009,0,1\n")
        full = OSError(28, "No space left on device")
        with mock.patch("rides.trips.TRIPS_IN_RUN", 1), mock.patch("tempfile.TemporaryFile", side_effect=full):
            told = self.fault("trips", "trips.csv", "line", "-o", "day.txt")
        self.assertTrue(told.endswith(": No space left on device"), told)

    def test_an_older_stream_stays_where_a_new_one_fails(self) -> None:
        self.put("day.txt", "as it was")
        self.fault("trips", "gone.csv", "line", "-o", "day.txt")
        self.assertEqual(self.get("day.txt"), "as it was")

    @needs_program
    def test_the_program_takes_the_stream(self) -> None:
        self.put("fleet.csv", "vehicle,start,seats,from,until\n1,1,4,0,1000000\n")
        self.stream("0,0.0009,0,0.0027,0,1", "100,0.0009,0,0.0027,0,1")
        told = vaugrenis(self.folder, "run", "line.gr", "fleet.csv", "day.txt", *OPTIONS.split())
        self.assertEqual(told.returncode, 0, told.stderr)
        self.assertEqual(told.stdout.count("\ns "), 4)


class NearestTest(unittest.TestCase):
    """The nearest node, beside a search through all."""

    def test_it_is_that_of_a_search_through_all(self) -> None:
        draw = random.Random(11)
        for nodes, spread in ((1, 0), (7, 30_000), (400, 40_000), (400, 900)):
            city = City(nodes, *by_tail(nodes, (), (), ()), *([0] * (nodes + 1) for _ in range(2)))
            for node in range(1, nodes + 1):
                city.longitudes[node] = 7_800_000 + draw.randint(0, spread)
                city.latitudes[node] = 48_000_000 + draw.randint(0, spread // 2)
            nearest = NearestNodes(city)
            for _ in range(200):
                place = 7_800_000 + draw.randint(-spread, 2 * spread), 48_000_000 + draw.randint(-spread, spread)
                lengths = [
                    (metres_between(*place, city.longitudes[node], city.latitudes[node]), node)
                    for node in range(1, nodes + 1)
                ]
                metres, node = min(lengths)
                for within in (300.0, 5000.0):
                    wanted = (node, metres) if metres <= within else None
                    self.assertEqual(nearest.nearest(*place, within), wanted)

    def test_lengths_on_the_ground(self) -> None:
        self.assertAlmostEqual(metres_between(0, 0, 0, 1_000_000), 111_195.08, places=1)
        self.assertAlmostEqual(metres_between(0, 60_000_000, 1_000_000, 60_000_000), 111_195.08 / 2, places=1)
        self.assertTrue(math.isclose(metres_between(1, 2, 4, 6), metres_between(4, 6, 1, 2)))


class CityTest(FolderTest):
    """Reading of graphs and places."""

    def test_the_texts_as_the_program_reads_them(self) -> None:
        self.put("town.gr", "c a town\r\n\np  sp 2 3\r\n\ta 1 2 7\nc between\na 1 2 9\na 02 1 0")
        self.put("town.co", "c places\np aux sp co 2\nv 2 -5 7\nv 1 3 -4\n")
        city = read_city(self.path("town"))
        self.assertEqual((city.weight(1, 2), city.weight(2, 1), city.weight(1, 1)), (7, 0, None))
        self.assertEqual((list(city.longitudes), list(city.latitudes)), ([0, 3, -5], [0, -4, 7]))

    def test_faults(self) -> None:
        graphs = {
            "a 1 2 3\n": "line 1: no line 'p sp NODES ROADS' before the roads",
            "": "line 1: no line 'p sp NODES ROADS' before the roads",
            "p sp 2097153 0\n": "line 1: not up to 2,097,152 nodes and 8,388,608 roads",
            "p sp 2 1\na 1 2 3\na 2 1 3\n": "line 3: more roads than the 1 of the first line",
            "p sp 2 2\na 1 2 3\n": "line 3: 1 roads in place of the 2 of the first line",
            "p sp 2 1\na 1 3 3\n": "line 2: an end isn't a node from 1 to 2",
            "p sp 2 1\na 1 2 4294967296\n": "line 2: the weight isn't a number up to 4,294,967,295",
            "p sp 2 1\nb 1 2 3\n": "line 2: no line 'a FROM TO WEIGHT'",
            "p sp 0 0\n": "has no nodes",
        }
        self.put("trips.csv", HEADER + "\n")
        for text, told in graphs.items():
            self.put("town.gr", text)
            self.assertEqual(self.fault("trips", "trips.csv", "town", "-o", "day.txt"), f"town.gr: {told}")
        self.put("town.gr", "p sp 2 1\na 1 2 3\n")
        places = {
            "v 1 2 3\n": "line 1: no line 'p aux sp co NODES' before the places",
            "p aux sp co 3\n": "line 1: not the 2 nodes of the graph",
            "p aux sp co 2\nv 1 2\n": "line 2: no line 'v NODE LONGITUDE LATITUDE'",
            "p aux sp co 2\nv 3 2 1\n": "line 2: not a node from 1 to 2 that comes for the first time",
            "p aux sp co 2\nv 1 2 1\nv 1 2 1\n": "line 3: not a node from 1 to 2 that comes for the first time",
            "p aux sp co 2\nv 1 2 2147483648\n": "line 2: a coordinate isn't a number of at most 2,147,483,647 in size",
            "p aux sp co 2\nv 1 2 3\n": "line 3: 1 places in place of 2",
        }
        for text, told in places.items():
            self.put("town.co", text)
            self.assertEqual(self.fault("trips", "trips.csv", "town", "-o", "day.txt"), f"town.co: {told}")
