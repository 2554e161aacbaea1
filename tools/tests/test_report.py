"""`ride report`."""

from __future__ import annotations

import json
import os
import shutil
import unittest
from unittest import mock

from rides.charts import nice_step
from rides.figures import MOST_SPANS, Driven, Occupancy, Spread
from rides.texts import clock
from tests.support import DATA, FolderTest
from tests.test_replay import ONE, TWO, TWO_SERVED
from tests.towns import put_line

SUMMARY = """\
requests                       3
  served                       2
  turned down                  0
  refused                      1
    place                      1
  cancelled                    0
  planned                      0
  waiting                      0

seconds of the served       mean    median      95 %
  wait                      18.0      18.0        24
  ride                      17.0      17.0        24
  detour                     2.0       2.0         4

driven                   seconds     share        km
  all                         30   100.0 %       0.3
  empty                       10    33.3 %       0.1
  one party                   10    33.3 %       0.1
  shared                      10    33.3 %       0.1
  full                        10    33.3 %       0.1

vehicles driving from      empty one party    shared    riders
"""
"""Riders wait 12 and 24 seconds and ride 24 and 10, where straight ways take 20 and 10."""

RIDES = """\
request,moment,pickup,dropoff,riders,spaces,outcome,reason,vehicle,planned_departure,planned_arrival,left,arrived,wait,ride,direct,detour
3,0,9,1,1,0,refused,place,,,,,,,,,
2,0,3,4,1,0,served,,1,24,34,24,34,24,10,10,0
1,0,2,4,1,0,served,,1,12,32,12,36,12,24,20,4
"""

VEHICLES = """\
vehicle,start,seats,spaces,rides,riders,seconds_empty,seconds_one_party,seconds_shared,seconds_full,metres_empty,metres_one_party,metres_shared,metres_full
1,1,2,0,2,2,10,10,10,10,100,100,100,100
"""


class ReportTest(FolderTest):
    """Reports on the line of four nodes. A stand-in takes Leaflet's place, so that they need no package."""

    def setUp(self) -> None:
        super().setUp()
        put_line(self)
        self.put("leaflet.js", "var L;</script>\n//# sourceMappingURL=leaflet.js.map\n")
        self.put("leaflet.css", ".leaflet {}\n")
        patch = mock.patch("rides.pages.LEAFLET", self.folder)
        patch.start()
        self.addCleanup(patch.stop)
        self.put("day.journal", TWO + "r 3 9 1 0 1\nx 3 place\n" + TWO_SERVED)

    def report(self, folder: str = "report", *words: str) -> str:
        """The summary of the report of the journal."""
        return self.ride("report", "line", "line.csv", "day.journal", "-o", folder, *words).stdout

    def test_the_figures_worked_by_hand(self) -> None:
        summary = self.report()
        head, day = summary[: len(SUMMARY)], summary[len(SUMMARY) :].splitlines()
        self.assertEqual(head, SUMMARY)
        self.assertEqual(len(day), 34)
        self.assertEqual(day[0].split(), ["00:00:00", "1.0", "0.0", "0.0", "0.0"])
        self.assertEqual(day[10].split(), ["00:00:10", "0.0", "0.0", "0.0", "0.0"])
        self.assertEqual(day[21].split(), ["00:00:21", "0.0", "1.0", "0.0", "1.0"])
        self.assertEqual(day[33].split(), ["00:00:33", "0.0", "0.0", "1.0", "2.0"])
        self.assertEqual(self.get("report/summary.txt"), summary)
        self.assertEqual(self.get("report/rides.csv"), RIDES)
        self.assertEqual(self.get("report/vehicles.csv"), VEHICLES)
        self.assertEqual(
            set(os.listdir(self.path("report"))),
            {"summary.txt", "rides.csv", "vehicles.csv", "routes.geojson", "map.html"},
        )

    def test_the_routes(self) -> None:
        self.report()
        features = json.loads(self.get("report/routes.geojson"))["features"]
        self.assertEqual([feature["geometry"]["type"] for feature in features], ["LineString"] * 3)
        self.assertEqual(features[1]["geometry"]["coordinates"], [[0.0009, 0.0], [0.0018, 0.0]])
        self.assertEqual(
            [feature["properties"] for feature in features],
            [
                {
                    "vehicle": 1,
                    "leave": leave,
                    "arrive": leave + 10,
                    "requests": aboard,
                    "riders": len(aboard),
                    "spaces": 0,
                }
                for leave, aboard in ((0, []), (12, [1]), (24, [1, 2]))
            ],
        )

    def test_the_page_holds_all_that_it_shows(self) -> None:
        self.report()
        page = self.get("report/map.html")
        for text in (
            "default-src 'none'",
            "var L;<\\/script>",
            '"roads":[1,2,2,3,3,4]',
            "const starts = [[1,1]];",
            "[0,1,0,[1,2],[10]],",
            "[1,2,0,3,4,1,24,34],",
            'min="0" max="36"',
            "<svg",
            "Waits of the served",
        ):
            self.assertIn(text, page)
        self.assertNotIn("sourceMappingURL", page)

    def test_two_reports_are_equal_byte_by_byte(self) -> None:
        self.report("one")
        self.report("two")
        for name in os.listdir(self.path("one")):
            self.assertEqual(self.get(f"one/{name}"), self.get(f"two/{name}"), name)

    def test_a_report_takes_the_place_of_an_older_one(self) -> None:
        self.report()
        self.put("day.journal", "")
        self.report()
        self.assertEqual(self.get("report/rides.csv").count("\n"), 1)

    def test_an_empty_journal(self) -> None:
        self.put("day.journal", "")
        summary = self.report()
        self.assertIn("requests                       0\n", summary)
        self.assertIn("  wait                         -         -         -\n", summary)

    def test_rides_that_are_still_planned(self) -> None:
        self.put("day.journal", ONE)
        self.assertIn("  planned                      1\n", self.report())
        self.assertIn("1,0,2,4,1,0,planned,,1,12,32,,,,,,\n", self.get("report/rides.csv"))

    def test_the_stop_time_can_be_said(self) -> None:
        self.put("day.journal", ONE.replace("34 12 32", "32 10 30"))
        self.report("report", "--stop", "0")
        told = self.fault("report", "line", "line.csv", "day.journal", "-o", "other")
        self.assertIn("day.journal: line 2: doesn't fit: departure 10", told)

    def test_a_misfit_leaves_nothing_half_written(self) -> None:
        self.put("day.journal", TWO + "t 100\n")
        told = self.fault("report", "line", "line.csv", "day.journal", "-o", "report")
        self.assertEqual(told, "day.journal: line 11: doesn't fit: before it 's 1 1 p 2 10 12' is due")
        os.mkdir(self.path("report"))
        self.put("report/rides.csv", "as it was")
        self.fault("report", "line", "line.csv", "day.journal", "-o", "report")
        self.assertEqual(os.listdir(self.path("report")), ["rides.csv"])
        self.assertEqual(self.get("report/rides.csv"), "as it was")

    def test_faults(self) -> None:
        words = ("report", "line", "line.csv", "day.journal", "-o")
        self.assertEqual(self.fault(*words, "line.gr"), "line.gr: File exists")
        self.assertEqual(self.fault(*words, "gone/report"), "gone/report: No such file or directory")
        self.assertEqual(
            self.fault("report", "line", "line.csv", "gone.journal", "-o", "report"),
            "gone.journal: No such file or directory",
        )
        os.remove(self.path("leaflet.js"))
        self.assertEqual(self.fault(*words, "report"), f"{self.path('leaflet.js')}: isn't there: libjs-leaflet has it")

    def test_a_day_in_a_town(self) -> None:
        for name in ("town.gr", "town.co", "town.csv", "town.journal"):
            shutil.copy(os.path.join(DATA, name), self.folder)
        for folder in ("one", "two"):
            summary = self.ride("report", "town", "town.csv", "town.journal", "-o", folder).stdout
        for line in (
            "requests                     300",
            "  served                     216",
            "  turned down                 49",
        ):
            self.assertIn(line, summary)
        for name in os.listdir(self.path("one")):
            self.assertEqual(self.get(f"one/{name}"), self.get(f"two/{name}"), name)
        seconds = [row.split(",")[6:9] for row in self.get("one/vehicles.csv").splitlines()[1:]]
        driven = json.loads(self.get("one/routes.geojson"))["features"]
        times = sum(drive["properties"]["arrive"] - drive["properties"]["leave"] for drive in driven)
        self.assertEqual(sum(int(field) for row in seconds for field in row), times)


class FigureTest(unittest.TestCase):
    """Single figures."""

    def test_spreads(self) -> None:
        spread = Spread()
        for value in (5, 1, 9, 1):
            spread.add(value)
        self.assertEqual((spread.mean(), spread.median(), spread.percentile(95)), (4.0, 3.0, 9))
        self.assertEqual((spread.percentile(50), spread.percentile(1), spread.percentile(100)), (1, 1, 9))
        for value in range(100):
            spread.add(0)
        self.assertEqual((spread.median(), spread.percentile(95)), (0.0, 0))

    def test_spans_of_the_day_widen(self) -> None:
        occupancy = Occupancy()
        occupancy.add(10, 20, "empty", 0)
        self.assertEqual(occupancy.rows()[0], (10, [1.0, 0.0, 0.0, 0.0]))
        occupancy.add(86_390, 86_400, "shared", 3)
        self.assertEqual(occupancy.width, 900)
        rows = occupancy.rows()
        self.assertEqual((len(rows), rows[0][0], rows[-1][0]), (96, 0, 85_500))
        self.assertAlmostEqual(rows[0][1][0], 10 / 900)
        self.assertAlmostEqual(rows[-1][1][3], 30 / 900)
        occupancy.add(2**40 - 5, 2**40, "shared", 1)
        self.assertLessEqual(len(occupancy.rows()), MOST_SPANS)
        self.assertAlmostEqual(sum(means[2] for _, means in occupancy.rows()) * occupancy.width, 15)

    def test_driven_sums(self) -> None:
        driven = Driven()
        driven.add("empty", False, 5, 50.0)
        driven.add("shared", True, 7, 70.0)
        self.assertEqual((driven.seconds["empty"], driven.seconds["shared"], driven.full_seconds), (5, 7, 7))

    def test_clocks_and_steps(self) -> None:
        self.assertEqual([clock(moment) for moment in (0, 3_661, 86_400)], ["00:00:00", "01:01:01", "1d 00:00:00"])
        self.assertEqual([nice_step(longest) for longest in (1, 31, 400, 2_000)], [1, 2, 15, 120])
