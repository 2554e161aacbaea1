"""`ride fleet`, and the reading of fleet tables."""

from __future__ import annotations

from rides.fleets import Cab, read_fleet
from tests.support import FolderTest, needs_program, vaugrenis
from tests.towns import put_line

LAST = 1_099_511_627_776


class FleetTest(FolderTest):
    """Fleets on the line of four nodes."""

    def setUp(self) -> None:
        super().setUp()
        put_line(self)

    def fleet(self, *words: str) -> str:
        """The table that the words make."""
        self.ride("fleet", "line", "-o", "fleet.csv", *words)
        return self.get("fleet.csv")

    def test_vehicles_are_spread_by_the_seed(self) -> None:
        table = self.fleet("--cars", "50", "--seats", "3", "--seed", "8")
        header, *rows = table.splitlines()
        self.assertEqual(header, "vehicle,start,seats,from,until")
        numbers, starts, *rest = zip(*(row.split(",") for row in rows))
        self.assertEqual(numbers, tuple(map(str, range(1, 51))))
        self.assertEqual(set(starts), {"1", "2", "3", "4"})
        self.assertEqual([set(column) for column in rest], [{"3"}, {"0"}, {str(LAST)}])
        self.assertEqual(self.fleet("--cars", "50", "--seats", "3", "--seed", "8"), table)
        self.assertNotEqual(self.fleet("--cars", "50", "--seats", "3", "--seed", "9"), table)

    def test_spaces_and_service(self) -> None:
        table = self.fleet("--cars", "1", "--spaces", "2", "--from", "60", "--until", "900")
        self.assertRegex(table, r"\Avehicle,start,seats,from,until,spaces\n1,[1-4],4,60,900,2\n\Z")

    def test_a_fleet_at_places(self) -> None:
        self.put("cars.csv", "longitude,latitude,seats,from\n0.0018,0,6,\n0.0001,0,,300\n")
        self.assertEqual(
            self.fleet("--places", "cars.csv", "--until", "4000"),
            "vehicle,start,seats,from,until\n1,3,6,0,4000\n2,1,4,300,4000\n",
        )
        self.put("cars.csv", "latitude,longitude,spaces\n0,0.0027,1\n0,0,\n")
        self.assertEqual(
            self.fleet("--places", "cars.csv", "--until", "9"),
            "vehicle,start,seats,from,until,spaces\n1,4,4,0,9,1\n2,1,4,0,9,0\n",
        )

    def test_faults(self) -> None:
        cases = {
            "longitude\n0\n": "line 1: the header has no column 'latitude' (wanted: longitude,latitude)",
            "longitude,latitude\n0,north\n": "line 2: latitude 'north' is no number",
            "longitude,latitude\n0,0\n1,0\n": "line 3: no node of the map is within 1000 metres of 1,0",
            "longitude,latitude,seats\n0,0,17\n": "line 2: seats '17' is no number from 1 to 16",
            "longitude,latitude,from,until\n0,0,9,8\n": "line 2: its service ends before it begins",
        }
        for text, told in cases.items():
            self.put("cars.csv", text)
            self.assertEqual(
                self.fault("fleet", "line", "--places", "cars.csv", "-o", "fleet.csv"), f"cars.csv: {told}"
            )

    def test_wrong_words_are_one_line(self) -> None:
        for words in (
            (),
            ("drive",),
            ("fleet", "line", "-o", "fleet.csv"),
            ("fleet", "line", "--cars", "65537", "-o", "fleet.csv"),
            ("fleet", "line", "--cars", "1", "--places", "cars.csv", "-o", "fleet.csv"),
            ("fleet", "line", "--cars", "1", "--from", "2", "--until", "1", "-o", "fleet.csv"),
            ("map", "city.osm"),
            ("report", "line", "line.csv", "journal", "-o", "report", "--stop", "65537"),
        ):
            told = self.ride(*words, status=2)
            self.assertRegex(told.stderr, r"\Aride[^\n]*: [^\n]+\n\Z")
        self.assertNotIn("fleet.csv", self.names())

    def test_tables_are_read(self) -> None:
        self.put("fleet.csv", "vehicle,start,seats,from,until,spaces\n12, 4, 2, 5, 900, 1\n3,1,16,0,0,0\n")
        self.assertEqual(read_fleet(self.path("fleet.csv"), 4), [Cab(3, 1, 16, 0, 0, 0), Cab(12, 4, 2, 5, 900, 1)])

    def test_faults_of_tables(self) -> None:
        header = "vehicle,start,seats,from,until\n"
        cases = {
            "vehicle,start\n": "line 1: the header has no column 'seats' (wanted: vehicle,start,seats,from,until)",
            f"{header}1,5,2,0,9\n": "line 2: start '5' is no number from 1 to 4",
            f"{header}0,1,2,0,9\n": "line 2: vehicle '0' is no number from 1 to 4294967295",
            f"{header}1,1,17,0,9\n": "line 2: seats '17' is no number from 1 to 16",
            f"{header}1,1,2,10,9\n": "line 2: until '9' is no number from 10 to 1099511627776",
            f"{header}1,1,2,0\n": "line 2: until '' is no number from 0 to 1099511627776",
            f"{header}1,1,2,0,9\n\n1,1,2,0,9\n": "line 4: vehicle 1 stood in an earlier row",
        }
        self.put("day.journal", "")
        for text, told in cases.items():
            self.put("fleet.csv", text)
            self.assertEqual(
                self.fault("report", "line", "fleet.csv", "day.journal", "-o", "out"), f"fleet.csv: {told}"
            )

    @needs_program
    def test_the_program_takes_the_table(self) -> None:
        self.put("none.txt", "")
        self.fleet("--cars", "200")
        self.assertEqual(vaugrenis(self.folder, "run", "line.gr", "fleet.csv", "none.txt").returncode, 0)
