"""Replays of journals that were worked by hand on the line of four nodes, and of a stored day in a town."""

from __future__ import annotations

import itertools
import os
import random
import unittest

from rides.cities import City, by_tail, read_city
from rides.distances import Distances
from rides.faults import Fault
from rides.fleets import read_fleet
from rides.journals import stop_time_of
from rides.replay import Replay
from rides.schedules import Drive, Ride
from tests.support import DATA, FolderTest
from tests.towns import put_line

ONE = "r 1 2 4 0 1\na 1 1 0 0 34 12 32\ng 0 1 2\ng 1 2 3 4\n"
"""Vehicle 1 takes a rider from node 2 to node 4: there at 10, away at 12, and at node 4 at 32."""

TWO = ONE + "r 2 3 4 0 1\na 2 1 1 1 10 24 34\ng 1 2 3\ng 2 3 4\ng 3 4\n"
"""A second rider gets in at node 3 on the way, and both get out at node 4, the second of them first."""

TWO_SERVED = "t 100\ns 1 1 p 2 10 12\ns 1 2 p 3 22 24\ns 1 2 d 4 34 36\ns 1 1 d 4 36 36\n"


class Log:
    """Watches a replay and keeps what it is told."""

    def __init__(self) -> None:
        self.drives: list[tuple] = []
        self.ends: list[tuple] = []

    def drove(self, drive: Drive) -> None:
        """Keeps vehicle, times, nodes and the requests aboard."""
        requests = [ride.request for ride in drive.aboard]
        self.drives.append((drive.cab.number, drive.leave, drive.arrive, drive.walk.nodes, requests))

    def ended(self, ride: Ride, outcome: str, reason: str) -> None:
        """Keeps request, outcome with its reason, the times of the ride and its distance."""
        service = ride.service
        times = (service.left, service.arrived, service.direct) if service else (None, None, None)
        self.ends.append((ride.request, f"{outcome} {reason}".strip(), *times))


class LineTest(FolderTest):
    """Journals on the line of four nodes, with the usual stop time of 2 seconds."""

    def setUp(self) -> None:
        super().setUp()
        put_line(self)

    def replay(self, journal: str, stop_time: int = 2) -> Log:
        """What a replay is told of a journal."""
        log, city = Log(), read_city(self.path("line"))
        fleet = read_fleet(self.path("line.csv"), city.nodes)
        Replay(city, fleet, stop_time, self.put("journal", journal), [log]).run()
        return log

    def refused(self, journal: str) -> str:
        """The fault of a journal, without its file."""
        with self.assertRaises(Fault) as caught:
            self.replay(journal)
        return str(caught.exception).removeprefix(f"{self.path('journal')}: ")


class HandWorkedTest(LineTest):
    """What becomes of the riders."""

    def test_nothing(self) -> None:
        log = self.replay("")
        self.assertEqual((log.drives, log.ends), ([], []))

    def test_one_rider(self) -> None:
        log = self.replay(ONE + "t 12\ns 1 1 p 2 10 12\nt 40\ns 1 1 d 4 32 34\n")
        self.assertEqual(log.drives, [(1, 0, 10, [1, 2], []), (1, 12, 32, [2, 3, 4], [1])])
        self.assertEqual(log.ends, [(1, "served", 12, 32, 20)])

    def test_a_stop_at_the_node_of_the_stop_before_takes_no_time(self) -> None:
        log = self.replay(TWO + TWO_SERVED)
        self.assertEqual(log.drives, [(1, 0, 10, [1, 2], []), (1, 12, 22, [2, 3], [1]), (1, 24, 34, [3, 4], [1, 2])])
        self.assertEqual(log.ends, [(2, "served", 24, 34, 10), (1, "served", 12, 36, 20)])

    def test_a_rider_between_the_seats(self) -> None:
        self.put("line.csv", "vehicle,start,seats,from,until\n1,1,1,0,1000\n")
        served = "t 100\ns 1 1 p 2 10 12\ns 1 1 d 4 32 34\ns 1 2 p 3 44 46\ns 1 2 d 4 56 58\n"
        log = self.replay(ONE + "r 2 3 4 0 1\na 2 1 2 2 76 46 56\ng 2 4 3\ng 3 3 4\n" + served)
        self.assertEqual(log.ends, [(1, "served", 12, 32, 20), (2, "served", 46, 56, 10)])

    def test_a_vehicle_that_is_turned_on_its_way(self) -> None:
        later = "t 5\nr 2 2 1 5 1\na 2 1 0 2 61 12 64\ng 0 2\ng 1 2\ng 3 4 3 2 1\n"
        served = "t 100\ns 1 2 p 2 10 12\ns 1 1 p 2 12 12\ns 1 1 d 4 32 34\ns 1 2 d 1 64 66\n"
        log = self.replay(ONE + later + served)
        self.assertEqual(
            log.drives, [(1, 0, 10, [1, 2], []), (1, 12, 32, [2, 3, 4], [2, 1]), (1, 34, 64, [4, 3, 2, 1], [2])]
        )
        self.assertEqual(log.ends, [(1, "served", 12, 32, 20), (2, "served", 12, 64, 10)])

    def test_a_vehicle_that_waits_for_its_rider(self) -> None:
        journal = (
            "r 1 2 4 100 1\na 1 1 0 0 34 100 120\ng 0 1 2\ng 1 2 3 4\n"
            "r 2 1 2 0 1\na 2 1 0 0 2 2 12\ng 0 1\ng 1 1 2\ng 2 2\n"
            "t 200\ns 1 2 p 1 0 2\ns 1 2 d 2 12 14\ns 1 1 p 2 14 100\ns 1 1 d 4 120 122\n"
        )
        self.assertEqual(self.replay(journal).ends, [(2, "served", 2, 12, 10), (1, "served", 100, 120, 20)])

    def test_a_ride_to_where_it_begins(self) -> None:
        journal = "r 1 2 2 0 1\na 1 1 0 0 14 12 12\ng 0 1 2\ng 1 2\nt 50\ns 1 1 p 2 10 12\ns 1 1 d 2 12 12\n"
        log = self.replay(journal)
        self.assertEqual(log.drives, [(1, 0, 10, [1, 2], [])])
        self.assertEqual(log.ends, [(1, "served", 12, 12, 0)])

    def test_a_cancellation_on_the_way_to_the_rider(self) -> None:
        journal = ONE + (
            "t 5\ny 1\no 1 1 1 2\nr 2 2 1 5 1\na 2 1 0 0 14 12 22\ng 0 2\ng 1 2 1\nr 1 2 4 5 1\nx 1 repeated\n"
            "t 100\ns 1 2 p 2 10 12\ns 1 2 d 1 22 24\n"
        )
        log = self.replay(journal)
        self.assertEqual(log.drives, [(1, 0, 10, [1, 2], []), (1, 12, 22, [2, 1], [2])])
        self.assertEqual(
            log.ends,
            [(1, "cancelled", None, None, None), (1, "refused repeated", None, None, None), (2, "served", 12, 22, 10)],
        )

    def test_a_cancellation_that_joins_legs(self) -> None:
        journal = TWO + "y 1\no 1 1 1 4\ng 0 1 2 3\nt 100\ns 1 2 p 3 20 22\ns 1 2 d 4 32 34\n"
        log = self.replay(journal)
        self.assertEqual(log.drives, [(1, 0, 20, [1, 2, 3], []), (1, 22, 32, [3, 4], [2])])
        self.assertEqual(log.ends, [(1, "cancelled", None, None, None), (2, "served", 22, 32, 10)])

    def test_refused_cancellations_change_nothing(self) -> None:
        journal = ONE + "y 7\nx 7 unknown\nt 12\ns 1 1 p 2 10 12\ny 1\nx 1 served\nt 40\ns 1 1 d 4 32 34\n"
        self.assertEqual(self.replay(journal).ends, [(1, "served", 12, 32, 20)])

    def test_spaces_and_seats(self) -> None:
        self.put("line.csv", "vehicle,start,seats,from,until,spaces\n1,1,2,0,1000,1\n")
        one = ONE.replace("r 1 2 4 0 1", "r 1 2 4 0 1 1")
        both = one + "r 2 3 4 0 1 1\na 2 1 2 2 76 46 56\ng 2 4 3\ng 3 3 4\n"
        served = "t 100\ns 1 1 p 2 10 12\ns 1 1 d 4 32 34\ns 1 2 p 3 44 46\ns 1 2 d 4 56 58\n"
        self.assertEqual(self.replay(both + served).ends, [(1, "served", 12, 32, 20), (2, "served", 46, 56, 10)])
        together = one + TWO.removeprefix(ONE).replace("r 2 3 4 0 1", "r 2 3 4 0 1 1")
        self.assertEqual(self.refused(together), "line 6: doesn't fit: vehicle 1 has 2 seats and 1 spaces for 2 and 2")

    def test_who_is_not_served(self) -> None:
        journal = (
            "r 3 2 4 0 3\nn 3\nr 4 9 3 0 1\nx 4 place\nr 5 2 3 0 0\nx 5 riders\nt 5\nr 6 2 3 4 1\nx 6 moment\n"
            "t 3\nx back 5\nr 8 2 4 5 1\na 8 1 0 0 34 17 37\ng 0 1 2\ng 1 2 3 4\nr 7 1 2 5 1\n"
        )
        outcomes = [
            "3 turned down",
            "4 refused place",
            "5 refused riders",
            "6 refused moment",
            "7 waiting",
            "8 planned",
        ]
        self.assertEqual([f"{end[0]} {end[1]}" for end in self.replay(journal).ends], outcomes)

    def test_a_journal_of_many_desks(self) -> None:
        journal = (
            "r 1 2 4 0 1\nr 2 3 4 0 1\nk 2 2\nk 1 1\nb 1\nz\nk 1 3\n"
            "a 2 1 0 0 38 22 32\ng 0 1 2 3\ng 1 3 4\na 1 1 2 2 106 56 76\ng 2 4 3 2\ng 3 2 3 4\n"
        )
        self.assertEqual([end[:2] for end in self.replay(journal).ends], [(1, "planned"), (2, "planned")])

    def test_proofs_are_left_out(self) -> None:
        proof = "u 1 -\nw 1 10 2 0 3 10 4 20\nu 2 -\nw 1 10 2 0 3 10 4 20\nu 3 -\nw 1 30\nu 4 -\nw 1 30\ne 2 3 4\n"
        self.assertEqual(self.replay(ONE + proof + "r 2 9 9 0 1\nx 2 place\n").ends[-1][:2], (1, "planned"))

    def test_walks_of_more_than_sixty_four_nodes(self) -> None:
        ends = range(1, 130)
        roads = "".join(f"a {node} {node + 1} 1\na {node + 1} {node} 1\n" for node in ends)
        self.put("line.gr", f"p sp 130 {2 * len(ends)}\n{roads}")
        self.put("line.co", "p aux sp co 130\n" + "".join(f"v {node} {node} 0\n" for node in range(1, 131)))
        words = list(map(str, range(1, 131)))
        walk = f"g 1 {' '.join(words[:64])}\nh 1 {' '.join(words[64:128])}\nh 1 {' '.join(words[128:])}\n"
        journal = f"r 1 1 130 0 1\na 1 1 0 0 133 2 131\ng 0 1\n{walk}t 500\ns 1 1 p 1 0 2\ns 1 1 d 130 131 133\n"
        self.assertEqual(self.replay(journal).ends, [(1, "served", 2, 131, 129)])
        wrong = journal.replace(f"h 1 {' '.join(words[128:])}", f"h 2 {' '.join(words[128:])}")
        self.assertEqual(self.refused(wrong), "line 6: continues leg 2 in place of leg 1")
        wrong = journal.replace(f"g 1 {words[0]} ", "g 1 ").replace("h 1 65 ", "h 1 ")
        self.assertEqual(self.refused(wrong), "line 5: continues a walk that has ended")


class MisfitTest(LineTest):
    """Journals that don't fit, with their lines."""

    def test_journals_that_do_not_fit(self) -> None:
        whole = TWO + TWO_SERVED
        cases = (
            ("g 1 2 3 4", "g 1 2 4", "line 4: doesn't fit: no road leads from node 2 to node 4"),
            ("g 1 2 3 4", "g 1 2 3 5", "line 4: doesn't fit: the walk has a node that isn't from 1 to 4"),
            ("g 1 2 3 4", "g 1 2 3", "line 4: doesn't fit: the walk doesn't lead from node 2 to node 4"),
            ("g 0 1 2", "g 0 3 2", "line 3: doesn't fit: the walk doesn't lead from node 1 to node 2"),
            ("g 0 1 2\n", "", "line 3: doesn't fit: a walk of leg 1 where one of leg 0 belongs"),
            ("g 1 2 3 4\n", "", "line 3: doesn't fit: 1 walks in place of 2"),
            ("g 0 1 2\ng 1 2 3 4\n", "", "line 2: doesn't fit: 0 walks in place of 2"),
            ("g 3 4\n", "g 3 4\ng 4 4\n", "line 10: doesn't fit: 4 walks in place of 3"),
            ("a 1 1 0 0", "a 1 2 0 0", "line 2: doesn't fit: vehicle 2 isn't in the fleet"),
            ("a 1 1 0 0", "a 3 1 0 0", "line 2: doesn't fit: request 3 doesn't wait"),
            ("a 1 1 0 0", "a 1 1 0 1", "line 2: doesn't fit: no places 0 and 1 in a list of 0 stops"),
            ("a 2 1 1 1", "a 2 1 2 1", "line 6: doesn't fit: no places 2 and 1 in a list of 2 stops"),
            (
                "34 12 32",
                "34 13 32",
                "line 2: doesn't fit: departure 13 and arrival 32 aren't the 12 and 32 that the walks and "
                "a stop time of 2 give",
            ),
            ("r 1 2 4 0 1", "r 1 2 5 0 1", "line 1: doesn't fit: a place isn't a node from 1 to 4"),
            ("r 1 2 4 0 1", "r 1 2 4 0 17", "line 1: doesn't fit: no board accepts so many riders"),
            ("r 1 2 4 0 1", "r 1 2 4 0 3", "line 2: doesn't fit: vehicle 1 has 2 seats and 0 spaces for 3 and 0"),
            ("r 2 3", "r 1 3", "line 5: doesn't fit: request 1 was accepted before"),
            ("t 100", "t 9", "line 11: doesn't fit: no stop is due"),
            ("s 1 1 p 2 10 12\n", "", "line 11: doesn't fit: due is 's 1 1 p 2 10 12'"),
            ("s 1 1 p 2 10 12", "s 1 1 p 2 10 13", "line 11: doesn't fit: due is 's 1 1 p 2 10 12'"),
            ("s 1 1 d 4 36 36\n", "", "line 14: doesn't fit: before it 's 1 1 d 4 36 36' is due"),
            ("s 1 1 d 4 36 36", "t 200", "line 14: doesn't fit: before it 's 1 1 d 4 36 36' is due"),
            ("s 1 1 d 4 36 36", "s 1 1 d 4 36 36\ns 1 1 d 4 36 36", "line 15: doesn't fit: no stop is due"),
            (
                "s 1 2 d 4 34 36\ns 1 1 d 4 36 36",
                "s 1 1 d 4 36 36\ns 1 2 d 4 34 36",
                "line 13: doesn't fit: due is 's 1 2 d 4 34 36'",
            ),
        )
        for old, new, told in cases:
            self.assertIn(old, whole)
            self.assertEqual(self.refused(whole.replace(old, new, 1)), told)

    def test_clocks_and_cancellations_that_do_not_fit(self) -> None:
        cases = {
            "t 5\nt 3\n": "line 2: doesn't fit: the clock stands at 5",
            "t 5\nt 7\nx back 5\n": "line 2: doesn't fit: the clock stands at 5",
            "t 5\nt 3\nx back 6\n": "line 2: doesn't fit: the clock stands at 5",
            "t 5\nr 1 2 4 4 1\n": "line 2: doesn't fit: the moment 4 isn't at or after the clock 5",
            "r 1 2 4 0 1\nx 1 place\n": "line 1: doesn't fit: both places of the refused request are in the map",
            ONE + "y 1\no 1 1 2 1\n": "line 6: doesn't fit: stops 2 and 1 of vehicle 1 aren't those of 1",
            ONE + "y 1\no 1 1 1 3\n": "line 6: doesn't fit: stops 1 and 3 of vehicle 1 aren't those of 1",
            ONE + "y 2\no 2 1 1 2\n": "line 6: doesn't fit: stops 1 and 2 of vehicle 1 aren't those of 2",
            ONE + "y 1\no 1 9 1 2\n": "line 6: doesn't fit: vehicle 9 isn't in the fleet",
            TWO + "y 1\no 1 1 1 4\n": "line 11: doesn't fit: 0 walks in place of 1",
            TWO + "y 1\no 1 1 1 4\ng 0 1 2\n": "line 12: doesn't fit: the walk doesn't lead from node 1 to node 3",
        }
        for journal, told in cases.items():
            self.assertEqual(self.refused(journal), told)

    def test_a_service_that_ends_too_early(self) -> None:
        self.put("line.csv", "vehicle,start,seats,from,until\n1,1,2,0,33\n")
        self.assertEqual(self.refused(ONE), "line 2: doesn't fit: vehicle 1 would leave its last stop at 34, after 33")

    def test_texts_that_are_no_journals(self) -> None:
        cases = {
            "q 1\n": "line 1: no line that begins an entry of a journal",
            "g 0 1 2\n": "line 1: no line that begins an entry of a journal",
            "x 1 place\n": "line 1: no line that begins an entry of a journal",
            "t 5\n\nt 6\n": "line 2: blank",
            "t\n": "line 1: 0 fields where 1 belong",
            "t -1\n": "line 1: a field isn't a number",
            "t 4611686018427387905\n": "line 1: a number is above 2^62",
            f"t {'9' * 5000}\n": "line 1: a number is above 2^62",
            "r 1 2 4 0\n": "line 1: 4 fields where 5 belong",
            "r 1 2 4 0 1\nx 2 place\n": "line 2: no refusal of 1 for a reason that fits",
            "r 1 2 4 0 1\nx 1 served\n": "line 2: no refusal of 1 for a reason that fits",
            "y 1\nt 5\n": "line 2: the cancellation of 1 is neither refused nor done",
            "y 1\n": "line 2: the cancellation of 1 is neither refused nor done",
            "y 1\no 2 1 1 2\n": "line 2: 2 in place of 1 is taken out",
            "t 5\ns 1 1 q 2 3 4\n": "line 2: no line 's VEHICLE REQUEST p|d NODE ARRIVAL DEPARTURE'",
            f"t {' ' * 70000}\n": "line 1: longer than 65,536 bytes",
        }
        for journal, told in cases.items():
            self.assertEqual(self.refused(journal), told)


class StopTimeTest(LineTest):
    """The stop time that a journal shows."""

    def test_it_is_that_of_most_dropoffs(self) -> None:
        served = "s 1 1 p 2 10 100\ns 1 1 d 4 32 62\ns 1 2 d 4 90 90\ns 1 3 d 1 100 130\ns 1 4 d 1 200 207\n"
        self.assertEqual(stop_time_of(self.put("journal", f"t 300\n{served}")), 30)

    def test_it_is_none_where_dropoffs_take_none(self) -> None:
        self.assertEqual(stop_time_of(self.put("journal", "t 300\ns 1 2 d 4 90 90\n")), 0)

    def test_it_is_the_usual_one_where_nobody_was_dropped(self) -> None:
        self.assertEqual(stop_time_of(self.put("journal", ONE + "t 300\ns 1 2 p 4 90 95\n")), 2)


class DistanceTest(unittest.TestCase):
    """Distances from both ends, beside all distances by relaxing."""

    def test_distances(self) -> None:
        draw = random.Random(3)
        for nodes in (2, 9, 25):
            roads = [(draw.randint(1, nodes), draw.randint(1, nodes), draw.randint(0, 9)) for _ in range(4 * nodes)]
            tails, heads, weights = zip(*roads)
            city = City(nodes, *by_tail(nodes, tails, heads, weights), [], [])
            distances = Distances(city)
            for start in range(1, nodes + 1):
                best = {start: 0}
                for _ in range(nodes):
                    for tail, head, weight in roads:
                        if tail in best and best[tail] + weight < best.get(head, 1 << 60):
                            best[head] = best[tail] + weight
                for end, length in best.items():
                    for more in (0, 5):
                        self.assertEqual(distances.between(start, end, length + more), length)


class TownTest(FolderTest):
    """A stored day in a town: 300 requests, some with wheelchairs, some cancelled. See data/README.md."""

    def replay(self, journal: str) -> Log:
        """What a replay is told of a journal of the town."""
        log, city = Log(), read_city(os.path.join(DATA, "town"))
        fleet = read_fleet(os.path.join(DATA, "town.csv"), city.nodes)
        Replay(city, fleet, 30, journal, [log]).run()
        return log

    def test_every_served_stop_comes_at_the_time_of_its_line(self) -> None:
        path = os.path.join(DATA, "town.journal")
        self.assertEqual(stop_time_of(path), 30)
        with open(path, encoding="ascii") as file:
            lines = file.read().splitlines()
        log = self.replay(path)
        ends = {end[0]: end for end in log.ends if not end[1].startswith("refused")}
        served = [line.split() for line in lines if line.startswith("s ")]
        self.assertGreater(len(served), 400)
        for _, _, request, kind, _, arrival, departure in served:
            _, outcome, left, arrived, _ = ends[int(request)]
            self.assertEqual(outcome, "served")
            self.assertEqual(int(departure) if kind == "p" else int(arrival), left if kind == "p" else arrived)
        counts = {word: sum(line.startswith(f"{word} ") for line in lines) for word in "rano"}
        outcomes = [end[1].split()[0] for end in log.ends]
        self.assertEqual(outcomes.count("served"), counts["a"] - counts["o"])
        self.assertEqual(outcomes.count("cancelled"), counts["o"])
        self.assertEqual(outcomes.count("turned"), counts["n"])
        self.assertEqual(len(outcomes), counts["r"])
        for word in "ano":
            self.assertGreater(counts[word], 5, word)

    def test_the_drives_of_a_vehicle_follow_each_other(self) -> None:
        log = self.replay(os.path.join(DATA, "town.journal"))
        for _, drives in itertools.groupby(sorted(log.drives), key=lambda drive: drive[0]):
            drives = list(drives)
            for before, after in zip(drives, drives[1:]):
                self.assertLessEqual(before[2], after[1])
                self.assertEqual(before[3][-1], after[3][0])

    def test_a_changed_served_line_is_told(self) -> None:
        with open(os.path.join(DATA, "town.journal"), encoding="ascii") as file:
            lines = file.read().splitlines()
        served = [at for at, line in enumerate(lines) if line.startswith("s ")]
        draw = random.Random(2)
        for at in draw.sample(served, 12):
            fields = lines[at].split()
            field = draw.choice([1, 2, 4, 5, 6])
            fields[field] = str(int(fields[field]) + 1)
            changed = [*lines[:at], " ".join(fields), *lines[at + 1 :]]
            with self.assertRaisesRegex(Fault, f": line {at + 1}: doesn't fit: due is '{lines[at]}'"):
                self.replay(self.put("journal", "\n".join(changed) + "\n"))
