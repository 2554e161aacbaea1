"""`ride map`, from made extracts of OpenStreetMap and SUMO nets."""

from __future__ import annotations

import io
import math
import subprocess
import unittest
import unittest.mock

from rides.car_ways import directions, is_barrier, limit_of, reason_to_drop, speed
from rides.streets import Streets, city_of
from tests import made_city
from tests.support import FolderTest, needs_program, needs_sumo, strict_graph, strict_places, vaugrenis

try:
    import osmium
except ImportError:
    osmium = None

DEGREE = 111_195.08
"""Metres in a degree of latitude, for a radius of 6,371,008.8 metres."""


def extract(*elements: str) -> str:
    """An `.osm` text of these elements."""
    return '<osm version="0.6">\n' + "\n".join(elements) + "\n</osm>\n"


def node(number: int, east: float, north: float = 0.0, tags: str = "") -> str:
    """A node so many metres east and north of longitude 0 and latitude 0."""
    return f'<node id="{number}" lon="{east / DEGREE:.9f}" lat="{north / DEGREE:.9f}">{tags}</node>'


def tag(key: str, value: str) -> str:
    """A tag."""
    return f'<tag k="{key}" v="{value}"/>'


def way(*nodes: int, **tags: str) -> str:
    """A way."""
    return (
        "<way id='1'>"
        + "".join(f'<nd ref="{number}"/>' for number in nodes)
        + "".join(tag(key, value) for key, value in tags.items())
        + "</way>"
    )


class MapTest(FolderTest):
    """Maps of `.osm` files."""

    def roads(self, *elements: str) -> set[tuple[int, int, int]]:
        """The roads that the map of an extract has."""
        self.put("city.osm", extract(*elements))
        self.ride("map", "city.osm", "-o", "city")
        nodes, roads = strict_graph(self.get("city.gr").encode())
        strict_places(self.get("city.co").encode(), nodes)
        return set(roads)

    def test_weights_are_seconds_rounded_up_and_at_least_one(self) -> None:
        ends = (node(1, 0), node(2, 101), node(3, 101.5))
        roads = self.roads(*ends, way(1, 2, highway="residential", maxspeed="36"), way(2, 3, highway="primary"))
        self.assertEqual(roads, {(1, 2, 11), (2, 1, 11), (2, 3, 1), (3, 2, 1)})

    def test_one_way_streets_lead_one_way(self) -> None:
        ends = (node(1, 0), node(2, 99), node(3, 50, 80))
        there = way(1, 2, highway="residential", oneway="yes", maxspeed="36")
        back = way(3, 2, highway="residential", oneway="-1", maxspeed="36")
        both = way(3, 1, highway="residential", maxspeed="36")
        lengths = math.ceil(math.hypot(50, 80) / 10)
        self.assertEqual(
            self.roads(*ends, there, back, both), {(1, 2, 10), (2, 3, lengths), (3, 1, lengths), (1, 3, lengths)}
        )

    def test_a_roundabout_and_a_motorway_are_one_way_unless_they_say_otherwise(self) -> None:
        ring = (node(1, 0), node(2, 100), node(3, 50, 80))
        roads = self.roads(*ring, way(1, 2, 3, 1, highway="tertiary", junction="roundabout"), way(2, 1, highway="road"))
        self.assertIn((2, 1), {road[:2] for road in roads})
        self.assertEqual(directions({"highway": "tertiary", "junction": "roundabout"}), (True, False))
        self.assertEqual(directions({"highway": "motorway"}), (True, False))
        self.assertEqual(directions({"highway": "motorway", "oneway": "no"}), (True, True))
        self.assertEqual(directions({"highway": "motorway_link"}), (True, True))

    def test_a_street_is_cut_at_junctions_and_at_bends_far_apart(self) -> None:
        ends = (node(1, 0), node(2, 60), node(3, 249), node(4, 298), node(5, 298, 97))
        street, other = way(1, 2, 3, 4, highway="road", maxspeed="36"), way(4, 5, highway="road", maxspeed="36")
        roads = self.roads(*ends, street, other)
        self.assertEqual({road for road in roads if road[0] < road[1]}, {(1, 2, 25), (2, 3, 5), (3, 4, 10)})

    def test_only_the_largest_part_in_which_all_reach_all_is_kept(self) -> None:
        ends = (node(1, 0), node(2, 100), node(3, 200), node(4, 300), node(5, 0, 900), node(6, 50, 900))
        roads = self.roads(
            *ends,
            way(1, 2, highway="road", maxspeed="36"),
            way(2, 3, highway="road", maxspeed="36"),
            way(3, 4, highway="road", oneway="yes"),
            way(5, 6, highway="road"),
        )
        self.assertEqual({road[:2] for road in roads}, {(1, 2), (2, 1), (2, 3), (3, 2)})

    def test_of_parallel_roads_the_quickest_is_kept_and_loops_are_left_out(self) -> None:
        ends = (node(1, 0), node(2, 99), node(3, 0, 50))
        slow, quick = way(1, 2, highway="road", maxspeed="18"), way(1, 2, highway="road", maxspeed="36")
        loop = way(1, 3, 1, highway="road")
        self.assertEqual(self.roads(*ends, slow, quick, loop), {(1, 2, 10), (2, 1, 10)})

    def test_gaps_and_barriers_part_a_street(self) -> None:
        bollard = node(5, 180, tags=tag("barrier", "bollard"))
        ends = (node(1, 0), node(2, 50), node(3, 99), node(4, 148), bollard, node(6, 250))
        street = way(1, 2, 3, 99, 4, 5, 6, highway="road", maxspeed="36")
        detour = way(3, 4, highway="road", maxspeed="18")
        roads = self.roads(*ends, street, detour)
        self.assertEqual(roads, {(1, 2, 10), (2, 1, 10), (2, 3, 10), (3, 2, 10)})
        self.assertIn("dropped barriers: 1", self.ride("map", "city.osm", "-o", "city").stdout)

    def test_the_kept_and_the_dropped_are_told(self) -> None:
        with open(self.path("made.osm"), "w", encoding="utf-8") as file:
            made_city.write_city(file, 5, 5)
        told = self.ride("map", "made.osm", "-o", "made").stdout.splitlines()
        self.assertEqual(
            told,
            [
                "kept 37 nodes and 88 roads",
                "dropped ways that aren't for cars: 4",
                "dropped ways closed to taxis: 1",
                "dropped places outside the largest part: 2",
                "dropped roads outside the largest part: 2",
            ],
        )

    def test_every_node_of_a_made_city_reaches_every_other(self) -> None:
        with open(self.path("made.osm"), "w", encoding="utf-8") as file:
            made_city.write_city(file, 7, 6)
        self.ride("map", "made.osm", "-o", "made")
        nodes, roads = strict_graph(self.get("made.gr").encode())
        for turned in (False, True):
            reached, open_nodes = {1}, [1]
            while open_nodes:
                at = open_nodes.pop()
                for tail, head, _ in roads:
                    start, end = (head, tail) if turned else (tail, head)
                    if start == at and end not in reached:
                        reached.add(end)
                        open_nodes.append(end)
            self.assertEqual(len(reached), nodes)

    def test_the_same_map_twice_gives_the_same_bytes(self) -> None:
        with open(self.path("made.osm"), "w", encoding="utf-8") as file:
            made_city.write_city(file, 6, 6)
        self.ride("map", "made.osm", "-o", "one")
        self.ride("map", "made.osm", "-o", "two")
        self.assertEqual(self.get("one.gr"), self.get("two.gr"))
        self.assertEqual(self.get("one.co"), self.get("two.co"))

    @needs_program
    def test_the_program_accepts_the_graphs(self) -> None:
        self.put("fleet.csv", "vehicle,start,seats,from,until\n1,1,4,0,1000000\n")
        self.put("none.txt", "")
        for columns, rows in ((5, 5), (9, 7), (20, 20)):
            with open(self.path("made.osm"), "w", encoding="utf-8") as file:
                made_city.write_city(file, columns, rows)
            self.ride("map", "made.osm", "-o", "made")
            told = vaugrenis(self.folder, "run", "made.gr", "fleet.csv", "none.txt")
            self.assertEqual((told.returncode, told.stdout), (0, ""), told.stderr)

    @unittest.skipUnless(osmium, "python3-pyosmium isn't installed")
    def test_a_packed_extract_gives_the_same_map(self) -> None:
        with open(self.path("made.osm"), "w", encoding="utf-8") as file:
            made_city.write_city(file, 6, 5)
        writer = osmium.SimpleWriter(self.path("made.osm.pbf"))

        class Copy(osmium.SimpleHandler):
            """Writes what it is given."""

            def node(self, found) -> None:
                """Takes a node."""
                writer.add_node(found)

            def way(self, found) -> None:
                """Takes a way."""
                writer.add_way(found)

        Copy().apply_file(self.path("made.osm"))
        writer.close()
        self.ride("map", "made.osm", "-o", "plain")
        self.ride("map", "made.osm.pbf", "-o", "packed")
        self.assertEqual(self.get("plain.gr"), self.get("packed.gr"))
        self.assertEqual(self.get("plain.co"), self.get("packed.co"))

    @unittest.skipUnless(osmium, "python3-pyosmium isn't installed")
    def test_a_broken_packed_extract_is_refused(self) -> None:
        self.put("city.osm.pbf", "no such thing")
        self.assertIn("city.osm.pbf: isn't read by osmium", self.fault("map", "city.osm.pbf", "-o", "city"))

    def test_faults(self) -> None:
        cases = {
            "cut.osm": ("<osm>\n<way>\n", "cut.osm: line 3: not well-formed XML: no element found"),
            "tags.osm": ("<osm>\n<way></wax>\n", "tags.osm: line 2: not well-formed XML: mismatched tag"),
            "ref.osm": ("<osm><way>\n<nd/></way></osm>", "ref.osm: line 2: an element has no attribute 'ref'"),
            "far.osm": (
                extract('<node id="1" lon="181" lat="0"/>', node(2, 0), way(1, 2, highway="road")),
                "far.osm: line 2: node 1 isn't on the earth",
            ),
            "none.osm": (extract(), "none.osm: has no roads that lead to and fro for a car"),
            "city.txt": ("", "city.txt: its name ends in none of .osm, .osm.pbf, .osm.gz, .osm.bz2 and .net.xml"),
            "city.net.xml": ("<net/>", "city.net.xml: no element 'location', which a SUMO net has"),
        }
        for name, (text, told) in cases.items():
            self.put(name, text)
            self.assertEqual(self.fault("map", name, "-o", "city"), told)
        self.assertEqual(self.fault("map", "gone.osm", "-o", "city"), "gone.osm: No such file or directory")
        self.put("good.osm", extract(node(1, 0), node(2, 50), way(1, 2, highway="road")))
        self.assertEqual(self.fault("map", "good.osm", "-o", "gone/city"), "gone/city.gr: No such file or directory")

    def test_missing_packages_are_named(self) -> None:
        self.put("city.osm.pbf", "")
        with unittest.mock.patch.dict("sys.modules", {"osmium": None}):
            self.assertEqual(
                self.fault("map", "city.osm.pbf", "-o", "city"),
                "city.osm.pbf: is read by a package that isn't installed: python3-pyosmium",
            )
        self.put("city.net.xml", '<net><location projParameter="!"/></net>')
        with unittest.mock.patch("shutil.which", return_value=None):
            self.assertEqual(
                self.fault("map", "city.net.xml", "-o", "city"),
                "city.net.xml: is read by netconvert, which isn't installed: sumo",
            )

    def test_too_many_nodes_are_refused(self) -> None:
        streets = Streets()
        streets.longitudes.extend(range(3))
        streets.latitudes.extend(range(3))
        streets.tails.extend((1, 2, 3))
        streets.heads.extend((2, 3, 1))
        streets.weights.extend((1, 1, 1))
        with unittest.mock.patch("rides.limits.NODES", 2), self.assertRaisesRegex(Exception, "3 nodes and 3 roads"):
            city_of(streets, "large.osm")


class TagTest(unittest.TestCase):
    """What tags say of a way."""

    def test_who_may_use_a_way(self) -> None:
        self.assertIsNone(reason_to_drop({"highway": "motorway"}))
        self.assertIsNone(reason_to_drop({"highway": "service", "access": "no", "taxi": "yes"}))
        self.assertIsNone(reason_to_drop({"highway": "residential", "access": "private", "motor_vehicle": "yes"}))
        for tags in (
            {"highway": "footway"},
            {"highway": "cycleway"},
            {"highway": "service", "area": "yes"},
            {"highway": "residential", "motor_vehicle": "no"},
            {"highway": "residential", "motorcar": "private", "access": "yes"},
            {"highway": "primary", "oneway": "reversible"},
        ):
            self.assertIsNotNone(reason_to_drop(tags), tags)

    def test_speeds(self) -> None:
        texts = {"50": 50, "50 km/h": 50, "30 mph": 48.28032, "none": 130, "walk": 6}
        for text, limit in texts.items():
            self.assertAlmostEqual(limit_of(text), limit, msg=text)
        for text in ("", "0", "FR:urban", "signals", "-5", "1e3", "²"):
            self.assertIsNone(limit_of(text), text)
        tags = {"highway": "primary", "maxspeed": "72", "maxspeed:backward": "36"}
        self.assertAlmostEqual(speed(tags, "forward"), 20)
        self.assertAlmostEqual(speed(tags, "backward"), 10)
        self.assertAlmostEqual(speed({"highway": "residential"}, "forward"), 30 / 3.6)

    def test_barriers(self) -> None:
        self.assertTrue(is_barrier({"barrier": "bollard"}))
        self.assertTrue(is_barrier({"barrier": "bollard", "motor_vehicle": "no"}))
        self.assertFalse(is_barrier({"barrier": "bollard", "motor_vehicle": "yes"}))
        self.assertFalse(is_barrier({"barrier": "gate"}))


@needs_sumo
class SumoTest(FolderTest):
    """Maps of SUMO nets."""

    def net(self, *words: str) -> None:
        """Makes city.net.xml."""
        told = subprocess.run(
            ["netconvert", *words, "-o", "city.net.xml", "--xml-validation", "never"],
            cwd=self.folder,
            stdin=subprocess.DEVNULL,
            capture_output=True,
            text=True,
        )
        self.assertEqual(told.returncode, 0, told.stderr)

    def test_a_net_without_a_projection(self) -> None:
        self.put(
            "city.nod.xml",
            '<nodes><node id="a" x="0" y="0"/><node id="b" x="299" y="0"/><node id="c" x="299" y="199"/></nodes>',
        )
        self.put(
            "city.edg.xml",
            '<edges><edge id="1" from="a" to="b" speed="10"/><edge id="2" from="b" to="a" speed="20"/>'
            '<edge id="3" from="b" to="c" speed="10" length="250"/><edge id="4" from="c" to="b" speed="10"/>'
            '<edge id="5" from="a" to="c" speed="30" allow="pedestrian"/></edges>',
        )
        self.net("--node-files", "city.nod.xml", "--edge-files", "city.edg.xml")
        told = self.ride("map", "city.net.xml", "-o", "city").stdout
        self.assertEqual(told, "kept 3 nodes and 4 roads\ndropped edges closed to taxis: 1\n")
        nodes, roads = strict_graph(self.get("city.gr").encode())
        self.assertEqual(set(roads), {(1, 2, 30), (2, 1, 15), (2, 3, 25), (3, 2, 20)})
        places = strict_places(self.get("city.co").encode(), nodes)
        self.assertEqual(places[3], (round(299 / DEGREE * 1e6), round(199 / DEGREE * 1e6)))

    def test_a_net_of_an_extract_lies_where_the_extract_lies(self) -> None:
        self.put(
            "city.osm",
            extract(
                '<node id="1" lon="7.8" lat="48"/>',
                '<node id="2" lon="7.802" lat="48.001"/>',
                '<node id="3" lon="7.8005" lat="48.002"/>',
                way(1, 2, highway="residential").replace("'1'", "'5'"),
                way(2, 3, highway="primary").replace("'1'", "'6'"),
                way(3, 1, highway="footway").replace("'1'", "'7'"),
            ),
        )
        self.net("--osm-files", "city.osm")
        self.ride("map", "city.net.xml", "-o", "city")
        nodes, roads = strict_graph(self.get("city.gr").encode())
        self.assertEqual({road[:2] for road in roads}, {(1, 2), (2, 1), (2, 3), (3, 2)})
        places = strict_places(self.get("city.co").encode(), nodes)
        self.assertEqual(places, {1: (7_800_000, 48_000_000), 2: (7_802_000, 48_001_000), 3: (7_800_500, 48_002_000)})

    def test_a_net_that_netconvert_refuses(self) -> None:
        self.put("city.net.xml", '<net><location projParameter="!"/></net>')
        self.assertIn("city.net.xml: netconvert: Error: ", self.fault("map", "city.net.xml", "-o", "city"))


class MadeCityTest(unittest.TestCase):
    """The city that other tests take."""

    def test_it_has_all_kinds_of_streets(self) -> None:
        file = io.StringIO()
        extract_of_city = made_city.write_city(file, 5, 5)
        self.assertGreater(len(extract_of_city.ways), 50)
        for word in ("oneway", "roundabout", "motorway", "footway", "private"):
            self.assertIn(word, file.getvalue())
