"""Streets of an OpenStreetMap extract: `.osm` by the standard library, packed ones by python3-pyosmium."""

from __future__ import annotations

import re
from array import array
from collections.abc import Callable, Iterator, Mapping
from types import ModuleType

from rides.car_ways import directions, is_barrier, reason_to_drop, speed
from rides.faults import Fault, system_fault
from rides.places import MILLIONTHS, metres_between
from rides.streets import Streets
from rides.texts import Progress
from rides.xml_texts import read_elements

PIECE_METRES = 200
"""A street is cut at a bend once a piece is this long, so that places and pictures stay near it."""

TakeWay = Callable[[Mapping[str, str], list[int]], None]
TakeNode = Callable[[int, float, float, Mapping[str, str]], None]


class Ways:
    """The ways that a taxi may use, and the nodes on them, which are counted from 0 in the order of their first use.

    The nodes of way w are those at `ends[w - 1]` (0 for the first way) to `ends[w] - 1` of `nodes`. Speeds are in
    metres a second, and 0 where a way may not be driven in that direction. `uses` counts up to 2.
    """

    def __init__(self, streets: Streets) -> None:
        self.streets = streets
        self.nodes = array("I")
        self.ends = array("Q")
        self.forward = array("d")
        self.backward = array("d")
        self.numbers = array("q")
        self.indexes: dict[int, int] = {}
        self.uses = bytearray()

    def take(self, tags: Mapping[str, str], nodes: list[int]) -> None:
        """Takes a way where a taxi may use it, and counts it among the dropped ones else."""
        if "highway" not in tags:
            return
        reason = reason_to_drop(tags)
        if reason:
            self.streets.drop(reason)
            return
        may_forward, may_backward = directions(tags)
        self.forward.append(speed(tags, "forward") if may_forward else 0)
        self.backward.append(speed(tags, "backward") if may_backward else 0)
        for number in nodes:
            self.use(number)
        self.ends.append(len(self.nodes))

    def use(self, number: int) -> None:
        """Adds a node, by its number in OpenStreetMap, to the way that is being taken."""
        index = self.indexes.setdefault(number, len(self.numbers))
        if index == len(self.numbers):
            self.numbers.append(number)
            self.uses.append(0)
        self.uses[index] = min(2, self.uses[index] + 1)
        self.nodes.append(index)


class Nodes:
    """Where the nodes of the ways lie, in millionths of a degree, and which of them no car gets past."""

    def __init__(self, ways: Ways) -> None:
        self.indexes = ways.indexes
        count = len(ways.numbers)
        self.longitudes, self.latitudes = array("i", bytes(4 * count)), array("i", bytes(4 * count))
        self.found, self.barriers = bytearray(count), bytearray(count)

    def take(self, number: int, longitude: float, latitude: float, tags: Mapping[str, str]) -> None:
        """Takes a node, in degrees, where a way uses it."""
        index = self.indexes.get(number)
        if index is None:
            return
        if not -180 <= longitude <= 180 or not -90 <= latitude <= 90:
            raise ValueError(f"node {number} isn't on the earth")
        self.longitudes[index] = round(longitude * MILLIONTHS)
        self.latitudes[index] = round(latitude * MILLIONTHS)
        self.found[index] = 1
        self.barriers[index] = is_barrier(tags)

    def metres(self, node: int, other: int) -> float:
        """The distance of two nodes."""
        return metres_between(
            self.longitudes[node], self.latitudes[node], self.longitudes[other], self.latitudes[other]
        )


def read_osm(path: str) -> Streets:
    """The streets of an extract. Their places are in order of the nodes' numbers in OpenStreetMap."""
    streets = Streets()
    ways = Ways(streets)
    read_ways, read_nodes = (ways_of_xml, nodes_of_xml) if path.endswith(".osm") else (ways_of_packed, nodes_of_packed)
    read_ways(path, ways.take)
    nodes = Nodes(ways)
    read_nodes(path, nodes.take)
    streets.drop("nodes that the extract lacks", nodes.found.count(0))
    streets.drop("barriers", nodes.barriers.count(1))
    add_roads(streets, ways, nodes)
    return streets


def add_roads(streets: Streets, ways: Ways, nodes: Nodes) -> None:
    """Adds the pieces of the ways as roads, and their ends as places."""
    is_end = bytearray(len(ways.numbers))
    for _, tail, head, _ in pieces(ways, nodes):
        is_end[tail] = is_end[head] = 1
    places = array("I", bytes(4 * len(ways.numbers)))
    for node in sorted((node for node, is_one in enumerate(is_end) if is_one), key=ways.numbers.__getitem__):
        places[node] = streets.add_place(nodes.longitudes[node], nodes.latitudes[node])
    for way, tail, head, metres in pieces(ways, nodes):
        if ways.forward[way]:
            streets.add_road(places[tail], places[head], metres, ways.forward[way])
        if ways.backward[way]:
            streets.add_road(places[head], places[tail], metres, ways.backward[way])


def pieces(ways: Ways, nodes: Nodes) -> Iterator[tuple[int, int, int, float]]:
    """The pieces that the ways are cut into: the way, the nodes at the ends, and the length in metres.

    A way is cut at junctions, and at bends once a piece is long enough.
    """
    for way, run in runs(ways, nodes):
        tail, metres = run[0], 0.0
        for before, node in zip(run, run[1:]):
            metres += nodes.metres(before, node)
            if node == run[-1] or ways.uses[node] > 1 or metres >= PIECE_METRES:
                yield way, tail, node, metres
                tail, metres = node, 0.0


def runs(ways: Ways, nodes: Nodes) -> Iterator[tuple[int, list[int]]]:
    """The ways, parted where a node is missing or a barrier: the way, and the nodes of the run."""
    begin = 0
    for way, end in enumerate(ways.ends):
        run: list[int] = []
        for node in ways.nodes[begin:end]:
            if nodes.found[node] and not nodes.barriers[node]:
                run.append(node)
            elif run:
                yield way, run
                run = []
        if run:
            yield way, run
        begin = end


def ways_of_xml(path: str, take: TakeWay) -> None:
    """Hands on each way of an `.osm` file, with its tags and its nodes' numbers."""
    tags: dict[str, str] = {}
    nodes: list[int] = []

    def begin(name: str, attributes: dict[str, str]) -> None:
        if name == "way":
            tags.clear()
            nodes.clear()
        elif name == "nd":
            nodes.append(int(attributes["ref"]))
        elif name == "tag":
            tags[attributes["k"]] = attributes["v"]

    def end(name: str) -> None:
        if name == "way":
            take(tags, nodes)

    read_elements(path, begin, end)


def nodes_of_xml(path: str, take: TakeNode) -> None:
    """Hands on each node of an `.osm` file, with its number, longitude and latitude in degrees, and tags."""
    tags: dict[str, str] = {}
    place: list[str] = []

    def begin(name: str, attributes: dict[str, str]) -> None:
        if name == "node":
            tags.clear()
            place[:] = (attributes["id"], attributes["lon"], attributes["lat"])
        elif name == "tag":
            tags[attributes["k"]] = attributes["v"]

    def end(name: str) -> None:
        if name == "node":
            take(int(place[0]), float(place[1]), float(place[2]), tags)

    read_elements(path, begin, end)


def ways_of_packed(path: str, take: TakeWay) -> None:
    """As `ways_of_xml`, for the files that osmium reads."""
    osmium = osmium_for(path)
    progress = Progress(f"reading the ways of {path}")

    class Taker(osmium.SimpleHandler):  # type: ignore[name-defined]
        """Hands on the ways."""

        count = 0

        def way(self, found) -> None:
            """Is called by osmium with each way."""
            self.count += 1
            progress.tell(self.count, 0)
            if "highway" in found.tags:
                take({tag.k: tag.v for tag in found.tags}, [node.ref for node in found.nodes])

    apply_osmium(path, osmium.osm.osm_entity_bits.WAY, Taker())


def nodes_of_packed(path: str, take: TakeNode) -> None:
    """As `nodes_of_xml`, for the files that osmium reads."""
    osmium = osmium_for(path)
    progress = Progress(f"reading the nodes of {path}")

    class Taker(osmium.SimpleHandler):  # type: ignore[name-defined]
        """Hands on the nodes."""

        count = 0

        def node(self, found) -> None:
            """Is called by osmium with each node."""
            self.count += 1
            progress.tell(self.count, 0)
            if found.location.valid():
                tags = {tag.k: tag.v for tag in found.tags} if found.tags else {}
                take(found.id, found.location.lon, found.location.lat, tags)

    apply_osmium(path, osmium.osm.osm_entity_bits.NODE, Taker())


def osmium_for(path: str) -> ModuleType:
    """The module osmium, which a file at this path wants."""
    try:
        import osmium
    except ImportError as error:
        raise Fault(path, None, "is read by a package that isn't installed: python3-pyosmium") from error
    return osmium


def apply_osmium(path: str, entities: int, handler: object) -> None:
    """Has osmium call a handler with the ways or the nodes of a file."""
    osmium = osmium_for(path)
    try:
        open(path, "rb").close()  # osmium doesn't say why a file can't be opened
    except OSError as error:
        raise system_fault(path, error) from error
    try:
        reader = osmium.io.Reader(path, entities)
        osmium.apply(reader, handler)
        reader.close()
    except (RuntimeError, ValueError) as error:
        line = re.search(r"line (\d+)", str(error))
        raise Fault(path, int(line[1]) if line else None, f"isn't read by osmium: {error}") from error
