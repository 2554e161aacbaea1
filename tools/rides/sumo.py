"""Streets of a SUMO net (`.net.xml`), through `netconvert`, which turns its places into longitudes and latitudes."""

from __future__ import annotations

import os
import shutil
import subprocess
import tempfile
from dataclasses import dataclass, field

from rides.faults import Fault
from rides.places import DEGREE_METRES, MILLIONTHS, metres_between
from rides.streets import Streets
from rides.xml_texts import Stop, read_elements

TAXI_CLASSES = {"taxi", "passenger", "all"}
"""The classes of vehicles that a lane for a taxi allows."""

NO_PROJECTION = "!"


@dataclass
class Edge:
    """An edge of a net, while its lanes are read. The speed is in metres a second."""

    tail: str
    head: str
    speed: float
    metres: float | None
    bends: list[tuple[int, int]]
    is_open: bool
    lanes: list[bool] = field(default_factory=list)


class Net:
    """Takes the elements of a net's plain junctions and edges into streets."""

    def __init__(self, streets: Streets, units_in_degree: float) -> None:
        self.streets = streets
        self.scale = MILLIONTHS / units_in_degree
        self.places: dict[str, int] = {}
        self.edge: Edge | None = None

    def place_of(self, x: str, y: str) -> tuple[int, int]:
        """A place of the net in millionths of a degree."""
        return round(float(x) * self.scale), round(float(y) * self.scale)

    def begin_node(self, name: str, attributes: dict[str, str]) -> None:
        """Adds a junction's place."""
        if name == "node":
            self.places[attributes["id"]] = self.streets.add_place(*self.place_of(attributes["x"], attributes["y"]))

    def begin_edge(self, name: str, attributes: dict[str, str]) -> None:
        """Begins an edge, or takes note of one of its lanes."""
        if name == "edge":
            points = [point.split(",") for point in attributes.get("shape", "").split()]
            self.edge = Edge(
                attributes["from"],
                attributes["to"],
                float(attributes["speed"]),
                float(attributes["length"]) if "length" in attributes else None,
                [self.place_of(point[0], point[1]) for point in points],
                may_taxi(attributes),
            )
        elif name == "lane" and self.edge:
            self.edge.lanes.append(may_taxi(attributes))

    def end_edge(self, name: str) -> None:
        """Adds an edge as a road where a taxi may use it."""
        if name != "edge" or not self.edge:
            return
        edge, self.edge = self.edge, None
        if not edge.is_open or (edge.lanes and not any(edge.lanes)) or edge.speed <= 0:
            self.streets.drop("edges closed to taxis")
            return
        tail, head = self.places[edge.tail], self.places[edge.head]
        metres = edge.metres
        if metres is None:
            ends = [(self.streets.longitudes[place], self.streets.latitudes[place]) for place in (tail, head)]
            points = edge.bends or ends
            metres = sum(metres_between(*point, *after) for point, after in zip(points, points[1:]))
        self.streets.add_road(tail, head, metres, edge.speed)


def may_taxi(attributes: dict[str, str]) -> bool:
    """Whether the attributes of an edge or a lane let taxis or cars in."""
    if "allow" in attributes:
        return bool(TAXI_CLASSES & set(attributes["allow"].split()))
    closed = set(attributes.get("disallow", "").split())
    return "all" not in closed and not {"taxi", "passenger"} <= closed


def has_projection(path: str) -> bool:
    """Whether a net tells where on the earth it lies."""
    projections: list[str] = []

    def begin(name: str, attributes: dict[str, str]) -> None:
        if name == "location":
            projections.append(attributes.get("projParameter", NO_PROJECTION))
            raise Stop

    read_elements(path, begin)
    if not projections:
        raise Fault(path, None, "no element 'location', which a SUMO net has")
    return projections[0] != NO_PROJECTION


def read_sumo(path: str) -> Streets:
    """The streets of a net. Their places are in the order of the junctions.

    A net without a projection is laid down with its metres east and north of longitude 0 and latitude 0.
    """
    units_in_degree = 1.0 if has_projection(path) else DEGREE_METRES
    if not shutil.which("netconvert"):
        raise Fault(path, None, "is read by netconvert, which isn't installed: sumo")
    streets = Streets()
    net = Net(streets, units_in_degree)
    with tempfile.TemporaryDirectory(prefix="ride-") as folder:
        plain = os.path.join(folder, "net")
        words = ["netconvert", "--sumo-net-file", path, "--plain-output-prefix", plain, "--proj.plain-geo"]
        told = subprocess.run(
            [*words, "--xml-validation", "never"], stdin=subprocess.DEVNULL, capture_output=True, text=True
        )
        if told.returncode:
            errors = [line for line in told.stderr.splitlines() if line.startswith("Error: ")]
            raise Fault(path, None, "netconvert: " + (errors[0] if errors else f"status {told.returncode}"))
        read_elements(f"{plain}.nod.xml", net.begin_node)
        read_elements(f"{plain}.edg.xml", net.begin_edge, net.end_edge)
    return streets
