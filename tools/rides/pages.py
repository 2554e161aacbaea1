"""The page of a report: a map with a slider of the time, the summary and charts, in one file that needs no network."""

from __future__ import annotations

import html
import os
from collections.abc import Iterable
from typing import TextIO

from rides.charts import occupancy_chart, waits_chart
from rides.cities import City
from rides.faults import Fault, system_fault
from rides.figures import Figures
from rides.fleets import Cab
from rides.replay import Outcome
from rides.schedules import Drive, Ride

LEAFLET = "/usr/share/javascript/leaflet"
"""Where Debian's libjs-leaflet lies."""

PARTS = os.path.join(os.path.dirname(__file__), "page")

POLICY = "default-src 'none'; script-src 'unsafe-inline'; style-src 'unsafe-inline'; img-src data:"

KEYS = (
    ("idle", "idle"),
    ("empty", "empty"),
    ("one-party", "one party"),
    ("shared", "shared"),
    ("waiting", "rider waits"),
    ("alighting", "rider gets out"),
)
"""The classes of the marks in the key, and what they stand for."""


def inlined(path: str) -> str:
    """A script or a style sheet as it may stand inside a page."""
    try:
        with open(path, encoding="utf-8") as file:
            text = file.read()
    except FileNotFoundError as error:
        raise Fault(path, None, "isn't there: libjs-leaflet has it") from error
    except OSError as error:
        raise system_fault(path, error) from error
    lines = [line for line in text.splitlines() if "# sourceMappingURL" not in line]
    return "\n".join(lines).replace("</", "<\\/")


def joined(numbers: Iterable[int]) -> str:
    """Numbers as a list of JavaScript."""
    return "[" + ",".join(map(str, numbers)) + "]"


class Page:
    """Watches a replay and writes its drives and rides into the page as it goes on."""

    def __init__(self, file: TextIO, city: City, cabs: list[Cab], title: str) -> None:
        self.file = file
        self.first: int | None = None
        self.last = 0
        leaflet_style, leaflet = inlined(f"{LEAFLET}/leaflet.css"), inlined(f"{LEAFLET}/leaflet.js")
        self.title = html.escape(title)
        file.write(
            f'<!DOCTYPE html>\n<html lang="en"><head><meta charset="utf-8">\n'
            f'<meta http-equiv="Content-Security-Policy" content="{POLICY}">\n<title>{self.title}</title>\n'
            f"<style>{leaflet_style}</style>\n<style>{inlined(f'{PARTS}/page.css')}</style></head>\n"
            f'<body><div id="map"></div>\n<script>{leaflet}</script>\n<script>\nconst city = '
        )
        self.write_city(city)
        starts = ",".join(f"[{cab.number},{cab.start}]" for cab in cabs)
        file.write(f";\nconst starts = [{starts}];\nconst events = [\n")

    def write_city(self, city: City) -> None:
        """Writes the nodes' places, and each pair of nodes that a road joins once."""
        longitudes, latitudes = city.longitudes[1:], city.latitudes[1:]
        west, east = min(longitudes), max(longitudes)
        south, north = min(latitudes), max(latitudes)
        corners = [1 + longitudes.index(west), 1 + longitudes.index(east)]
        corners += [1 + latitudes.index(south), 1 + latitudes.index(north)]
        self.file.write(
            f'{{"bounds":[[{west},{east}],[{south},{north}]],"corners":{joined(corners)},\n'
            f'"longitudes":{joined(longitudes)},\n"latitudes":{joined(latitudes)},\n"roads":['
        )
        between = ""
        for tail in range(1, city.nodes + 1):
            for road in range(city.offsets[tail], city.offsets[tail + 1]):
                head = city.heads[road]
                if tail < head or city.weight(head, tail) is None:
                    self.file.write(f"{between}{tail},{head}")
                    between = ","
        self.file.write("]}")

    def drove(self, drive: Drive) -> None:
        """Writes a drive."""
        offsets = drive.walk.offsets
        steps = [after - before for before, after in zip(offsets, offsets[1:])]
        self.file.write(f"[0,{drive.cab.number},{drive.leave},{joined(drive.walk.nodes)},{joined(steps)}],\n")
        self.first = drive.leave if self.first is None else min(self.first, drive.leave)
        self.last = max(self.last, drive.arrive)

    def ended(self, ride: Ride, outcome: Outcome, reason: str) -> None:
        """Writes a ride that was served."""
        plan, service = ride.plan, ride.service
        if plan and service:
            numbers = [1, ride.request, ride.moment, ride.pickup, ride.dropoff, plan.vehicle, service.left]
            self.file.write(f"{joined([*numbers, service.arrived])},\n")
            self.last = max(self.last, service.arrived)

    def close(self, figures: Figures) -> None:
        """Ends the page: the slider from the first drive to the last arrival, summary, charts and script."""
        first = self.first or 0
        keys = "".join(f'<span class="key"><i class="{mark}"></i>{name}</span>' for mark, name in KEYS)
        self.file.write(
            f'];\n</script>\n<div id="bar"><button id="play">Play</button>'
            f'<input id="slider" type="range" min="{first}" max="{self.last}" value="{first}" step="1">'
            f'<output id="clock"></output>{keys}</div>\n<aside id="side"><h1>{self.title}</h1>\n'
            f"{waits_chart(figures.waits)}\n{occupancy_chart(figures.occupancy)}\n"
            f'<pre id="summary">{html.escape(figures.summary())}</pre></aside>\n'
            f"<script>{inlined(f'{PARTS}/page.js')}</script></body></html>\n"
        )
