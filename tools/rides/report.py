"""`ride report`: the replay of a journal as figures, tables, routes and a page."""

from __future__ import annotations

import os

from rides.cities import read_city
from rides.figures import Figures
from rides.fleets import read_fleet
from rides.journals import stop_time_of
from rides.outputs import Outputs
from rides.pages import Page
from rides.replay import Replay
from rides.tables import RideTable, RouteCollection, write_vehicles


def make_report(prefix: str, fleet: str, journal: str, folder: str, stop_time: int | None) -> str:
    """Writes the report of a journal into a folder, and gives its summary.

    Where no stop time is given, in seconds, it is the one that the journal's own served stops show.
    """
    city = read_city(prefix)
    cabs = read_fleet(fleet, city.nodes)
    if stop_time is None:
        stop_time = stop_time_of(journal)
    with Outputs() as outputs:
        outputs.folder(folder)
        figures = Figures(city)
        rides = RideTable(outputs.open(os.path.join(folder, "rides.csv")))
        routes = RouteCollection(outputs.open(os.path.join(folder, "routes.geojson")), city)
        page = Page(outputs.open(os.path.join(folder, "map.html")), city, cabs, os.path.basename(journal))
        Replay(city, cabs, stop_time, journal, [figures, rides, routes, page]).run()
        routes.close()
        page.close(figures)
        write_vehicles(outputs.open(os.path.join(folder, "vehicles.csv")), cabs, figures)
        summary = figures.summary()
        outputs.open(os.path.join(folder, "summary.txt")).write(summary)
    return summary
