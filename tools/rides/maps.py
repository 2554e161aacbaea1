"""`ride map`: a road graph and places from a map."""

from __future__ import annotations

from rides.cities import write_graph, write_places
from rides.faults import Fault
from rides.osm import read_osm
from rides.outputs import Outputs
from rides.streets import city_of
from rides.sumo import read_sumo

OSM_ENDINGS = (".osm", ".osm.pbf", ".osm.gz", ".osm.bz2")


def make_map(source: str, prefix: str) -> list[str]:
    """Writes PREFIX.gr and PREFIX.co from a map, and gives lines that say what was kept and what was dropped."""
    if source.endswith(".net.xml"):
        streets = read_sumo(source)
    elif source.endswith(OSM_ENDINGS):
        streets = read_osm(source)
    else:
        raise Fault(source, None, f"its name ends in none of {', '.join(OSM_ENDINGS)} and .net.xml")
    city = city_of(streets, source)
    with Outputs() as outputs:
        write_graph(outputs.open(f"{prefix}.gr"), city)
        write_places(outputs.open(f"{prefix}.co"), city)
    dropped = [f"dropped {reason}: {count:,}" for reason, count in streets.dropped.items() if count]
    return [f"kept {city.nodes:,} nodes and {len(city.heads):,} roads", *dropped]
