#!/usr/bin/env python3
"""Makes a map of travel times from an OpenStreetMap extract.

    osm_to_gr.py EXTRACT MAP TABLE

EXTRACT is a file that osmium reads, as .osm or .osm.pbf. MAP is written in the .gr format, with the seconds that a car takes.
TABLE has a line for each node of the map: its number, its OpenStreetMap id, its latitude and longitude.

    /usr/bin/python3 tools/osm_to_gr.py tools/tests/data/corner.osm corner.gr corner_nodes.txt

What becomes a node is where roads meet or end; the points between only bend a road. One-way streets have one arc, others two.
A road's speed is its `maxspeed`, or else the usual one of its class. Only what is strongly connected is kept: from each node
every other can be reached. Turn restrictions, traffic lights and the time of day are left out.

The status is 0, or 2 where the extract is none, has no such roads, or more than a map may have. It takes pyosmium (Debian's
python3-pyosmium, which the system's own /usr/bin/python3 finds).
"""
import json
import os
import sys
from typing import Sequence

sys.path.insert(0, os.path.dirname(os.path.abspath(__file__)))
from player.files import InputError, Parser, run_main  # noqa: E402
from road_network import Network, kept_part, network_of  # noqa: E402

MOST_NODES = 500_000
MOST_ARCS = 2_000_000


def write(network: Network, extract: str, map_path: str, table_path: str) -> None:
    """Writes the map and its table; nodes are numbered in order of their OpenStreetMap ids."""
    ids = sorted(network.arcs)
    numbers = {id: number for number, id in enumerate(ids, 1)}
    with open(map_path, "w", encoding="utf-8") as file:
        file.write(f"c seconds by car, from {os.path.basename(extract)[:100]!r}\nc (c) OpenStreetMap contributors, ODbL\n"
                   f"p sp {len(ids)} {network.count()}\n")
        for tail in ids:
            file.writelines(f"a {numbers[tail]} {numbers[head]} {network.arcs[tail][head]}\n" for head in sorted(network.arcs[tail]))
    with open(table_path, "w", encoding="utf-8") as file:
        file.write("node osm_id latitude longitude\n")
        file.writelines(f"{numbers[id]} {id} {network.places[id][0]:.7f} {network.places[id][1]:.7f}\n" for id in ids)


def checked(extract: str, paths: Sequence[str]) -> None:
    """Raises InputError where the extract cannot be opened or a file would be written over another."""
    with open(extract, "rb"):
        pass
    if len({os.path.realpath(path) for path in (extract, *paths)}) < 3:
        raise InputError("EXTRACT, MAP and TABLE have to be three files")


def network_in(extract: str) -> Network:
    """Returns all roads of an extract. Raises InputError where osmium does not read it."""
    try:
        from osm_roads import read_roads
    except ImportError as missing:
        raise InputError(f"it takes pyosmium (Debian's python3-pyosmium, which /usr/bin/python3 finds): {missing}") from missing
    try:
        roads, places = read_roads(extract)
    except RuntimeError as fault:  # osmium has no other
        raise InputError(f"{extract}: no extract that osmium reads: {' '.join(str(fault).split())[:200]}") from fault
    return network_of(roads, places)


def main(words: Sequence[str]) -> int:
    """Writes a map and its table; returns 0. Raises InputError."""
    parser = Parser(description=__doc__.split("\n\n")[0], epilog=__doc__.split("\n\n", 2)[2])
    parser.add_argument("extract", help="an .osm or .osm.pbf file")
    parser.add_argument("map", help="where the .gr map is written")
    parser.add_argument("table", help="where the nodes' table is written")
    parser.add_argument("--json", action="store_true", help="prints what was made as a JSON object (as text)")
    wishes = parser.parse_args(words)
    checked(wishes.extract, (wishes.map, wishes.table))
    whole = network_in(wishes.extract)
    network = kept_part(whole)
    nodes, arcs, left_out = len(network.arcs), network.count(), len(whole.arcs) - len(network.arcs)
    if not arcs:
        raise InputError(f"{wishes.extract}: no roads that cars may take both there and back")
    if nodes > MOST_NODES or arcs > MOST_ARCS:
        raise InputError(f"{wishes.extract}: {nodes:,} nodes and {arcs:,} arcs, and a map has at most {MOST_NODES:,} and {MOST_ARCS:,}")
    write(network, wishes.extract, wishes.map, wishes.table)
    print(json.dumps({"nodes": nodes, "arcs": arcs, "left_out": left_out}) if wishes.json else
          f"{nodes} nodes, {arcs} arcs; left out {left_out} nodes that are not reached from all others or do not reach them")
    return 0


if __name__ == "__main__":
    run_main(main)
