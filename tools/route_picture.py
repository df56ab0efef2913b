#!/usr/bin/env python3
"""Draws the map of a day with the routes of chosen vehicles, as SVG.

    route_picture.py LOG FLEET MAP OUT [--vehicles 1 4] [--places FILE]

A route goes by the drivers' reports, between them along the fastest way; thick where riders are aboard, dashed where it is only planned
at the log's end. Nodes lie where --places says, which is a .co file (`v NODE X Y`) or the table that osm_to_gr.py writes; without it in
rows and columns where the map is a grid, and else so that distances are near to travel times.

    route_picture.py examples/morning.log examples/fleet.txt examples/map.gr morning_routes.svg --vehicles 1 4

A log whose last line is torn is drawn up to the line before it, and a line on standard error says so. The status is 0, or 2 where a file
is none of what it should be. Nothing is needed but Python.
"""
import os
import sys
from typing import List, Sequence

sys.path.insert(0, os.path.dirname(os.path.abspath(__file__)))
from courses import Movement, movement_of  # noqa: E402
from log_reading import open_reading, tell_torn  # noqa: E402
from places import places_of  # noqa: E402
from player.files import InputError, Parser, run_main, whole  # noqa: E402
from route_drawing import COLOURS, drawing  # noqa: E402

BUSIEST = 4  # vehicles that are drawn where none is chosen


def chosen_of(movement: Movement, wanted: Sequence[int]) -> List[int]:
    """Returns the vehicles that are drawn: the wanted ones, or those with most stops. Raises InputError where one is not there."""
    if len(wanted) > len(COLOURS):
        raise InputError(f"--vehicles: at most {len(COLOURS)} are told apart by their colours")
    for vehicle in wanted:
        if vehicle not in movement.courses:
            raise InputError(f"--vehicles {vehicle}: no such vehicle is in the fleet file")
    busiest = sorted(movement.courses.values(), key=lambda course: -len(course.served))[:BUSIEST]
    return list(dict.fromkeys(wanted)) or sorted(course.vehicle for course in busiest)


def main(words: Sequence[str]) -> int:
    """Writes the picture; returns 0. Raises InputError."""
    parser = Parser(description=__doc__.split("\n\n")[0], epilog=__doc__.split("\n\n", 2)[2])
    parser.add_argument("log", help="the trip log")
    parser.add_argument("fleet", help="its fleet file")
    parser.add_argument("map", help="its map, a .gr file")
    parser.add_argument("out", help="where the picture is written, an .svg file")
    parser.add_argument("--vehicles", nargs="+", type=whole(0, 10 ** 18 - 1), default=[], metavar="ID",
                        help=f"whose routes are drawn (the {BUSIEST} with most stops)")
    parser.add_argument("--places", metavar="FILE", help="a file of the nodes' coordinates (none: a grid, or by travel times)")
    wishes = parser.parse_args(words)
    reading = open_reading(wishes.log, wishes.fleet, wishes.map)
    movement = movement_of(reading)
    places, how = places_of(reading.roads, wishes.places)
    chosen = chosen_of(movement, wishes.vehicles)
    title = f"{os.path.basename(wishes.log)}: routes of vehicles {', '.join(map(str, chosen))}"
    with open(wishes.out, "w", encoding="utf-8") as file:
        file.write(drawing(movement, chosen, places, title, how))
    tell_torn(reading)
    return 0


if __name__ == "__main__":
    run_main(main)
