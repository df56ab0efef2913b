#!/usr/bin/env python3
"""Writes a page on which a day can be played: its map, vehicles and riders as they move, as one HTML file that needs nothing else.

    day_page.py LOG FLEET MAP OUT [--places FILE]

Open OUT in a browser. It has a play button, a slider and a choice of speeds, and keys for all of them, which the page names. Behind `#` its
address may say where to begin: `morning_day.html#time=25480&vehicle=4`.

    day_page.py examples/morning.log examples/fleet.txt examples/map.gr morning_day.html

Vehicles go by the drivers' reports, between them along the fastest way, and after the log's end by what was planned. Nodes lie where
--places says, which is a .co file (`v NODE X Y`) or the table that osm_to_gr.py writes; without it in rows and columns where the map is a
grid, and else so that distances are near to travel times. A log whose last line is torn is played up to the line before it, and a line on
standard error says so. The status is 0, or 2 where a file is none of what it should be.
"""
import json
import os
import sys
from typing import Dict, List, Sequence, Tuple

HERE = os.path.dirname(os.path.abspath(__file__))
sys.path.insert(0, HERE)
from courses import Course, Movement, moments_of, movement_of  # noqa: E402
from day_reading import figures_text  # noqa: E402
from log_reading import open_reading, tell_torn  # noqa: E402
from places import Place, fitted, places_of  # noqa: E402
from player.files import Parser, run_main  # noqa: E402
from player.roads import Roads  # noqa: E402
from trip_log import State  # noqa: E402

WIDE, TALL, MARGIN = 860, 660, 40  # pixels of the map
MOST_ROADS = 40_000  # arcs; of larger maps only the roads that were driven are drawn
FEW_ROADS = 2_000  # arcs, up to which roads are drawn wide


def roads_of(roads: Roads, courses: Sequence[Course]) -> List[Tuple[int, int, int]]:
    """Returns each road once, with 1 where it goes both ways; of a large map those that were driven."""
    arcs = {(tail, head) for tail, head, _ in roads.arcs if tail != head}
    if len(arcs) > MOST_ROADS:
        arcs &= {(tail, head) for course in courses for (_, tail), (_, head) in zip(course.points, course.points[1:])}
    return [(tail, head, int((head, tail) in arcs)) for tail, head in sorted(arcs) if tail < head or (head, tail) not in arcs]


def vehicle_of(course: Course) -> Dict[str, object]:
    """Returns a vehicle as the page reads it: points where it neither moves nor stops to stand are left out."""
    points = [point for place, point in enumerate(course.points)
              if place in (0, len(course.points) - 1) or not course.points[place - 1][1] == point[1] == course.points[place + 1][1]]
    return {"id": course.vehicle, "points": points, "loads": course.loads, "off": course.off}


def events_of(movement: Movement, requests: Sequence[Dict[str, object]]) -> List[Tuple[int, str]]:
    """Returns what happened, with its second, in order."""
    events = list(movement.late)
    for request in requests:
        name, vehicle = f"request {request['id']}", f"vehicle {request['vehicle']}"
        end = "cancelled" if request["cancelled"] else "away"
        said = {"asked": f"{name} from {request['from']} to {request['to']}", "promised": f"{name} confirmed, {vehicle}",
                "picked": f"{vehicle} picks {request['id']} up", "dropped": f"{vehicle} drops {request['id']}", "ended": f"{name} {end}"}
        events += [(request[moment], what) for moment, what in said.items() if request[moment] is not None]
    for course in movement.courses.values():
        events += [(begin, f"vehicle {course.vehicle} off duty") for begin, _ in course.off]
        events += [(end, f"vehicle {course.vehicle} on duty") for _, end in course.off if end is not None]
    return sorted(events, key=lambda event: event[0])


def requests_of(movement: Movement) -> List[Dict[str, object]]:
    """Returns each request as the page reads it."""
    return [{"id": request.id, "from": request.origin, "to": request.destination, "latest": request.latest, "vehicle": request.vehicle,
             "cancelled": request.state == State.CANCELLED, **moments_of(movement, request)}
            for request in movement.reading.log.requests.values()]


def day_of(movement: Movement, places: Sequence[Place], title: str) -> Dict[str, object]:
    """Returns all that the page reads."""
    roads = movement.reading.roads
    placed, tall = fitted(places, WIDE, TALL, MARGIN)
    courses = list(movement.courses.values())
    requests = requests_of(movement)
    return {"title": title, "figures": f"{movement.reading.log.totals()}\n{figures_text(movement.figures)}",
            "begin": movement.begin, "end": movement.end, "logEnd": movement.reading.log.clock,
            "wide": WIDE, "tall": round(tall), "roadWidth": 3 if len(roads.arcs) <= FEW_ROADS else 1,
            "places": [(round(x, 1), round(y, 1)) for x, y in placed], "roads": roads_of(roads, courses),
            "vehicles": [vehicle_of(course) for course in courses], "requests": requests, "events": events_of(movement, requests)}


def page_of(day: Dict[str, object]) -> str:
    """Returns the page with its day."""
    with open(os.path.join(HERE, "day_page.html"), encoding="utf-8") as file:
        page = file.read()
    return page.replace("/*DAY*/null", json.dumps(day, separators=(",", ":")).replace("<", "\\u003c"))


def main(words: Sequence[str]) -> int:
    """Writes the page; returns 0. Raises InputError."""
    parser = Parser(description=__doc__.split("\n\n")[0], epilog=__doc__.split("\n\n", 2)[2])
    parser.add_argument("log", help="the trip log")
    parser.add_argument("fleet", help="its fleet file")
    parser.add_argument("map", help="its map, a .gr file")
    parser.add_argument("out", help="where the page is written, an .html file")
    parser.add_argument("--places", metavar="FILE", help="a file of the nodes' coordinates (none: a grid, or by travel times)")
    parser.add_argument("--title", metavar="TEXT", help="what stands above the page (the log's name)")
    wishes = parser.parse_args(words)
    reading = open_reading(wishes.log, wishes.fleet, wishes.map)
    movement = movement_of(reading)
    places, _ = places_of(reading.roads, wishes.places)
    with open(wishes.out, "w", encoding="utf-8") as file:
        file.write(page_of(day_of(movement, places, wishes.title or f"{os.path.basename(wishes.log)}: a day to play")))
    tell_torn(reading)
    return 0


if __name__ == "__main__":
    run_main(main)
