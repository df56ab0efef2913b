"""The map of a day with routes, as SVG."""
import math
from dataclasses import dataclass
from typing import Dict, List, Sequence, Tuple

from courses import Course, Movement
from places import Place, fitted
from player.plots import text, time_label
from player.roads import Roads

COLOURS = ("#2e6ca4", "#c0392b", "#4a9a5b", "#8e5aa8", "#d08a1d", "#3a3a3a", "#1b9e9e", "#b8478f")
ROAD = "#cfcfcf"
WIDE, TALL, MARGIN, KEY = 900, 720, 64, 290  # pixels of the map, its edge, and the legend beside it
TOP = 44  # of the title
NEAR, APART = 3.0, 5.0  # from a road to the first route beside it, and from one route to the next
FULL, EMPTY = 4, 1.6  # widths of routes with riders aboard and without
LONG = 18  # pixels of a step, above which it has an arrow
BACK = -0.9  # the cosine of a turn that is a way back
ROW = 22  # of the legend
MOST_NUMBERS = 150  # maps of more nodes have no numbers
MOST_ARROWS = 150  # routes of more points have no arrows
MOST_STOPS = 40  # of which the numbers are written


@dataclass(frozen=True)
class Piece:
    """A piece of a route on which as many or as few are aboard, driven or planned."""
    is_aboard: bool
    is_planned: bool
    nodes: Tuple[int, ...]


def pieces_of(course: Course) -> List[Piece]:
    """Returns the route cut where riders get in or out and where the plan begins."""
    pieces: List[Tuple[bool, bool, List[int]]] = []
    for place in range(1, len(course.points)):
        (begin, tail), (_, head) = course.points[place - 1], course.points[place]
        if tail == head:
            continue
        kind = has_riders(course, begin), place >= course.planned
        if not pieces or pieces[-1][:2] != kind or pieces[-1][2][-1] != tail:
            pieces.append((*kind, [tail]))
        pieces[-1][2].append(head)
    return [Piece(is_aboard, is_planned, tuple(nodes)) for is_aboard, is_planned, nodes in pieces]


def has_riders(course: Course, moment: int) -> bool:
    """Returns whether somebody is aboard from a moment on."""
    loads = [load for time, load in course.loads if time <= moment]
    return bool(loads) and loads[-1] > 0


def road_parts(roads: Roads, places: Sequence[Place]) -> List[str]:
    """Returns the roads, one-way ones thinner."""
    arcs = {(tail, head) for tail, head, _ in roads.arcs if tail != head}
    parts = []
    for tail, head in sorted(arcs):
        is_two_way = (head, tail) in arcs
        if tail < head or not is_two_way:
            (x, y), (other_x, other_y) = places[tail - 1], places[head - 1]
            parts.append(f'<path d="M{x:.0f} {y:.0f}L{other_x:.0f} {other_y:.0f}" stroke="{ROAD}" stroke-width="{3 if is_two_way else 1.2}"/>')
    return parts


def number_parts(places: Sequence[Place]) -> List[str]:
    """Returns the nodes' numbers where they are few, on a white ground."""
    if len(places) > MOST_NUMBERS:
        return []
    return [on_white(text(x + 6, y - 6, str(node), size=9, colour="#888")) for node, (x, y) in enumerate(places, 1)]


def on_white(words: str) -> str:
    """Returns a text on a white ground."""
    return words.replace("<text ", '<text paint-order="stroke" stroke="white" stroke-width="3" ')


def route_parts(course: Course, places: Sequence[Place], colour: str, side: float) -> List[str]:
    """Returns a vehicle's route, so many pixels to the right of its roads so that a way back is seen, and a ring where it began."""
    with_arrows = len(course.points) <= MOST_ARROWS
    parts = []
    for piece in pieces_of(course):
        line = beside([places[node - 1] for node in piece.nodes], side)
        dots = " ".join(f"{x:.1f},{y:.1f}" for x, y in line)
        dashes = ' stroke-dasharray="5 4"' if piece.is_planned else ' stroke-linecap="round"'
        parts.append(f'<polyline points="{dots}" fill="none" stroke="{colour}" stroke-width="{FULL if piece.is_aboard else EMPTY}" '
                     f'stroke-linejoin="round"{dashes}/>')
        parts += [arrow(begin, end, colour) for begin, end in zip(line, line[1:]) if with_arrows and math.dist(begin, end) > LONG]
    x, y = places[course.points[0][1] - 1]
    parts.append(f'<circle cx="{x - side:.1f}" cy="{y - side:.1f}" r="9" fill="white" stroke="{colour}" stroke-width="2"/>')
    return parts + [text(x - side, y - side + 4, str(course.vehicle), "bold", "middle", 11, colour)]


def beside(points: Sequence[Place], side: float) -> List[Place]:
    """Returns a line so many pixels to the right of where it leads."""
    steps = [(begin, end) for begin, end in zip(points, points[1:]) if begin != end]
    if not steps:
        return list(points)
    rights = [right_of(*step) for step in steps]
    line = [moved(steps[0][0], rights[0], side)]
    for (_, corner), before, after in zip(steps, rights, rights[1:]):
        turn = before[0] * after[0] + before[1] * after[1]
        if turn > BACK:
            both = before[0] + after[0], before[1] + after[1]
            line.append(moved(corner, both, side / (1 + turn)))
        else:
            line += [moved(corner, before, side), moved(corner, after, side)]
    return line + [moved(steps[-1][1], rights[-1], side)]


def right_of(begin: Place, end: Place) -> Place:
    """Returns the direction to the right of a step, on a page whose y goes down."""
    length = math.dist(begin, end)
    return (begin[1] - end[1]) / length, (end[0] - begin[0]) / length


def moved(place: Place, direction: Place, by: float) -> Place:
    """Returns a place that is moved so far in a direction."""
    return place[0] + direction[0] * by, place[1] + direction[1] * by


def middle_length(roads: Roads, places: Sequence[Place]) -> float:
    """Returns the pixels of a road of middle length: where roads are short what stands beside them stands nearer."""
    lengths = sorted(math.dist(places[tail - 1], places[head - 1]) for tail, head, _ in roads.arcs) or [0.0]
    return lengths[len(lengths) // 2]


def arrow(begin: Place, end: Place, colour: str) -> str:
    """Returns an arrow in the middle of a step."""
    turned = math.degrees(math.atan2(end[1] - begin[1], end[0] - begin[0]))
    place = f"translate({(begin[0] + end[0]) / 2:.1f},{(begin[1] + end[1]) / 2:.1f})rotate({turned:.0f})"
    return f'<path d="M-5 -5L6 0L-5 5z" fill="{colour}" transform="{place}"/>'


def stop_parts(courses: Sequence[Course], places: Sequence[Place], road: float) -> List[str]:
    """Returns the stops: a disc for a pickup, a square for a drop-off, with the request's number where the stops are few. Stops of one
    node stand below each other."""
    right, down = min(20, road * 0.3), min(24, road * 0.4)
    few = sum(len(course.served) for course in courses) <= MOST_STOPS
    at_node: Dict[int, int] = {}
    parts = []
    for colour, course in zip(COLOURS, courses):
        for _, stop in course.served:
            row = at_node[stop.node] = at_node.get(stop.node, 0) + 1
            x, y = places[stop.node - 1]
            if few:
                x, y = x + right, y + down + 14 * (row - 1)
                parts.append(on_white(text(x + 8, y + 4, str(stop.request), size=11, colour=colour)))
            parts.append(f'<circle cx="{x:.1f}" cy="{y:.1f}" r="4.5" fill="{colour}"/>' if stop.pickup else
                         f'<rect x="{x - 4:.1f}" y="{y - 4:.1f}" width="8" height="8" fill="white" stroke="{colour}" stroke-width="1.8"/>')
    return parts


def key_parts(courses: Sequence[Course], how: str) -> List[str]:
    """Returns the legend."""
    grey = "#555"
    marks = [(f'<path d="M0 0H30" stroke="{COLOURS[number]}" stroke-width="4"/>', course_text(course))
             for number, course in enumerate(courses)]
    marks += [(f'<path d="M0 0H30" stroke="{grey}" stroke-width="4"/>', "with riders aboard"),
              (f'<path d="M0 0H30" stroke="{grey}" stroke-width="1.6"/>', "with nobody aboard"),
              (f'<path d="M0 0H30" stroke="{grey}" stroke-width="4" stroke-dasharray="5 4"/>', "planned at the log's end"),
              (f'<circle cx="15" cy="0" r="9" fill="white" stroke="{grey}" stroke-width="2"/>', "where the vehicle began"),
              (f'<circle cx="15" cy="0" r="4.5" fill="{grey}"/>', "pickup of a request"),
              (f'<rect x="11" y="-4" width="8" height="8" fill="white" stroke="{grey}" stroke-width="1.8"/>', "drop-off of a request"),
              (f'<path d="M0 0H30" stroke="{ROAD}" stroke-width="3"/>', "road of both directions"),
              (f'<path d="M0 0H30" stroke="{ROAD}" stroke-width="1.2"/>', "road of one direction")]
    parts = []
    for row, (mark, words) in enumerate(marks):
        parts += [f'<g transform="translate({WIDE},{TOP + 20 + ROW * row:.1f})">{mark}', text(40, 4, words, size=11), "</g>"]
    return parts + [text(WIDE, TOP + 40 + ROW * len(marks), f"Nodes are placed {how}.", size=10, colour="#777")]


def course_text(course: Course) -> str:
    """Returns what the legend says of a vehicle."""
    served = sum(not stop.pickup for _, stop in course.served)
    times = f", {time_label(course.points[0][0])} to {time_label(course.points[-1][0])}" if len(course.points) > 1 else ""
    return f"vehicle {course.vehicle}: {served} ride{'s' * (served != 1)}{times}"


def drawing(movement: Movement, chosen: Sequence[int], places: Sequence[Place], title: str, how: str) -> str:
    """Returns the page."""
    courses = [movement.courses[vehicle] for vehicle in chosen]
    placed, tall = fitted(places, WIDE, TALL, MARGIN)
    placed = [(x, y + TOP) for x, y in placed]
    page_tall = max(tall + TOP, TOP + ROW * (len(courses) + 10) + 40)
    parts = [f'<svg xmlns="http://www.w3.org/2000/svg" width="{WIDE + KEY}" height="{page_tall:.0f}">',
             f'<rect width="{WIDE + KEY}" height="{page_tall:.0f}" fill="white"/>', text(MARGIN, 24, title, "bold", size=14)]
    parts += road_parts(movement.reading.roads, placed)
    road = middle_length(movement.reading.roads, placed)
    near, apart = min(NEAR, road * 0.08), min(APART, road * 0.08)
    for number, course in enumerate(courses):
        parts += route_parts(course, placed, COLOURS[number], near + apart * number)
    return "\n".join(parts + number_parts(placed) + stop_parts(courses, placed, road) + key_parts(courses, how) + ["</svg>", ""])
