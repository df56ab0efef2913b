"""Where the nodes of a map lie on a page: by a file of coordinates, by a grid where the map is one, or else by travel times."""
import math
from operator import mul
from typing import Iterator, List, Optional, Sequence, Tuple

from player.files import InputError, read_lines
from player.roads import Roads

Place = Tuple[float, float]

PIVOTS = 40  # nodes whose travel times lay a map out
ROUNDS = 200  # of the power iteration
MOST_LAID_OUT = 20_000  # nodes, above which the searches take too long
TABLE_HEAD = ["node", "osm_id", "latitude", "longitude"]


def places_of(roads: Roads, path: Optional[str]) -> Tuple[List[Place], str]:
    """Returns each node's place, x to the right and y downward, and how it was found. Raises InputError where a file has not all, or a
    map without a file is too large."""
    if path:
        return read_places(path, roads.nodes), "by the file of coordinates"
    columns = columns_of(roads)
    if columns:
        return [(float(node % columns), float(node // columns)) for node in range(roads.nodes)], "as a grid"
    if roads.nodes > MOST_LAID_OUT:
        raise InputError(f"a map of more than {MOST_LAID_OUT:,} nodes that is no grid is not laid out: --places FILE has its coordinates")
    return laid_out(roads), "by travel times"


def fitted(places: Sequence[Place], wide: float, tall: float, margin: float) -> Tuple[List[Place], float]:
    """Returns the places within a page of this width and at most this height, in their proportions, and the height that they need."""
    left, right = min(x for x, _ in places), max(x for x, _ in places)
    top, bottom = min(y for _, y in places), max(y for _, y in places)
    scale = min((wide - 2 * margin) / ((right - left) or 1), (tall - 2 * margin) / ((bottom - top) or 1))
    inset = (wide - (right - left) * scale) / 2
    return [(inset + (x - left) * scale, margin + (y - top) * scale) for x, y in places], (bottom - top) * scale + 2 * margin


# A file.

def read_places(path: str, nodes: int) -> List[Place]:
    """Returns the places of a .co file of the DIMACS challenge (`v NODE X Y`), or of the table that osm_to_gr.py writes."""
    places: List[Optional[Place]] = [None] * nodes
    lines = read_lines(path)
    of_lines = table_lines if lines and lines[0].split() == TABLE_HEAD else coordinate_lines
    for number, node, place in of_lines(path, lines):
        if not 1 <= node <= nodes:
            raise InputError(f"{path}:{number}: node {node} is not on the map (1 to {nodes})")
        places[node - 1] = place
    missing = next((node for node, place in enumerate(places, 1) if place is None), None)
    if missing:
        raise InputError(f"{path}: node {missing} of the map has no place in it")
    return [place for place in places if place]


def coordinate_lines(path: str, lines: Sequence[str]) -> Iterator[Tuple[int, int, Place]]:
    """Returns each place of a .co file with its line and node."""
    for number, line in enumerate(lines, 1):
        fields = line.split()
        if fields[:1] == ["v"]:
            node, x, y = numbers_of(path, number, fields[1:])
            yield number, int(node), (x, -y)


def table_lines(path: str, lines: Sequence[str]) -> Iterator[Tuple[int, int, Place]]:
    """Returns each place of osm_to_gr.py's table with its line and node. A degree of longitude is as wide as at the first node."""
    wide = None
    for number, line in enumerate(lines[1:], 2):
        node, _, latitude, longitude = numbers_of(path, number, line.split(), 4)
        wide = math.cos(math.radians(latitude)) if wide is None else wide
        yield number, int(node), (longitude * wide, -latitude)


def numbers_of(path: str, number: int, fields: Sequence[str], count: int = 3) -> List[float]:
    """Returns the numbers of a line. Raises InputError where there are not so many."""
    try:
        numbers = [float(text) for text in fields]
    except ValueError:
        numbers = []
    if len(numbers) != count or not all(map(math.isfinite, numbers)):
        raise InputError(f"{path}:{number}: no place of a node")
    return numbers


# A grid.

def columns_of(roads: Roads) -> int:
    """Returns how many columns a map has whose nodes are numbered row by row and whose arcs join neighbours, 0 where it is no such grid."""
    apart = {abs(tail - head) for tail, head, _ in roads.arcs} - {0, 1}
    if len(apart) != 1:
        return 0
    columns = apart.pop()
    if roads.nodes % columns:
        return 0
    wraps = any(abs(tail - head) == 1 and min(tail, head) % columns == 0 for tail, head, _ in roads.arcs)
    return 0 if wraps else columns


# Travel times.

def laid_out(roads: Roads) -> List[Place]:
    """Returns places whose distances are near the travel times: classical scaling by pivots (Brandes and Pich 2006)."""
    times = [pivot_times(roads, pivot) for pivot in pivots_of(roads)]
    squares = centred([[time * time for time in row] for row in times])
    products = [[dot(row, other) for other in squares] for row in squares]
    first = main_direction(products, [])
    second = main_direction(products, [first])
    return list(zip(along(squares, first), along(squares, second)))


def pivot_times(roads: Roads, pivot: int) -> List[float]:
    """Returns the seconds from each node to a pivot; a node that does not reach it stands as far as the farthest."""
    seconds = list(roads.toward(pivot).seconds[1:])
    most = max(seconds)
    return [float(time if time >= 0 else most) for time in seconds]


def pivots_of(roads: Roads) -> List[int]:
    """Returns nodes that lie far from each other: each is the one that is farthest from those before."""
    pivots, nearest = [1], pivot_times(roads, 1)
    while len(pivots) < min(PIVOTS, roads.nodes):
        pivots.append(max(range(roads.nodes), key=nearest.__getitem__) + 1)
        nearest = [min(pair) for pair in zip(nearest, pivot_times(roads, pivots[-1]))]
    return pivots


def centred(rows: Sequence[Sequence[float]]) -> List[List[float]]:
    """Returns the rows with means of rows and columns taken off, halved and with the other sign."""
    means = [sum(row) / len(row) for row in rows]
    columns = [sum(column) / len(rows) for column in zip(*rows)]
    whole = sum(means) / len(means)
    return [[(mean + column - value - whole) / 2 for value, column in zip(row, columns)] for row, mean in zip(rows, means)]


def dot(one: Sequence[float], other: Sequence[float]) -> float:
    """Returns the sum of the products of two rows."""
    return sum(map(mul, one, other))


def main_direction(products: Sequence[Sequence[float]], others: Sequence[Sequence[float]]) -> List[float]:
    """Returns the direction over the rows in which they vary most, at right angles to others, from the rows' products, by power iteration."""
    direction = [1.0 + place / len(products) for place in range(len(products))]
    for _ in range(ROUNDS):
        direction = [dot(row, direction) for row in products]
        for other in others:
            part = dot(direction, other)
            direction = [a - part * b for a, b in zip(direction, other)]
        length = math.hypot(*direction) or 1.0
        direction = [value / length for value in direction]
    return direction


def along(rows: Sequence[Sequence[float]], direction: Sequence[float]) -> List[float]:
    """Returns how far each column lies along a direction over the rows."""
    return [dot(column, direction) for column in zip(*rows)]
