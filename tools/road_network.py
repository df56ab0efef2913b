"""Roads of OpenStreetMap as a network of travel times: their tags, junctions, and what is strongly connected."""
import math
from collections import Counter
from dataclasses import dataclass, field
from typing import Dict, List, Mapping, Sequence, Set, Tuple

# Kilometres an hour where a road has no maxspeed, by the value of `highway`.
SPEEDS = {
    "motorway": 110, "motorway_link": 60, "trunk": 90, "trunk_link": 50, "primary": 60, "primary_link": 40, "secondary": 50,
    "secondary_link": 40, "tertiary": 50, "tertiary_link": 40, "unclassified": 40, "residential": 30, "living_street": 10,
}
WALK = 7
UNLIMITED = 130
MILE = 1.609344
EARTH = 6_371_000  # metres
FORWARD = {"yes", "true", "1"}
BACKWARD = {"-1", "reverse"}
CLOSED = {"no", "private"}
FASTEST = 300  # kilometres an hour that a sign may say; the least is 1

Place = Tuple[float, float]  # latitude and longitude
Arcs = Mapping[int, Mapping[int, int]]


@dataclass
class Road:
    """A way that cars may take."""
    points: List[int]
    speed: float
    forward: bool
    backward: bool


@dataclass
class Network:
    """Arcs between OpenStreetMap nodes, with the least seconds of each pair, and the places of those nodes."""
    places: Dict[int, Place] = field(default_factory=dict)
    arcs: Dict[int, Dict[int, int]] = field(default_factory=dict)

    def add(self, tail: int, head: int, seconds: int) -> None:
        """Adds an arc; of several of a pair the fastest stands. An arc from a node to itself adds the node alone."""
        heads = self.arcs.setdefault(tail, {})
        self.arcs.setdefault(head, {})
        if tail != head:
            heads[head] = min(seconds, heads.get(head, seconds))

    def count(self) -> int:
        """Returns the number of arcs."""
        return sum(len(heads) for heads in self.arcs.values())


def speed_of(tags: Mapping[str, str]) -> float:
    """Returns kilometres an hour: of `maxspeed` where it is a number that a sign may say, else of the road's class."""
    said = tags.get("maxspeed", "")
    number, _, unit = said.partition(" ")
    try:
        limit = float(number)
    except ValueError:
        return {"walk": WALK, "none": UNLIMITED}.get(said, SPEEDS[tags["highway"]])
    limit *= MILE if unit == "mph" else 1
    return limit if 1 <= limit <= FASTEST else SPEEDS[tags["highway"]]


def directions_of(tags: Mapping[str, str]) -> Tuple[bool, bool]:
    """Returns whether a road may be driven along its points, and against them."""
    said = tags.get("oneway", "")
    if said in BACKWARD:
        return False, True
    if said in FORWARD:
        return True, False
    implied = tags["highway"] == "motorway" or tags.get("junction") in ("roundabout", "circular")
    return True, said == "no" or not implied


def is_open(tags: Mapping[str, str]) -> bool:
    """Returns whether cars may take a road; the more particular tag decides."""
    if tags.get("highway") not in SPEEDS or tags.get("area") == "yes":
        return False
    for name in ("motorcar", "motor_vehicle", "vehicle", "access"):
        if name in tags:
            return tags[name] not in CLOSED
    return True


def metres(one: Place, other: Place) -> float:
    """Returns the distance of two places by the haversine formula."""
    latitudes = math.radians(one[0]), math.radians(other[0])
    across = math.radians(other[1] - one[1])
    half = math.sin((latitudes[1] - latitudes[0]) / 2) ** 2 + math.cos(latitudes[0]) * math.cos(latitudes[1]) * math.sin(across / 2) ** 2
    return 2 * EARTH * math.asin(math.sqrt(half))


def network_of(roads: Sequence[Road], places: Mapping[int, Place]) -> Network:
    """Returns the roads between junctions and ends."""
    visits = Counter(point for road in roads for point in road.points)
    visits.update(point for road in roads for point in (road.points[0], road.points[-1]))
    network = Network()
    for road in roads:
        begin, length = road.points[0], 0.0
        for before, point in zip(road.points, road.points[1:]):
            length += metres(places[before], places[point])
            if visits[point] < 2:
                continue
            seconds = max(1, round(length * 3.6 / road.speed))
            if road.forward:
                network.add(begin, point, seconds)
            if road.backward:
                network.add(point, begin, seconds)
            begin, length = point, 0.0
    network.places = {node: places[node] for node in network.arcs}
    return network


def strongly_connected(arcs: Arcs) -> Set[int]:
    """Returns the largest set of nodes each of which is reached from every other, by Kosaraju's two searches."""
    back: Dict[int, List[int]] = {node: [] for node in arcs}
    for tail, heads in arcs.items():
        for head in heads:
            back[head].append(tail)
    found: Set[int] = set()
    largest: List[int] = []
    for start in reversed(order_of_leaving(arcs)):
        if start in found:
            continue
        found.add(start)
        part = [start]
        for node in part:
            more = [tail for tail in back[node] if tail not in found]
            found.update(more)
            part += more
        largest = max(largest, part, key=len)
    return set(largest)


def order_of_leaving(arcs: Arcs) -> List[int]:
    """Returns the nodes in the order in which a depth-first search leaves them."""
    order: List[int] = []
    seen: Set[int] = set()
    for start in arcs:
        if start in seen:
            continue
        seen.add(start)
        path = [(start, iter(arcs[start]))]
        while path:
            head = next((head for head in path[-1][1] if head not in seen), None)
            if head is None:
                order.append(path.pop()[0])
            else:
                seen.add(head)
                path.append((head, iter(arcs[head])))
    return order


def kept_part(network: Network) -> Network:
    """Returns what is strongly connected of a network."""
    kept = strongly_connected(network.arcs)
    arcs = {tail: {head: seconds for head, seconds in heads.items() if head in kept}
            for tail, heads in network.arcs.items() if tail in kept}
    return Network({node: network.places[node] for node in kept}, arcs)
