"""A zone's map: travel times and ways by tools/player/roads.py, and where its crossings lie."""
from dataclasses import dataclass
from typing import Dict, List, Optional, Tuple

from player.files import InputError, read_lines
from player.roads import Roads, read_map

Place = Tuple[float, float]


@dataclass
class Chart:
    """A road map and the place of each crossing, x to the east and y to the south."""
    roads: Roads
    places: List[Place]

    def seconds(self, tail: int, head: int) -> Optional[int]:
        """Returns the travel time, None where no way leads there."""
        return self.roads.seconds(tail, head)

    def way(self, tail: int, head: int, most: int = 2_000) -> List[int]:
        """Returns the crossings of a quickest way, both ends included; at most so many, none where no way leads there."""
        if self.seconds(tail, head) is None:
            return []
        way = [tail]
        while way[-1] != head and len(way) < most:
            way.append(self.roads.next_node(way[-1], head)[0])
        return way

    def pairs(self) -> List[Tuple[int, int, int]]:
        """Returns each pair of neighbours once, with the seconds of a road between them."""
        pairs: Dict[Tuple[int, int], int] = {(min(tail, head), max(tail, head)): seconds for tail, head, seconds in self.roads.arcs}
        return [(tail, head, seconds) for (tail, head), seconds in pairs.items()]


def read_chart(map_path: str, coordinates: Optional[str] = None, columns: int = 0) -> Chart:
    """Returns the chart of a .gr map; places are those of a .co file, or those of a grid of so many columns. Raises InputError."""
    roads = read_map(map_path)
    if coordinates:
        return Chart(roads, read_places(coordinates, roads.nodes))
    width = columns or max(1, round(roads.nodes ** 0.5))
    return Chart(roads, [(float(node % width), float(node // width)) for node in range(roads.nodes)])


def read_places(path: str, nodes: int) -> List[Place]:
    """Returns the places of a .co file of the DIMACS challenge, whose lines are `v NODE X Y`, Y to the north. Raises InputError."""
    places: List[Place] = [(0.0, 0.0)] * nodes
    for number, line in enumerate(read_lines(path), 1):
        fields = line.split()
        if fields[:1] != ["v"]:
            continue
        try:
            node, x, y = int(fields[1]), float(fields[2]), float(fields[3])
            if not 1 <= node <= nodes:
                raise ValueError
        except (ValueError, IndexError) as fault:
            raise InputError(f"{path}:{number}: no place of a crossing of this map") from fault
        places[node - 1] = (x, -y)
    return places
