"""A road map and its travel times: the seconds of the fastest way from any node to a target, and the next node on that way."""
import heapq
import random
from array import array
from dataclasses import dataclass
from typing import Dict, Iterable, List, Optional, Tuple

from player.files import InputError, read_lines

MOST_KEPT = 40_000_000  # entries of all trees that are kept at once, 12 bytes each

Arc = Tuple[int, int, int]


@dataclass(frozen=True)
class Tree:
    """The fastest ways to one target. `seconds[node]` is -1 where no way leads there; `following[node]` is the next node."""
    seconds: array
    following: array


class Roads:
    """A map of nodes 1 to `nodes`, with arcs (tail, head, seconds)."""

    def __init__(self, nodes: int, arcs: Iterable[Arc]):
        self.nodes = nodes
        self.arcs: List[Arc] = list(arcs)
        self.into: List[List[Tuple[int, int]]] = [[] for _ in range(nodes + 1)]
        for tail, head, seconds in self.arcs:
            self.into[head].append((tail, seconds))
        self._trees: Dict[int, Tree] = {}

    def seconds(self, origin: int, target: int) -> Optional[int]:
        """Returns the seconds of the fastest way, None where there is none."""
        time = self.toward(target).seconds[origin]
        return None if time < 0 else time

    def next_node(self, origin: int, target: int) -> Tuple[int, int]:
        """Returns the next node on the fastest way to a target that can be reached, and the seconds to it."""
        tree = self.toward(target)
        following = tree.following[origin]
        return following, tree.seconds[origin] - tree.seconds[following]

    def toward(self, target: int) -> Tree:
        """Returns the fastest ways to a target. Trees are kept, the oldest are dropped where they take too much room."""
        tree = self._trees.get(target)
        if tree is None:
            while self._trees and (len(self._trees) + 1) * self.nodes > MOST_KEPT:
                del self._trees[next(iter(self._trees))]
            tree = self._trees[target] = self._search(target)
        return tree

    def _search(self, target: int) -> Tree:
        """Returns the fastest ways to a target (Dijkstra 1959, backwards). Of equally fast ones it is the one that is found first."""
        seconds = array("q", [-1]) * (self.nodes + 1)
        following = array("l", [0]) * (self.nodes + 1)
        queue = [(0, target, target)]
        into = self.into
        while queue:
            so_far, node, after = heapq.heappop(queue)
            if seconds[node] >= 0:
                continue
            seconds[node], following[node] = so_far, after
            for before, more in into[node]:
                if seconds[before] < 0:
                    heapq.heappush(queue, (so_far + more, before, node))
        return Tree(seconds, following)

    def write(self, path: str, comment: str) -> None:
        """Writes the map in the `.gr` format."""
        with open(path, "w", encoding="utf-8") as file:
            file.write(f"c {comment}\np sp {self.nodes} {len(self.arcs)}\n")
            file.writelines(f"a {tail} {head} {seconds}\n" for tail, head, seconds in self.arcs)


def read_map(path: str) -> Roads:
    """Returns the map in a `.gr` file. Raises InputError where it is none."""
    nodes, said, arcs = 0, 0, []
    for number, line in enumerate(read_lines(path), 1):
        fields = line.split()
        if not fields or fields[0].startswith("c"):
            continue
        try:
            if fields[0] == "p" and fields[1] == "sp" and not nodes:
                nodes, said = int(fields[2]), int(fields[3])
            elif fields[0] == "a" and nodes:
                arcs.append(arc_of(fields, nodes))
            else:
                raise ValueError
        except (ValueError, IndexError) as fault:
            raise InputError(f"{path}:{number}: no line of a road map") from fault
    if nodes < 1 or said != len(arcs):
        raise InputError(f"{path}: no road map, or one that is cut: {said} arcs said, {len(arcs)} found")
    return Roads(nodes, arcs)


def arc_of(fields: List[str], nodes: int) -> Arc:
    """Returns the arc of a line `a U V W`. Raises ValueError where it is none of a map of so many nodes."""
    _, tail, head, seconds = fields
    arc = int(tail), int(head), int(seconds)
    if not (1 <= arc[0] <= nodes and 1 <= arc[1] <= nodes and 0 <= arc[2] <= 10 ** 9):
        raise ValueError
    return arc


def grid_city(side: int, draw: random.Random, least: int = 20, most: int = 90) -> Roads:
    """Returns a square grid of two-way streets, each direction of a drawn number of seconds."""
    arcs: List[Arc] = []
    for node in range(1, side * side + 1):
        for other in ([node + 1] if node % side else []) + ([node + side] if node + side <= side * side else []):
            arcs.append((node, other, draw.randint(least, most)))
            arcs.append((other, node, draw.randint(least, most)))
    return Roads(side * side, arcs)
