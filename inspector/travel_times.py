"""Travel times: the least seconds of all ways from one node to another, by Dijkstra's search.

A row has the times from one node to all others, or from all others to it. It is searched only as far as it is asked for,
and kept.
"""
from array import array
from heapq import heappop, heappush
from typing import Iterator

from road_map import RoadMap

MOST_CELLS = 100_000_000  # of all kept rows together
Neighbours = list[list[tuple[int, int]]]  # of each node those at the other ends of its arcs, with the seconds


class Row:
    """Times from (or to) one node. Those up to `frontier` are final, and all others are longer; `unseen` stands for no way."""

    def __init__(self, neighbours: Neighbours, source: int, unseen: int) -> None:
        self.times = array("i" if unseen < 1 << 31 else "q", [unseen]) * len(neighbours)
        self.frontier, self.unseen = -1, unseen
        self.frontiers = self._search(neighbours, source)

    def _search(self, neighbours: Neighbours, source: int) -> Iterator[int]:
        """Yields the frontier after each node that is reached."""
        times, heap = self.times, [(0, source)]
        times[source] = 0
        while heap:
            time, here = heappop(heap)
            if time > times[here]:
                continue
            yield time - 1
            for there, leg in neighbours[here]:
                if time + leg < times[there]:
                    times[there] = time + leg
                    heappush(heap, (time + leg, there))
        yield self.unseen

    def within(self, seconds: int) -> array:
        """Returns the times, of which those up to `seconds` are final and all others are longer than that."""
        last = min(seconds, self.unseen)
        while self.frontier < last:
            self.frontier = next(self.frontiers)
        return self.times

    def to(self, node: int) -> int:
        """Returns the seconds between the row's node and this one, `unseen` where there is no way."""
        while self.times[node] > self.frontier:
            self.frontier = next(self.frontiers)
        return self.times[node]


class TravelTimes:
    """The travel times of a map."""

    def __init__(self, road_map: RoadMap) -> None:
        self.sides: list[Neighbours] = [[[] for _ in range(road_map.nodes + 1)] for _ in range(2)]  # by arcs out, and in
        for tail, head, seconds in road_map.arcs:
            self.sides[0][tail].append((head, seconds))
            self.sides[1][head].append((tail, seconds))
        self.same = all(sorted(out) == sorted(back) for out, back in zip(*self.sides))  # each arc is there both ways
        longest = road_map.nodes * max((arc[2] for arc in road_map.arcs), default=0)
        self.unseen = max(longest, 2 * 10**9) + 1  # above every time and every stamp
        self.rows: dict[tuple[int, int], Row] = {}

    def row(self, node: int, side: int) -> Row:
        """Returns the times from the node (side 0) or to it (side 1)."""
        key = (node, 0 if self.same else side)
        row = self.rows.pop(key, None) or Row(self.sides[side], node, self.unseen)
        self.rows[key] = row
        if len(self.rows) * len(self.sides[0]) > MOST_CELLS:
            del self.rows[next(iter(self.rows))]  # the one that was not asked for the longest
        return row

    def between(self, tail: int, head: int) -> int | None:
        """Returns the least seconds from one node to the other, or None where there is no way."""
        kept = (head, 0 if self.same else 1) in self.rows
        seconds = self.row(head, 1).to(tail) if kept else self.row(tail, 0).to(head)
        return seconds if seconds < self.unseen else None
