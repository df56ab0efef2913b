"""The road map: the `.gr` text and what is refused in it."""
from dataclasses import dataclass

from texts import fields_of, numbered_lines, numbers_of, refused

MOST_BYTES, MOST_NODES, MOST_ARCS, MOST_SECONDS = 1 << 27, 500_000, 2_000_000, 10**9


@dataclass(frozen=True)
class RoadMap:
    """Nodes from 1 to `nodes`, and arcs as (tail, head, seconds)."""

    nodes: int
    arcs: list[tuple[int, int, int]]


def fault_of_problem(fields: list[bytes], numbers: list[int], nodes: int | None) -> int:
    """Returns the code that refuses a problem line, or 0; `nodes` is the number that one before it said, or None."""
    if nodes is not None:
        return 2
    if fields[1:2] != [b"sp"] or len(numbers) != 2 or numbers[0] == 0:
        return 3
    return 7 if numbers[0] > MOST_NODES or numbers[1] > MOST_ARCS else 0


def fault_of_arc(fields: list[bytes], numbers: list[int], nodes: int | None) -> int:
    """Returns the code that refuses an arc's line, or one of neither kind, or 0."""
    if nodes is None:
        return 1 if fields[0] == b"a" else 3
    if fields[0] != b"a" or len(numbers) != 3:
        return 3
    if not (1 <= numbers[0] <= nodes and 1 <= numbers[1] <= nodes):
        return 4
    return 5 if numbers[2] > MOST_SECONDS else 0


def read_map(path: str) -> RoadMap:
    """Returns the map of a file; the first faulty line ends the inspection."""
    nodes, said, arcs = None, 0, []
    for number, line in numbered_lines(path, MOST_BYTES):
        fields = fields_of(line, b"c")
        if not fields:
            continue
        first, fault_of = (2, fault_of_problem) if fields[0] == b"p" else (1, fault_of_arc)
        values = numbers_of(fields[first:]) or []  # which is too few for either kind
        if code := fault_of(fields, values, nodes):
            raise refused(3, path, f"map refused {code}" + (f" line {number}" if code != 1 else ""))
        if fields[0] == b"p":
            nodes, said = values
        else:
            tail, head, seconds = values
            arcs.append((tail, head, seconds))
    if nodes is None:
        raise refused(3, path, "map refused 1")
    if len(arcs) != said:
        raise refused(3, path, f"map refused 6 said {said} found {len(arcs)}")
    return RoadMap(nodes, arcs)
