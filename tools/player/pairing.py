"""Least pairings of rows with columns, with prices that certify them: the Hungarian method (Kuhn 1955, Munkres 1957)."""
from typing import Dict, List, Optional, Sequence, Tuple

FAR = 1 << 60


def least_pairing(rows: Sequence[Dict[int, int]], without: int) -> Tuple[List[Optional[int]], List[int], Dict[int, int]]:
    """Returns the least pairing of rows, each with the costs of the columns that it may have; a row without a column costs `without`.

    Returns each row's column or None, each row's price, and what each column pays where that is above 0. A price is at most `without`
    and at most each cost and what its column pays, and the prices less the payments are the pairing's cost.
    """
    names = sorted({column for row in rows for column in row})
    count, width = len(rows), len(names)
    place = {name: number for number, name in enumerate(names)}
    costs = []
    for number, row in enumerate(rows):
        line = [FAR] * (width + count)  # behind the columns each row has one of its own, for staying without
        line[width + number] = without
        for column, cost in row.items():
            line[place[column]] = cost
        costs.append(line)
    holders, prices, falls = paired(costs, width + count)
    columns: List[Optional[int]] = [None] * count
    for column in range(width):
        if holders[column] >= 0:
            columns[holders[column]] = names[column]
    return columns, prices, {names[column]: -falls[column] for column in range(width) if falls[column]}


def paired(costs: Sequence[List[int]], width: int) -> Tuple[List[int], List[int], List[int]]:
    """Pairs each row with a column. Returns the row that holds each column or -1, the rows' potentials, and the columns', at most 0."""
    holders, ups, falls = [-1] * width, [0] * len(costs), [0] * width
    for row in range(len(costs)):
        enter(row, costs, holders, ups, falls)
    return holders, ups, falls


def enter(row: int, costs: Sequence[List[int]], holders: List[int], ups: List[int], falls: List[int]) -> None:
    """Takes in a row by a shortest way of exchanges to a free column."""
    width = len(falls)
    least, before, done = [FAR * 2] * width, [-1] * width, []
    open_columns = list(range(width))
    current, at = row, -1
    while True:
        base = ups[current]
        line = costs[current]
        for column in open_columns:
            reduced = line[column] - base - falls[column]
            if reduced < least[column]:
                least[column], before[column] = reduced, at
        nearest = min(open_columns, key=least.__getitem__)
        raise_by(least[nearest], row, done, open_columns, holders, ups, falls, least)
        open_columns.remove(nearest)
        done.append(nearest)
        at = nearest
        if holders[nearest] < 0:
            break
        current = holders[nearest]
    while at >= 0:
        earlier = before[at]
        holders[at] = holders[earlier] if earlier >= 0 else row
        at = earlier


def raise_by(step: int, row: int, done: Sequence[int], open_columns: Sequence[int], holders: Sequence[int], ups: List[int],
             falls: List[int], least: List[int]) -> None:
    """Raises the potentials of the rows in the search by a step, and lowers those of their columns."""
    if not step:
        return
    ups[row] += step
    for column in done:
        ups[holders[column]] += step
        falls[column] -= step
    for column in open_columns:
        least[column] -= step
