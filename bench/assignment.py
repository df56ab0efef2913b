#!/usr/bin/env python3
"""A peer of the program ride_bench: the same grids by scipy's linear_sum_assignment (Debian: python3-scipy).

  /usr/bin/python3 bench/assignment.py
"""
import os
import sys
import time
from typing import Sequence

sys.path.insert(0, os.path.join(os.path.dirname(os.path.abspath(__file__)), "..", "tools"))
from player.files import InputError, Parser, run_main  # noqa: E402

try:
    import numpy
    from scipy.optimize import linear_sum_assignment
except ImportError:  # main says what is missing
    linear_sum_assignment = None

GRIDS = (("random", 128, 1000, False), ("random", 128, 8000, False), ("product", 128, 1000, True))
RUNS = 20


def mix(a: "numpy.ndarray", b: "numpy.ndarray") -> "numpy.ndarray":
    """Returns the numbers of 32 bits that two numbers draw."""
    mask = numpy.uint64(0xFFFFFFFF)
    x = (a * numpy.uint64(2_654_435_761) & mask) ^ (b * numpy.uint64(2_246_822_519) & mask)
    x ^= x >> numpy.uint64(15)
    x = x * numpy.uint64(2_654_435_761) & mask
    return x ^ (x >> numpy.uint64(13))


def grid(rows: int, columns: int, product: bool) -> "numpy.ndarray":
    """Returns a grid of drawn amounts, or of products of row and column."""
    row = numpy.arange(1, rows + 1, dtype=numpy.uint64)[:, None]
    column = numpy.arange(1, columns + 1, dtype=numpy.uint64)[None, :]
    amounts = row * column if product else mix(row, column) % numpy.uint64(1_000_000)
    return amounts.astype(numpy.float64)


def bench(name: str, rows: int, columns: int, product: bool) -> None:
    """Prints the least cost of a grid, and the shortest of some runs."""
    amounts = grid(rows, columns, product)
    best = float("inf")
    for _ in range(RUNS):
        start = time.perf_counter()
        pairing = linear_sum_assignment(amounts)
        best = min(best, time.perf_counter() - start)
    cost = int(amounts[pairing].sum())
    print(f"{name} {rows} x {columns} cost {cost} best {best * 1e6:.0f} microseconds")


def main(words: Sequence[str]) -> int:
    """Prints a line for each grid; returns 0."""
    Parser(description=__doc__).parse_args(words)
    if linear_sum_assignment is None:
        raise InputError("scipy is missing: Debian's python3-scipy, run by /usr/bin/python3")
    for each in GRIDS:
        bench(*each)
    return 0


if __name__ == "__main__":
    run_main(main)
