#!/usr/bin/env python3
"""Writes the map of ride_bench of New York's size as a .gr file: bench/write_map.py FILE"""
import os
import sys
from typing import Iterator, Sequence, Tuple

sys.path.insert(0, os.path.join(os.path.dirname(os.path.abspath(__file__)), "..", "tools"))
from player.files import Parser, run_main  # noqa: E402

NODES, WIDTH = 264_346, 514


def mix(a: int, b: int) -> int:
    """Returns a number of 32 bits that two numbers draw."""
    x = ((a * 2_654_435_761) ^ (b * 2_246_822_519)) & 0xFFFFFFFF
    x ^= x >> 15
    x = (x * 2_654_435_761) & 0xFFFFFFFF
    return x ^ (x >> 13)


def streets() -> Iterator[Tuple[int, int]]:
    """Yields the ends of each possible street of the grid."""
    for node in range(1, NODES + 1):
        if node % WIDTH != 0 and node < NODES:
            yield node, node + 1
        if node + WIDTH <= NODES:
            yield node, node + WIDTH


def arcs() -> Iterator[str]:
    """Yields the lines of both directions of each street that is there."""
    for tail, head in streets():
        drawn = mix(tail, head)
        if drawn % 10 < 7:
            seconds = 2 + (drawn >> 8) % 59
            yield f"a {tail} {head} {seconds}\na {head} {tail} {seconds}\n"


def main(words: Sequence[str]) -> int:
    """Writes the map; returns 0."""
    parser = Parser(description="Writes the map of ride_bench of New York's size as a .gr file.")
    parser.add_argument("file", help="where it is written")
    wishes = parser.parse_args(words)
    lines = list(arcs())
    with open(wishes.file, "w", encoding="ascii") as file:
        file.write(f"c crossings on a grid, of whose streets 7 in 10 are there\np sp {NODES} {2 * len(lines)}\n")
        file.writelines(lines)
    return 0


if __name__ == "__main__":
    run_main(main)
