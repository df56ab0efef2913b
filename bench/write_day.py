#!/usr/bin/env python3
"""Writes a day for `replay`, the same at every run.

  write_day.py commands FEED             100,000 commands without batches for the town of examples/
  write_day.py city MAP FLEET FEED       2,000 batches of 8 over a city of 10,000 crossings with 1,000 vehicles
  write_day.py peak NODES BATCHES FLEET FEED   so many batches of 128 with 1,000 vehicles, over a map of so many nodes

In the city each vehicle keeps about four rides: with each request the one of 4,000 requests ago is cancelled.
"""
import argparse
import os
import random
import sys
from typing import Iterator, Sequence

sys.path.insert(0, os.path.join(os.path.dirname(os.path.abspath(__file__)), "..", "tools"))
from player.files import Parser, run_main, whole  # noqa: E402

SIDE = 100
VEHICLES = 1000
BATCHES = 2000
BATCH = 8
PEAK_BATCH = 128
RIDES = 4000


def write(path: str, lines: Iterator[str]) -> None:
    """Writes lines into a file."""
    with open(path, "w", encoding="ascii") as file:
        file.writelines(line + "\n" for line in lines)


# The town.

def commands(draw: random.Random) -> Iterator[str]:
    """Yields commands of all kinds but batches, drawn."""
    clock, next_id = 25_200, 1_000
    for _ in range(100_000):
        kind = draw.randrange(10)
        if kind < 4:
            ends = draw.sample(range(1, 31), 2)
            yield f"request {next_id} {ends[0]} {ends[1]} {draw.randint(1, 3)} {clock + 900} 1800"
            next_id += 1
        elif kind < 6:
            yield f"cancel {draw.randint(1_000, next_id)}"
        elif kind < 8:
            yield f"at {draw.randint(1, 5)} {draw.randint(1, 30)} {clock}"
        elif kind == 8:
            yield f"{draw.choice(['done', 'on', 'off'])} {draw.randint(1, 5)}"
        else:
            clock += 1
            yield f"clock {clock}"


def write_commands(wishes: argparse.Namespace) -> None:
    """Writes the town's commands."""
    write(wishes.feed, commands(random.Random(1)))


# The city.

def city_map(draw: random.Random) -> Iterator[str]:
    """Yields the lines of a grid of two-way streets, each direction of drawn seconds."""
    arcs = []
    for row in range(SIDE):
        for column in range(SIDE):
            node = row * SIDE + column + 1
            neighbours = ([node + 1] if column + 1 < SIDE else []) + ([node + SIDE] if row + 1 < SIDE else [])
            for other in neighbours:
                seconds = draw.randint(5, 60)
                arcs += [f"a {node} {other} {seconds}", f"a {other} {node} {seconds}"]
    yield f"p sp {SIDE * SIDE} {len(arcs)}"
    yield from arcs


def fleet(batch: int, nodes: int, draw: random.Random) -> Iterator[str]:
    """Yields the lines of a fleet file."""
    yield f"set batch {batch}"
    yield "set wait 1"
    for vehicle in range(1, VEHICLES + 1):
        yield f"vehicle {vehicle} 6 {draw.randint(1, nodes)} 0"


def requests(count: int, nodes: int, draw: random.Random) -> Iterator[str]:
    """Yields requests with drawn ends and seats."""
    for request in range(1, count + 1):
        ends = draw.sample(range(1, nodes + 1), 2)
        yield f"request {request} {ends[0]} {ends[1]} {draw.randint(1, 2)} 7200 7200"


def city_feed(draw: random.Random) -> Iterator[str]:
    """Yields the city's requests and batches, and a cancellation with each request as soon as there are enough rides."""
    for number, request in enumerate(requests(BATCHES * BATCH, SIDE * SIDE, draw), 1):
        yield request
        if number > RIDES:
            yield f"cancel {number - RIDES}"
        if number % BATCH == 0:
            yield "batch"


def write_city(wishes: argparse.Namespace) -> None:
    """Writes the city's map, fleet and feed, which one source draws in this order."""
    draw = random.Random(1)
    write(wishes.map, city_map(draw))
    write(wishes.fleet, fleet(BATCH, SIDE * SIDE, draw))
    write(wishes.feed, city_feed(draw))


# The peak.

def peak_feed(batches: int, nodes: int, draw: random.Random) -> Iterator[str]:
    """Yields full batches."""
    for number, request in enumerate(requests(batches * PEAK_BATCH, nodes, draw), 1):
        yield request
        if number % PEAK_BATCH == 0:
            yield "batch"


def write_peak(wishes: argparse.Namespace) -> None:
    """Writes a peak's fleet and feed, which one source draws in this order."""
    draw = random.Random(1)
    write(wishes.fleet, fleet(PEAK_BATCH, wishes.nodes, draw))
    write(wishes.feed, peak_feed(wishes.batches, wishes.nodes, draw))


def main(words: Sequence[str]) -> int:
    """Writes a day; returns 0."""
    parser = Parser(description=__doc__)
    days = parser.add_subparsers(metavar="DAY", required=True)
    for name, writes, files in (("commands", write_commands, ["feed"]), ("city", write_city, ["map", "fleet", "feed"]),
                                ("peak", write_peak, ["fleet", "feed"])):
        day = days.add_parser(name)
        day.set_defaults(writes=writes)
        if name == "peak":
            day.add_argument("nodes", type=whole(2, 500_000), help="nodes of the map")
            day.add_argument("batches", type=whole(1, 2000), help="how many batches")
        for file in files:
            day.add_argument(file, help=f"where the {file} is written")
    wishes = parser.parse_args(words)
    wishes.writes(wishes)
    return 0


if __name__ == "__main__":
    run_main(main)
