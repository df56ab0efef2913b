#!/usr/bin/env python3
"""Certifies each sheet of `ahead` over a drawn day, with no solver.

    python3 checks/sheets.py [PROGRAM]

A city of 64 crossings with 12 vehicles is drawn, the same at every run, and a day in which riders ask for more than the vehicles can
take. The day is replayed, and `ahead` is run over the same files. The log tells which vehicles were idle and on duty at each opening,
and which requests each commit left out; travel times are searched anew. Each sheet has to be a pairing within reach of just these, of
vehicles at the versions that the opening names, and its prices have to certify it: they are at most the reach and at most each pair's time
and what its vehicle pays, and they sum to the cost and all payments. So it is least. Bad input is one line and status 2.
"""
from __future__ import annotations

import random
import subprocess
import sys
import tempfile
from collections.abc import Sequence
from dataclasses import dataclass
from pathlib import Path

TOP = Path(__file__).resolve().parent.parent
sys.path.insert(0, str(TOP / "tools"))

from player.files import Parser, program, run_main  # noqa: E402
from player.roads import Arc  # noqa: E402
from player.sheets import Certifier, Standing, sheet_of  # noqa: E402
from trip_log import TripLog, read_fleet  # noqa: E402

PROGRAM = TOP / "crates" / "ride_dispatch" / "out" / "ride_dispatch"
SIDE, VEHICLES, BATCHES, REACH = 8, 12, 200, 400


class Wrong(Exception):
    """A line that is not as it should be, or a run."""


@dataclass(frozen=True)
class Expected:
    """What a sheet is over: the batch, the requests that it left out with their pickups, and the idle vehicles without a seat."""

    batch: int
    rows: list[tuple[int, int]]
    idle: Standing


def draw_map(draw: random.Random) -> list[Arc]:
    """Returns the arcs of a square of streets with two ways each."""
    arcs: list[Arc] = []
    for node in range(1, SIDE * SIDE + 1):
        ends = ([node + 1] if node % SIDE else []) + ([node + SIDE] if node + SIDE <= SIDE * SIDE else [])
        for end in ends:
            arcs += [(node, end, draw.randint(30, 120)), (end, node, draw.randint(30, 120))]
    return arcs


def draw_feed(draw: random.Random) -> list[str]:
    """Returns the commands of a day, a batch a minute."""
    lines: list[str] = []
    asked: list[int] = []
    for batch in range(BATCHES):
        clock = 60 * batch
        lines.append(f"clock {clock}")
        for _ in range(draw.randint(0, 4)):
            asked.append(len(asked) + 1)
            origin, destination = draw.sample(range(1, SIDE * SIDE + 1), 2)
            lines.append(f"request {asked[-1]} {origin} {destination} 1 {clock + draw.choice([60, 150, 600])} 1800")
        lines += [f"cancel {draw.choice(asked)}" for _ in range(draw.randint(0, 3)) if asked]
        lines.append(f"{draw.choice(['on', 'on', 'off'])} {draw.randint(1, VEHICLES)}")
        lines.append("batch")
    return lines


def draw_city(folder: Path) -> list[Arc]:
    """Writes the files of a map, a fleet and a feed; returns the map's arcs."""
    draw = random.Random(20)
    arcs = draw_map(draw)
    lines = [f"p sp {SIDE * SIDE} {len(arcs)}", *(f"a {tail} {head} {seconds}" for tail, head, seconds in arcs)]
    (folder / "map.gr").write_text("\n".join(lines) + "\n")
    vehicles = [f"vehicle {number} 4 {draw.randint(1, SIDE * SIDE)} 0" for number in range(1, VEHICLES + 1)]
    (folder / "fleet.txt").write_text("\n".join(["set penalty 1500", *vehicles]) + "\n")
    (folder / "feed.txt").write_text("\n".join(draw_feed(draw)) + "\n")
    return arcs


def expected_sheets(fleet: Path, log_text: str) -> list[Expected]:
    """Returns what the sheet of each commit of a log is over."""
    log = TripLog(read_fleet(str(fleet)))
    asked: dict[int, list[int]] = {}
    idle: Standing = {}
    sheets = []
    for line in log_text.splitlines(keepends=True):
        entry = log.read(line)
        if entry and entry.batch:
            asked[entry.batch.number] = list(entry.batch.requests)
            idle = {v.id: (v.at, v.version) for v in log.vehicles.values() if v.on_duty and not v.stops and v.at is not None}
        if entry and entry.commit:
            seated = {seat.request for seat in entry.commit.seats}
            used = {seat.vehicle for seat in entry.commit.seats}
            rows = [(request, log.requests[request].origin) for request in asked[entry.commit.number] if request not in seated]
            sheets.append(Expected(entry.commit.number, rows, {v: stand for v, stand in idle.items() if v not in used}))
    return sheets


def certify(text: str, expected: list[Expected], certifier: Certifier) -> int:
    """Returns how many vehicles the sheets of a text send. Raises Wrong where one is not as expected."""
    head, *lines, end = text.splitlines()
    if head != f"ahead 1 reach {REACH}" or end != "end" or len(lines) != len(expected):
        raise Wrong(f"{len(lines)} sheets between {head} and {end}, and {len(expected)} are expected")
    moves = 0
    for line, due in zip(lines, expected):
        try:
            sheet = sheet_of(line)
        except ValueError:
            raise Wrong(f"no sheet: {line}") from None
        if fault := certifier.fault_of(sheet, due.batch, due.rows, due.idle):
            raise Wrong(f"{fault}: {line}")
        moves += len(sheet.goes)
    return moves


def written(words: list[str]) -> str:
    """Returns what a run writes. Raises Wrong where its status is not 0."""
    done = subprocess.run(words, stdout=subprocess.PIPE, text=True)
    if done.returncode != 0:
        raise Wrong(f"status {done.returncode}: {' '.join(words)}")
    return done.stdout


def main(words: Sequence[str]) -> int:
    """Certifies the sheets of the drawn day; returns 0 where each is certified."""
    parser = Parser(description=__doc__)
    parser.add_argument("program", nargs="?", default=str(PROGRAM), help="ride_dispatch")
    path = program(parser.parse_args(words).program)
    with tempfile.TemporaryDirectory() as name:
        folder = Path(name)
        arcs = draw_city(folder)
        files = ["--map", str(folder / "map.gr"), "--fleet", str(folder / "fleet.txt"), "--feed", str(folder / "feed.txt")]
        try:
            expected = expected_sheets(folder / "fleet.txt", written([path, "replay", *files]))
            moves = certify(written([path, "ahead", *files, "--reach", str(REACH)]), expected, Certifier(arcs, REACH))
        except Wrong as wrong:
            print(wrong)
            return 1
    left_out = sum(len(sheet.rows) for sheet in expected)
    print(f"{len(expected)} sheets certified: {left_out} requests left out, {moves} vehicles sent ahead")
    return 0


if __name__ == "__main__":
    run_main(main)
