#!/usr/bin/env python3
"""Compares two auditors, `ride_dispatch audit` and inspector/check_log.py, over drawn logs of all kinds and changed ones.

example: python3 checks/two_auditors.py --logs 1000 --seed 1

Small maps, fleets and days are drawn from the seed. The program makes logs of them: sessions on two pipes with one or two
desks, days like a drill's, replays, sessions over files, feeds that fail or are too long. Each log is audited by both as it
stands and with changes of many kinds in log, map and fleet file. Answer and status have to be the same. A log over which
they differ is kept in the folder of --keep and named. The program is that of RIDE_DISPATCH, or the one that was built.
Status 0 where no log differs, 1 where one does, 2 where the words or the program are not in order.
"""
from __future__ import annotations

import collections
import os
import random
import shutil
import sys
import tempfile
from dataclasses import dataclass, field
from pathlib import Path
from typing import Iterator

INSPECTOR = Path(__file__).resolve().parents[1] / "inspector"
sys.path[:0] = [str(INSPECTOR), str(INSPECTOR / "tests")]

import drawn_days  # noqa: E402
import mutations  # noqa: E402
from check_log import check  # noqa: E402
from command_line import parser_of, run  # noqa: E402
from texts import Ended  # noqa: E402

CHANGES_OF_A_LOG = 40
TEXTS_CHANGED = 0.12  # the part of the changes that are made in the map or the fleet file
SEATS_MOVED = 0.05  # the part of the other changes that give a rider another place of the same vehicle at the same cost
TOO_MANY_LINES = 1_000_001


def second_answer(world: drawn_days.World) -> tuple[bytes, int]:
    """Returns what inspector/check_log.py writes for the log in the world's folder, and its status."""
    try:
        return check(str(world.map), str(world.fleet), str(world.folder / "log")).encode() + b"\n", 0
    except Ended as end:
        return (end.answer + "\n").encode() if end.answer else b"", end.status


def first_answer(program: str, world: drawn_days.World) -> tuple[bytes, int]:
    """Returns what `audit` writes for the log in the world's folder, and its status."""
    return drawn_days.run_program(program, "audit", "--map", str(world.map), "--fleet", str(world.fleet),
                                  "--log", str(world.folder / "log"))


def legal_logs(program: str, draw: random.Random, world: drawn_days.World) -> Iterator[tuple[str, bytes]]:
    """Yields logs that the program wrote over this world, each with the name of its kind."""
    version = world.settings.get("log", 1)
    desks = draw.choice([1, 2, 2])
    live = drawn_days.play_live(program, draw, world, desks, draw.randint(3, 25))
    yield f"serve on pipes, {desks} desks", live
    if draw.random() < 0.3:
        yield "day like a drill's", drawn_days.play_like_drill(program, draw, world)
    feed, drivers = world.folder / "feed", world.folder / "drivers.txt"
    commands = drawn_days.commands_of(live, version)
    feed.write_text("\n".join([*commands, ""]))
    files = ["--map", str(world.map), "--fleet", str(world.fleet)]
    yield "replay", drawn_days.run_program(program, "replay", *files, "--feed", str(feed))[0]
    if draw.random() < 0.4:
        riders = [command for command in commands if command.split()[0] in ("request", "cancel", "batch", "clock")]
        feed.write_text("\n".join([*riders, ""]))
        drivers.write_text("\n".join([*(set(commands) - set(riders)), ""]))
        both = [*files, "--riders", str(feed), "--drivers", str(draw.choice([drivers, world.folder])), "--workers", "1", "--desks", "2"]
        yield "serve over files", drawn_days.run_program(program, "serve", *both)[0]
    if world.settings.get("batch") == 1:
        yield "written, with batches given up", drawn_days.write_day(draw, world, draw.randint(5, 80))
    if draw.random() < 0.1:
        feed.write_text("\n".join(commands) + "\n" * TOO_MANY_LINES)
        yield "replay of a feed that is too long", drawn_days.run_program(program, "replay", *files, "--feed", str(feed))[0]


@dataclass
class Comparison:
    """Both auditors over one log after the other, and what came of it."""

    program: str
    keep: Path
    logs: int = 0
    answers: collections.Counter = field(default_factory=collections.Counter)
    kinds: collections.Counter = field(default_factory=collections.Counter)
    differences: list[str] = field(default_factory=list)

    def compare(self, world: drawn_days.World, kind: str, log: bytes) -> None:
        """Audits a log twice; where the answers differ the map, the fleet file and the log are kept."""
        (world.folder / "log").write_bytes(log)
        first, second = first_answer(self.program, world), second_answer(world)
        self.logs += 1
        self.kinds[kind] += 1
        words = first[0].split()
        self.answers[(words[-1] if words[:1] == [b"no"] else b" ".join(words[:1])).decode() or str(first[1])] += 1
        if first == second:
            return
        folder = self.keep / f"difference_{len(self.differences) + 1}"
        shutil.rmtree(folder, ignore_errors=True)
        folder.mkdir(parents=True)
        for name in ("map.gr", "fleet.txt", "log"):
            shutil.copy(world.folder / name, folder / name)
        self.differences.append(f"{folder}: {kind}: audit {first[1]} {first[0]!r}, check_log {second[1]} {second[0]!r}")
        print(f"DIFFERS {self.differences[-1]}", flush=True)


def compare_changed(comparison: Comparison, draw: random.Random, world: drawn_days.World, log: bytes) -> None:
    """Compares both over one change of the log, or of the map or the fleet file beside it."""
    if draw.random() < TEXTS_CHANGED:
        path = draw.choice([world.map, world.fleet])
        kind, text = draw.choice(list(mutations.TEXT_KINDS)), path.read_bytes()
        lines = mutations.TEXT_KINDS[kind](draw, text.splitlines(keepends=True) or [b"\n"])
        path.write_bytes(b"".join(lines))
        comparison.compare(world, f"{path.name}: {kind}", log)
        path.write_bytes(text)
        return
    if draw.random() < SEATS_MOVED:
        kind, changed = "another seat of the same cost", drawn_days.same_cost_seat(draw, world, log)
    else:
        kind, change = mutations.draw_log_change(draw)
        changed = b"".join(change(draw, log.splitlines(keepends=True)))
    if changed != log:
        comparison.compare(world, kind, changed)


def compare_day(comparison: Comparison, draw: random.Random, folder: Path, most: int) -> None:
    """Draws a world and compares both over its logs and changes of them, over at most `most` logs in all."""
    world = drawn_days.draw_world(draw, folder)
    for kind, log in legal_logs(comparison.program, draw, world):
        if comparison.logs < most:
            comparison.compare(world, kind, log)
        for _ in range(CHANGES_OF_A_LOG):
            if comparison.logs < most and log.count(b"\n") < 5_000:
                compare_changed(comparison, draw, world, log)


def main() -> int:
    """Returns the exit status."""
    parser = parser_of(__doc__, {})
    parser.add_argument("--logs", type=int, default=400, help="how many logs to compare (default 400)")
    parser.add_argument("--seed", type=int, default=1, help="the seed of the first day (default 1)")
    parser.add_argument("--keep", default=tempfile.gettempdir(), help="where logs that differ are kept (default the folder for "
                        "temporary files)")
    words = parser.parse_args()
    program = drawn_days.program_path()
    if words.logs < 1 or program is None or not os.access(program, os.X_OK):
        raise Ended(2, "", "--logs is at least 1, and RIDE_DISPATCH names the program, or it is built")
    comparison, seed = Comparison(program, Path(words.keep)), words.seed
    while comparison.logs < words.logs:
        with tempfile.TemporaryDirectory() as folder:
            try:
                compare_day(comparison, random.Random(seed), Path(folder), words.logs)
            except (EOFError, BrokenPipeError):
                raise Ended(2, "", f"a session of {program} ended by itself, at seed {seed}") from None
        print(f"seed {seed}: {comparison.logs} logs, {len(comparison.differences)} differences", flush=True)
        seed += 1
    for name, counted in (("answers", comparison.answers), ("kinds", comparison.kinds)):
        print(f"{name}: " + ", ".join(f"{key} {count}" for key, count in sorted(counted.items())))
    print(f"{comparison.logs} logs, {len(comparison.differences)} differences")
    return 1 if comparison.differences else 0


if __name__ == "__main__":
    sys.exit(run(main))
