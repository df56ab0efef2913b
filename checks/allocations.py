#!/usr/bin/env python3
"""Refuses each allocation of the built program in turn, and looks at what it answers.

    python3 checks/allocations.py [PROGRAM] [--resume PATH] [--most N]

Each sample is run with its allocation number 1, 2, 3 .. refused, until a run needs no more; --most takes at most so many of
each sample, spread evenly. A run must end by itself with its own status and text, or with status 1 and what is allowed then:
of a replay nothing, or the log of a legal history; of a session, one that goes on from a log too, nothing, or a log that begins a legal
history's; of an audit and of a drill nothing, of bookings and of a league some first lines. ride_resume is left out where it is not built.
Needs gcc; docs/reliability.md has the numbers. Bad input is one line and status 2.
"""
from __future__ import annotations

import os
import subprocess
import sys
import tempfile
from collections.abc import Sequence
from dataclasses import dataclass
from pathlib import Path

HERE = Path(__file__).resolve().parent
TOP = HERE.parent
sys.path.insert(0, str(TOP / "tools"))

from player.files import Parser, program, run_main, whole  # noqa: E402

PROGRAM = TOP / "crates" / "ride_dispatch" / "out" / "ride_dispatch"
RESUME = TOP / "crates" / "ride_resume" / "out" / "ride_resume"
DATA = TOP / "crates" / "ride_dispatch" / "data"
EXAMPLES = TOP / "examples"
PATIENCE = 600.0  # seconds that a run may take
MORE = 50  # allocations that a run may need beyond those that it needed first, as its threads take some of their own

OPENED = """log 1 feeds 2 desks 2
f1 request 7 2 4 1 600 300 = waiting
f1 batch = asked 1
d2 open 1 at 0 requests 7 plans 1@0
"""


@dataclass(frozen=True)
class City:
    """A map and a fleet file."""

    map: Path
    fleet: Path

    def words(self) -> list[str]:
        return ["--map", str(self.map), "--fleet", str(self.fleet)]


PLAIN = City(DATA / "map.gr", DATA / "fleet.txt")
TOWN = City(EXAMPLES / "map.gr", EXAMPLES / "fleet.txt")


@dataclass(frozen=True)
class Sample:
    """A run of a program, and by what its answers are judged."""

    name: str
    program: str
    words: list[str]
    logs: City | None = None  # where it writes a log, the map and the fleet file to audit it over
    first_lines: bool = False  # where memory is wanting it may have written some of its first lines
    threads: bool = False  # its log differs from run to run


@dataclass(frozen=True)
class Answer:
    """How a run ended, what it wrote, and how many allocations it asked for where they were counted."""

    status: int
    text: str
    allocations: int


class Runner:
    """Runs programs with an allocation refused, and audits what they write."""

    def __init__(self, auditor: str, folder: Path) -> None:
        self.auditor = auditor
        self.shim = folder / "allocations.so"
        self.report = folder / "report"
        self.log = folder / "log"
        subprocess.run(["gcc", "-O2", "-shared", "-fPIC", "-o", str(self.shim), str(HERE / "allocations.c"), "-ldl"], check=True)

    def run(self, sample: Sample, refused: int) -> Answer:
        """Returns how a sample ends whose allocation of this number is refused, or none at 0."""
        self.report.write_bytes(bytes(8))
        environment = {**os.environ, "LD_PRELOAD": str(self.shim), "REFUSED": str(refused), "REPORT": str(self.report)}
        done = subprocess.run([sample.program, *sample.words], stdout=subprocess.PIPE, stderr=subprocess.DEVNULL, stdin=subprocess.DEVNULL,
                              env=environment, timeout=PATIENCE)
        return Answer(done.returncode, done.stdout.decode(), int.from_bytes(self.report.read_bytes(), "little"))

    def is_legal(self, city: City, text: str) -> bool:
        """Returns whether a log is the text of a legal history."""
        self.log.write_text(text)
        words = [self.auditor, "audit", *city.words(), "--log", str(self.log)]
        return subprocess.run(words, stdout=subprocess.DEVNULL, stderr=subprocess.DEVNULL, timeout=PATIENCE).returncode == 0

    def begins_legal(self, city: City, text: str) -> bool:
        """Returns whether whole lines begin the text of a legal history: a prefix of whole entries is one itself."""
        return text == "" or (text.endswith("\n") and self.is_legal(city, text))


def fault_of(runner: Runner, sample: Sample, whole_text: str, answer: Answer) -> str:
    """Returns what is wrong with an answer, empty where nothing is."""
    if answer.status == 0:
        if sample.threads and sample.logs:
            return "" if runner.is_legal(sample.logs, answer.text) else "status 0 and a log that is wrong"
        return "" if answer.text == whole_text else "status 0 and another text"
    if answer.status != 1:
        return f"status {answer.status}"
    if sample.logs:
        return "" if runner.begins_legal(sample.logs, answer.text) else "status 1 and a log that is wrong"
    if sample.first_lines:
        return "" if whole_text.startswith(answer.text) and answer.text[-1:] in ("", "\n") else "status 1 and other lines"
    return "" if answer.text == "" else "status 1 and a text"


def try_sample(runner: Runner, sample: Sample, most: int) -> list[str]:
    """Refuses each allocation of a sample, at most about so many where that is not 0; returns what was wrong."""
    usual = runner.run(sample, 0)
    if usual.status != 0 or usual.allocations == 0:
        return [f"{sample.name}: status {usual.status} and {usual.allocations} allocations where none is refused"]
    wrong, tried, wanting = [], 0, 0
    for number in range(1, usual.allocations + MORE + 1, max(1, usual.allocations // most) if most else 1):
        answer = runner.run(sample, number)
        tried += 1
        wanting += answer.status == 1
        if fault := fault_of(runner, sample, usual.text, answer):
            wrong.append(f"{sample.name}: allocation {number}: {fault}")
        if number > answer.allocations and answer.status == 0:
            break
    print(f"{sample.name}: {usual.allocations} allocations, {tried} refused in turn, {wanting} answered by status 1, {len(wrong)} wrong",
          flush=True)
    return wrong


def put(path: Path, text: str) -> str:
    """Writes a file and returns its path."""
    path.write_text(text)
    return str(path)


def samples_of(dispatch: str, folder: Path) -> list[Sample]:
    """Returns the samples of ride_dispatch, whose files it writes."""
    riders = put(folder / "riders", "request 7 2 4 1 600 300\nbatch\n")
    drivers = put(folder / "drivers", "at 1 1 0\n")
    replay = ["replay", *PLAIN.words(), "--feed", str(DATA / "feed.txt")]
    log = put(folder / "plain.log", subprocess.run([dispatch, *replay], stdout=subprocess.PIPE, text=True, check=True).stdout)
    companies = ["--map", EXAMPLES / "map.gr", "--fleet", EXAMPLES / "north_cars.txt", "--second", EXAMPLES / "south_cabs.txt"]
    return [
        Sample("replay of one request", dispatch, replay, PLAIN),
        Sample("audit of its log", dispatch, ["audit", *PLAIN.words(), "--log", log]),
        Sample("serve while a plan moves", dispatch,
               ["serve", *PLAIN.words(), "--riders", riders, "--drivers", drivers, "--workers", "2", "--desks", "1"], PLAIN, threads=True),
        Sample("drill of a city", dispatch, "drill --side 3 --vehicles 2 --requests 8 --seed 1".split()),
        Sample("a morning of two companies", dispatch, ["league", *map(str, companies), "--feed", str(EXAMPLES / "shared.txt")],
               first_lines=True),
        Sample("bookings of an evening", dispatch, ["book", "--feed", str(EXAMPLES / "evening.txt")], first_lines=True),
        Sample("replay of the morning", dispatch, ["replay", *TOWN.words(), "--feed", str(EXAMPLES / "morning.txt")], TOWN),
    ]


def resumption(resume: str, folder: Path) -> Sample:
    """Returns the sample of a session that goes on from a log with an open batch, and writes its files."""
    log = put(folder / "opened.log", OPENED)
    riders = put(folder / "more_riders", "clock 5\nrequest 8 3 1 1 900 600\nbatch\n")
    drivers = put(folder / "more_drivers", "at 1 1 0\n")
    words = [*PLAIN.words(), "--log", log, "--riders", riders, "--drivers", drivers, "--workers", "2"]
    return Sample("a session that goes on", resume, words, PLAIN, threads=True)


def main(words: Sequence[str]) -> int:
    """Tries all samples; returns 0 where nothing is wrong."""
    parser = Parser(description=__doc__)
    parser.add_argument("program", nargs="?", default=str(PROGRAM), help="ride_dispatch")
    parser.add_argument("--resume", default="", metavar="PATH", help="ride_resume (crates/ride_resume/out/ride_resume)")
    parser.add_argument("--most", type=whole(0, 10 ** 6), default=0, help="refuse at most about so many allocations of each sample")
    given = parser.parse_args(words)
    dispatch = program(given.program)
    with tempfile.TemporaryDirectory() as name:
        folder = Path(name)
        samples = samples_of(dispatch, folder)
        if given.resume or RESUME.exists():
            samples.append(resumption(program(given.resume or str(RESUME)), folder))
        else:
            print(f"ride_resume is left out: {RESUME.relative_to(TOP)} is not built", flush=True)
        runner = Runner(dispatch, folder)
        wrong = [fault for sample in samples for fault in try_sample(runner, sample, given.most)]
    for fault in wrong:
        print(fault)
    return 1 if wrong else 0


if __name__ == "__main__":
    run_main(main)
