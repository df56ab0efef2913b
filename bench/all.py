#!/usr/bin/env python3
"""Takes every figure of docs/performance.md anew, each of ours beside its peer in turn, and prints the page's tables and what the machine
was doing meanwhile.

    python3 bench/all.py > figures.md
    python3 bench/all.py --only rows hierarchies

It takes the built programs (`rt run` in crates/ride_dispatch, ride_resume and ride_bench builds them), and builds the peers into a folder of its
own; a peer whose compiler or library is missing is left out, and a line says so. A section that fails says why, the others go on, and the
status is 1. All sections take most of an hour. Each stands on standard error as soon as it is done; at the end, or where it is stopped before,
all that are done stand on standard output, behind what the machine was doing. --quick takes the smallest sizes, and its figures mean
nothing. The gate's time stands apart (bench/gate_time.py). Linux only.
"""
import argparse
import contextlib
import os
import shlex
import sys
import tempfile
from typing import Callable, Dict, Iterator, List, NamedTuple, Optional, Sequence

sys.path.insert(0, os.path.join(os.path.dirname(os.path.abspath(__file__)), "..", "tools"))
import day_sections as days  # noqa: E402
import part_sections as parts  # noqa: E402
import session_sections as sessions  # noqa: E402
from machine import TOP, Watch, meanwhile, moment  # noqa: E402
from measuring import table  # noqa: E402
from player.files import InputError, Parser, run_main  # noqa: E402
from workshop import Workshop  # noqa: E402

PROGRAM = f"{TOP}/crates/ride_dispatch/out/ride_dispatch"
PARTS = f"{TOP}/crates/ride_bench/out/ride_bench"
RESUME = f"{TOP}/crates/ride_resume/out/ride_resume"
# The programs that a section takes, by what it is said to take.
TAKES = {"program": ("program",), "bench": ("bench",), "resume": ("program", "resume")}
NAMES = {"program": "ride_dispatch", "bench": "ride_bench", "resume": "ride_dispatch and ride_resume"}


class Section(NamedTuple):
    """A heading of the page, which programs it takes (a key of TAKES), and what measures it."""
    title: str
    takes: str
    measure: Callable[[Workshop], List[str]]


SECTIONS: Dict[str, Section] = {
    "reading": Section("Reading a map", "bench", parts.reading),
    "pairings": Section("Least pairings", "bench", parts.pairings),
    "places": Section("The cheapest places in a plan", "bench", parts.places),
    "shared": Section("A board that threads share", "bench", parts.shared),
    "audit": Section("The audit of a day", "program", days.audits),
    "second_auditor": Section("The second auditor", "program", days.second_auditor),
    "going_on": Section("A log gives its board back", "resume", days.going_on),
    "commands": Section("Commands a second", "program", sessions.commands),
    "answers": Section("Answers while a batch is priced", "program", sessions.answers),
    "idle": Section("A session that is silent", "program", sessions.idle),
    "memory": Section("Memory of sessions", "program", sessions.memory),
    "bookings": Section("A day of bookings", "bench", parts.bookings),
    "leagues": Section("Rounds of two companies", "program", days.leagues),
    "replays": Section("Whole replays", "program", days.replays),
    "peaks": Section("Batches of 128 by a replay", "program", days.peaks),
    "first_batches": Section("The first batches of a session", "program", sessions.first_batches),
    "after_silence": Section("The first batch after a silence", "program", sessions.after_silence),
    "full_plans": Section("Batches over full plans", "program", sessions.full_plans),
    "drills": Section("Drills", "program", days.drills),
    "rows": Section("Rows of travel times", "bench", parts.rows),
    "hierarchies": Section("Rows by a hierarchy", "bench", parts.hierarchies),
}


def chosen(names: Optional[Sequence[str]]) -> List[str]:
    """Returns the sections of these names in the page's order, or all."""
    return [name for name in SECTIONS if not names or name in names]


def listing() -> List[str]:
    """Returns a line for each section."""
    return [f"{name:16}{section.title} ({NAMES[section.takes]})" for name, section in SECTIONS.items()]


def program_of(path: str, option: str) -> str:
    """Returns the whole path of a program. Raises InputError where there is none."""
    if not os.path.isfile(path) or not os.access(path, os.X_OK):
        raise InputError(f"{path}: no program; `rt run` in its crate's folder builds it, {option} names another, --only takes other sections")
    return os.path.abspath(path)


def programs_of(wishes: argparse.Namespace, names: Sequence[str]) -> Dict[str, str]:
    """Returns the programs that the sections take. Raises InputError where one is not there."""
    takes = {program for name in names for program in TAKES[SECTIONS[name].takes]}
    given = {"program": wishes.program, "bench": wishes.bench, "resume": wishes.resume}
    return {name: program_of(path, f"--{name}") for name, path in given.items() if name in takes}


def wishes_of(words: Sequence[str]) -> argparse.Namespace:
    """Returns the command line."""
    parser = Parser(description=__doc__)
    add = parser.add_argument
    add("--program", default=PROGRAM, metavar="PATH", help="the built ride_dispatch (crates/ride_dispatch/out/ride_dispatch)")
    add("--bench", default=PARTS, metavar="PATH", help="the built ride_bench (crates/ride_bench/out/ride_bench)")
    add("--resume", default=RESUME, metavar="PATH", help="the built ride_resume (crates/ride_resume/out/ride_resume)")
    add("--only", nargs="+", choices=SECTIONS, metavar="SECTION", help="only these sections, in the page's order (all)")
    add("--list", action="store_true", help="prints the names of the sections")
    add("--quick", action="store_true", help="takes the smallest sizes, once: to see that all of it works")
    return parser.parse_args(words)


# What is printed.


def section_lines(shop: Workshop, name: str) -> Iterator[str]:
    """Yields a section as it stands on the page, or why it could not be measured."""
    section, first = SECTIONS[name], moment()
    shop.begin()
    try:
        lines, fault = section.measure(shop), ""
    except (InputError, OSError) as caught:
        lines, fault = [], str(caught)
    took = meanwhile(first, moment())
    yield from ["", f"## {section.title}", ""]
    yield from [*(f"    {command}" for command in shop.commands), ""]
    yield from [f"Left out: {what}." for what in shop.left_out]
    yield f"NOT MEASURED: {fault}" if fault else f"It took {took}."
    yield from ["", *lines] if lines else []


def head_lines(watch: Watch, programs: Dict[str, str], is_quick: bool) -> Iterator[str]:
    """Yields what stands at the head: what the machine is and was doing, and what names in the commands stand for."""
    yield from ["# Figures", ""]
    if is_quick:
        yield from ["Of the smallest sizes, which mean nothing.", ""]
    yield from table(["", ""], watch.rows())
    yield from ["", "Commands stand as they were run, at the top of a clone:", ""]
    for name, path in programs.items():
        yield f"    {name}={shlex.quote(os.path.relpath(path, TOP) if path.startswith(TOP + '/') else path)}"
    yield "    files=$(mktemp -d)"


@contextlib.contextmanager
def printed_at_the_end(watch: Watch, programs: Dict[str, str], is_quick: bool) -> Iterator[List[str]]:
    """Yields lines to add to. They are printed behind the head at the end, also where somebody ends the script early."""
    lines: List[str] = []
    try:
        yield lines
    finally:
        print("\n".join([*head_lines(watch, programs, is_quick), *lines]), flush=True)


def main(words: Sequence[str]) -> int:
    """Prints the figures; returns 0, or 1 where a section failed."""
    wishes = wishes_of(words)
    if wishes.list:
        print("\n".join(listing()))
        return 0
    names = chosen(wishes.only)
    programs = programs_of(wishes, names)
    watch = Watch(" ".join(["python3 bench/all.py", *map(shlex.quote, words)]), list(programs.values()))
    with printed_at_the_end(watch, programs, wishes.quick) as lines, tempfile.TemporaryDirectory() as folder:
        shop = Workshop(programs.get("program", ""), programs.get("bench", ""), os.path.realpath(folder), wishes.quick,
                        programs.get("resume", ""))
        for name in names:
            section = list(section_lines(shop, name))
            print("\n".join(section), file=sys.stderr, flush=True)
            lines += section
    return 1 if any(line.startswith("NOT MEASURED") for line in lines) else 0


if __name__ == "__main__":
    run_main(main)
