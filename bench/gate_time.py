#!/usr/bin/env python3
"""Where the gate's time goes: runs `rt ci` at the top of the repository and prints the processor seconds of each crate, those of its
proof, of the proof of its tests and of its edits that must fail, and how long all of it took by the clock.

    python3 bench/gate_time.py --anew > gate_time.txt

Its arguments are those of `rt ci`: with --anew nothing is taken from what earlier runs passed. What the gate itself says goes to
standard error. Each process of the prover is looked at twice a second, so that a figure may lack the last half second of a process.
Linux only: it reads /proc.
"""

from __future__ import annotations

import collections
import os
import re
import resource
import subprocess
import sys
import time
from collections.abc import Iterator

PERIOD = 0.5
PHASES = ("proof", "tests", "edits")

Process = tuple[str, str]  # its number, and when it started
Work = tuple[str, str]  # a crate and a phase


def processor_seconds(stat: str) -> tuple[str, float]:
    """Returns when a process started, and the processor seconds that it took so far, from its line in /proc."""
    fields = stat[stat.rindex(")") + 2 :].split()
    return fields[19], (int(fields[11]) + int(fields[12])) / os.sysconf("SC_CLK_TCK")


def work_of(command: str, folder: str, top: str, gate: int) -> Work | None:
    """Returns what a process of the prover works for; None where it works for another gate than this process."""
    crate = re.search(r"--crate-name (\S+)", command)
    if crate is None:
        return None
    if f"/rt-edit-{gate}-" in folder:
        return crate[1], "edits"
    if not folder.startswith(top):
        return None
    return crate[1], "tests" if " --test" in command else "proof"


def text_of(path: str) -> str:
    """Returns what stands in a file of /proc."""
    with open(path) as file:
        return file.read()


def look(top: str, gate: int, works: dict[Process, Work | None], seconds: dict[Process, float]) -> None:
    """Notes the processor seconds of each process that works for the gate."""
    for number in filter(str.isdigit, os.listdir("/proc")):
        try:
            started, taken = processor_seconds(text_of(f"/proc/{number}/stat"))
            process = number, started
            if works.get(process) is None:
                command = text_of(f"/proc/{number}/cmdline").replace("\0", " ")
                works[process] = work_of(command, os.readlink(f"/proc/{number}/cwd"), top, gate)
            seconds[process] = taken
        except OSError:
            continue  # it has ended, or is another user's


def table(works: dict[Process, Work | None], seconds: dict[Process, float]) -> Iterator[str]:
    """Yields the lines of the table, dearest crate first, and the sums."""
    crates: dict[str, dict[str, float]] = collections.defaultdict(lambda: dict.fromkeys(PHASES, 0.0))
    for process, work in works.items():
        if work is not None:
            crate, phase = work
            crates[crate][phase] += seconds[process]
    sums = {phase: sum(spent[phase] for spent in crates.values()) for phase in PHASES}
    yield "{:18}{:>8}{:>8}{:>8}{:>8}".format("crate", *PHASES, "all")
    for name, spent in [*sorted(crates.items(), key=lambda item: -sum(item[1].values())), ("all", sums)]:
        yield "{:18}{:8.0f}{:8.0f}{:8.0f}{:8.0f}".format(name, *spent.values(), sum(spent.values()))


def main() -> int:
    """Runs the gate and prints the table; returns the gate's status."""
    top = os.path.realpath(os.path.join(os.path.dirname(__file__), ".."))
    begun = time.monotonic()
    gate = subprocess.Popen(["rt", "ci", *sys.argv[1:]], cwd=top, stdout=sys.stderr)
    works: dict[Process, Work | None] = {}
    seconds: dict[Process, float] = {}
    while gate.poll() is None:
        look(top, gate.pid, works, seconds)
        time.sleep(PERIOD)
    print("\n".join(table(works, seconds)))
    taken = resource.getrusage(resource.RUSAGE_CHILDREN)
    clock = (time.monotonic() - begun) / 60
    print(f"with the runs and rt itself {(taken.ru_utime + taken.ru_stime) / 60:.0f} minutes of processors, {clock:.0f} by the clock")
    return gate.returncode


if __name__ == "__main__":
    sys.exit(main())
