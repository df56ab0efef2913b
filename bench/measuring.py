"""How bench/all.py takes its figures: what a command takes, turns of several, and the cells and tables that a page has."""
import os
import re
import resource
import select
import statistics
import subprocess
import sys
import tempfile
import time
from typing import IO, Callable, Dict, Iterable, List, NamedTuple, Optional, Sequence, TypeVar

sys.path.insert(0, os.path.join(os.path.dirname(os.path.abspath(__file__)), "..", "tools"))
from player.files import InputError  # noqa: E402

SHORTEST_LOOK, LONGEST_LOOK = 0.001, 0.05  # seconds between two looks at a process's memory

Given = TypeVar("Given")

# A command.


class Ran(NamedTuple):
    """What a command took, seconds by the clock and of processors and megabytes at its peak, and what it printed."""
    clock: float
    busy: float
    memory: float
    text: str = ""


def run(words: Sequence[str], into: Optional[str] = None) -> Ran:
    """Runs a command to its end; what it prints is kept, or written into a file. Raises InputError where the command cannot be run, or
    its status is not 0."""
    with open(into, "wb") if into else tempfile.TemporaryFile() as out, tempfile.TemporaryFile() as said:
        began = time.monotonic()
        process = started(words, out, said)
        try:
            seen = peak_seen(process.pid)
            _, status, usage = os.wait4(process.pid, 0)
        except BaseException:
            process.kill()
            process.wait()
            raise
        clock = time.monotonic() - began
        process.returncode = os.waitstatus_to_exitcode(status)
        if process.returncode != 0:
            raise InputError(f"{' '.join(words[:2])} ended with status {process.returncode}{last_line(said)}")
        return Ran(clock, usage.ru_utime + usage.ru_stime, peak(seen, usage.ru_maxrss) / 1024, "" if into else text_of(out))


def started(words: Sequence[str], out: IO[bytes], said: IO[bytes]) -> "subprocess.Popen[bytes]":
    """Returns a process that was started. Raises InputError where it cannot be."""
    try:
        return subprocess.Popen(words, stdin=subprocess.DEVNULL, stdout=out, stderr=said)
    except OSError as fault:
        raise InputError(f"{words[0]}: {fault.strerror}") from fault


def text_of(file: IO[bytes]) -> str:
    """Returns all that stands in a file."""
    file.seek(0)
    return file.read().decode(errors="replace")


def last_line(file: IO[bytes]) -> str:
    """Returns the last line of what was said on standard error, behind a colon; empty where nothing was."""
    lines = text_of(file).split("\n")
    last = [line.strip() for line in lines if line.strip()][-1:]
    return f": {last[0]}" if last else ""


def peak_seen(process: int) -> int:
    """Waits for the end of a process; returns the kilobytes of its peak that were last seen before, in the last fiftieth of its time."""
    seen, began, end = 0, time.monotonic(), os.pidfd_open(process)
    try:
        while True:
            seen = peak_of(process) or seen
            pause = min(LONGEST_LOOK, max(SHORTEST_LOOK, (time.monotonic() - began) / 50))
            if select.select([end], [], [], pause)[0]:
                return seen
    finally:
        os.close(end)


def peak_of(process: int) -> int:
    """Returns the kilobytes that a process had at its peak so far; 0 where it has ended."""
    try:
        with open(f"/proc/{process}/status", encoding="ascii", errors="replace") as file:
            most = re.search(r"^VmHWM:\s+(\d+) kB$", file.read(), re.MULTILINE)
    except OSError:
        return 0
    return int(most[1]) if most else 0


def peak(seen: int, told: int) -> int:
    """Returns the kilobytes of a process's peak. What the system tells at its end counts from before the program was loaded, so that it is
    at least what this process had; up to there what was seen is taken."""
    return told if told > resource.getrusage(resource.RUSAGE_SELF).ru_maxrss else seen


def in_turn(turns: int, ways: Dict[str, Callable[[], Given]]) -> Dict[str, List[Given]]:
    """Goes each of some ways so many times in turn, each first every second time; returns what each gave."""
    given: Dict[str, List[Given]] = {name: [] for name in ways}
    for turn in range(turns):
        for name in list(ways) if turn % 2 == 0 else reversed(list(ways)):
            given[name].append(ways[name]())
    return given


def found(pattern: str, text: str) -> "re.Match[str]":
    """Returns the first place of a text that has this form. Raises InputError where there is none."""
    match = re.search(pattern, text, re.MULTILINE)
    if match is None:
        raise InputError(f"no line of the form {pattern!r} was printed")
    return match


def same(what: str, values: Iterable[Given]) -> Given:
    """Returns what all of some programs printed. Raises InputError where they do not agree."""
    said = list(values)
    if any(value != said[0] for value in said):
        raise InputError(f"{what}: the programs print {' and '.join(map(str, said))}")
    return said[0]


# Cells.


def number(value: float) -> str:
    """Returns a number with as many digits as a reader can use."""
    return f"{value:,.0f}" if value >= 20 else f"{value:.1f}" if value >= 1 else f"{value:.2f}"


def listed(cells: Sequence[str]) -> str:
    """Returns some cells as words: a, b and c."""
    return " and ".join([", ".join(cells[:-1]), cells[-1]] if len(cells) > 1 else cells)


def each(values: Iterable[float], unit: str, digits: Optional[int] = None) -> str:
    """Returns all of some values with their unit: 66.0, 55.6 and 55.6 ms."""
    return f"{listed([number(value) if digits is None else f'{value:,.{digits}f}' for value in values])} {unit}"


def span(values: Sequence[float], unit: str) -> str:
    """Returns the least and the most of some values: 11.4 to 11.5 s."""
    ends = [number(min(values)), number(max(values))]
    return f"{ends[0] if ends[0] == ends[1] else ' to '.join(ends)} {unit}"


def quartiles(values: Sequence[float]) -> List[float]:
    """Returns the least, the first quartile, the median and the most of some values."""
    first = statistics.quantiles(values, n=4)[0] if len(values) > 1 else values[0]
    return [min(values), first, statistics.median(values), max(values)]


def ratio(ours: float, theirs: float) -> str:
    """Returns how much of another value one is."""
    return f"{ours / theirs:.2f}" if theirs else "-"


def in_words(count: int, one: str, many: str) -> str:
    """Returns a count of something in words."""
    names = ("No", "One", "Two", "Three", "Four", "Five", "Six", "Seven", "Eight")
    return f"{names[count] if count < len(names) else count} {one if count == 1 else many}"


def taken(runs: Sequence[Ran]) -> List[str]:
    """Returns the cells of some runs of a command: by the clock, processors' time, memory."""
    return [span([ran.clock for ran in runs], "s"), span([ran.busy for ran in runs], "s"), megabytes(runs)]


def megabytes(runs: Sequence[Ran]) -> str:
    """Returns the most memory of some runs."""
    return f"{number(max(ran.memory for ran in runs))} MB"


TAKEN = ("By the clock", "Processors' time", "Memory")  # the heads of these cells


def busiest_ratio(ours: Sequence[Ran], theirs: Sequence[Ran]) -> str:
    """Returns how much of others' processors' time some runs took, by the least of each."""
    return ratio(min(ran.busy for ran in ours), min(ran.busy for ran in theirs))


def table(head: Sequence[str], rows: Iterable[Sequence[str]]) -> List[str]:
    """Returns the lines of a table. Each row has as many cells as the head. Raises InputError where there is no row."""
    lines, cells = [], list(rows)
    if not cells:
        raise InputError("nothing was printed that can be read")
    for row in [head, ["---"] * len(head), *cells]:
        if len(row) != len(head):
            raise ValueError(f"a row of {len(row)} cells below a head of {len(head)}")
        lines.append("|---" * len(head) + "|" if row[0] == "---" else "| " + " | ".join(row) + " |")
    return [re.sub(r"(?<=\|)  +(?=\|)", " ", line) for line in lines]
