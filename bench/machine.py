"""What the machine is on which bench/all.py takes its figures, and what else it was doing meanwhile. Linux only: it reads /proc."""
import os
import re
import resource
import subprocess
import sys
import time
from dataclasses import dataclass
from typing import List, Sequence

sys.path.insert(0, os.path.join(os.path.dirname(os.path.abspath(__file__)), "..", "tools"))
from player.files import InputError  # noqa: E402

TICKS = os.sysconf("SC_CLK_TCK")
DEBIANS = "/usr/bin/python3"  # the interpreter that finds Debian's libraries
TOP = os.path.realpath(os.path.join(os.path.dirname(os.path.abspath(__file__)), ".."))


def read(path: str) -> str:
    """Returns a text of the system's. Raises InputError where there is none."""
    try:
        with open(path, encoding="utf-8", errors="replace") as file:
            return file.read()
    except OSError as fault:
        raise InputError(f"{path}: {fault.strerror}: figures are taken on Linux") from fault


def said_by(*words: str) -> str:
    """Returns the first line that a command prints, empty where there is no such command or it fails."""
    try:
        done = subprocess.run(words, stdout=subprocess.PIPE, stderr=subprocess.DEVNULL, stdin=subprocess.DEVNULL, text=True, check=False)
    except OSError:
        return ""
    return done.stdout.partition("\n")[0].strip() if done.returncode == 0 else ""


# What it was doing.


@dataclass(frozen=True)
class Moment:
    """When it is, and the seconds that processors have worked so far: for anybody, of this script with all that it ran, and those in which
    a processor was taken away by what the machine itself runs on."""
    clock: float
    anybody: float
    own: float
    stolen: float


def work_of(stat: str) -> List[float]:
    """Returns the seconds that all processors have worked and that were taken away from them, from the text of /proc/stat."""
    user, nice, system, _, _, interrupts, soft, stolen = [int(field) / TICKS for field in stat.split("\n", 1)[0].split()[1:9]]
    return [user + nice + system + interrupts + soft, stolen]


def moment() -> Moment:
    """Returns what the processors did until now. A process that this script started counts once it was waited for."""
    anybody, stolen = work_of(read("/proc/stat"))
    own = [resource.getrusage(who) for who in (resource.RUSAGE_SELF, resource.RUSAGE_CHILDREN)]
    return Moment(time.monotonic(), anybody, sum(used.ru_utime + used.ru_stime for used in own), stolen)


def others(first: Moment, last: Moment) -> float:
    """Returns the seconds of processors that other processes took between two moments."""
    return max(0.0, last.anybody - first.anybody - (last.own - first.own))


def meanwhile(first: Moment, last: Moment) -> str:
    """Returns what other processes took between two moments, in words."""
    clock = max(last.clock - first.clock, 0.001)
    stolen = last.stolen - first.stolen
    taken = others(first, last)
    return (f"{clock:,.0f} s by the clock, in which other processes took {taken:,.1f} s of processors, {taken / clock:.2f} of "
            f"{os.cpu_count()} at a time" + (f", and {stolen:,.1f} s were taken away from this machine" if stolen >= 0.05 else ""))


def loads() -> str:
    """Returns the load averages."""
    return " ".join(read("/proc/loadavg").split()[:3])


# What it is.


def model(cpuinfo: str) -> str:
    """Returns what the processors are, from the text of /proc/cpuinfo."""
    name = re.search(r"^model name\s*:\s*(.+)$", cpuinfo, re.MULTILINE)
    is_virtual = re.search(r"^flags\s*:.*\bhypervisor\b", cpuinfo, re.MULTILINE)
    return (name[1].strip() if name else "no name in /proc/cpuinfo") + (", of a virtual machine" if is_virtual else "")


def megabytes(meminfo: str, name: str) -> str:
    """Returns an amount of memory, from the text of /proc/meminfo."""
    found = re.search(rf"^{name}:\s+(\d+) kB$", meminfo, re.MULTILINE)
    return f"{int(found[1]) // 1024:,} MB" if found else "?"


def commit() -> str:
    """Returns the sources' commit, and how many files were changed since."""
    name = said_by("git", "-C", TOP, "rev-parse", "--short", "HEAD")
    if not name:
        return "no commit"
    done = subprocess.run(["git", "-C", TOP, "status", "--porcelain", "-uno"], stdout=subprocess.PIPE, text=True, check=False)
    changed = len(done.stdout.splitlines())
    return name + (f", and {changed} files changed since" if changed else "")


def built(path: str) -> str:
    """Returns a program's name and when it was built."""
    return f"{os.path.basename(path)}, built {time.strftime('%Y-%m-%d %H:%M', time.localtime(os.stat(path).st_mtime))}"


def processors() -> str:
    """Returns how many processors there are, and what they are."""
    count, here = os.cpu_count(), len(os.sched_getaffinity(0))
    return f"{count} of {model(read('/proc/cpuinfo'))}" + (f"; {here} of them for this" if here != count else "")


def makers_of_peers() -> str:
    """Returns which compilers and libraries of peers there are."""
    there = [said_by("gcc", "--version"), said_by("g++", "--version"), said_by(DEBIANS, "-c", "import scipy; print('scipy', scipy.__version__)")]
    return "; ".join(filter(None, there)) or "none"


class Watch:
    """What a machine is and was doing since the watch was begun."""

    def __init__(self, command: str, programs: Sequence[str]):
        self.command, self.programs = command, programs
        self.began, self.first, self.before = time.localtime(), moment(), loads()
        memory = read("/proc/meminfo")
        self.memory = f"{megabytes(memory, 'MemTotal')}, of which {megabytes(memory, 'MemAvailable')} could be had at first"

    def rows(self) -> List[List[str]]:
        """Returns what stands at the head of the figures, a name and what is said of each."""
        until = time.strftime("%H:%M %Z")
        return [
            ["Taken", f"{time.strftime('%Y-%m-%d, %H:%M', self.began)} to {until}, by `{self.command}`"],
            ["Sources", f"{commit()}; {said_by('rt', 'version') or 'rt is not on the path'}"],
            ["Programs", "; ".join(map(built, self.programs)) or "none"],
            ["Peers by", makers_of_peers()],
            ["Processors", processors()],
            ["Memory", self.memory],
            ["Load averages", f"{self.before} before, {loads()} after"],
            ["While it ran", meanwhile(self.first, moment())],
        ]
