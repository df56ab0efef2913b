#!/usr/bin/env python3
"""Measures `serve`, beside `replay` where both do the same. PROGRAM is the built ride_dispatch.

  live.py speed PROGRAM     two feeds of 500,000 lines from files and through pipes, and a replay of the same lines
  live.py answers PROGRAM   from a cancellation written into a pipe to its line on the log, while a desk prices a batch of 128
                            over 1,000 vehicles on a map of New York's size
  live.py silence PROGRAM   ten seconds of two silent pipes
  live.py memory PROGRAM    two feeds of 1,000,000 lines, and two desks of 8 workers on the largest map
  live.py day PROGRAM       the city's day of write_day.py: a replay, the audit of its log, and one and two desks
  live.py plans PROGRAM     batches of 128 over 1,000 vehicles on a map of New York's size, from their opening to their commit, as all
                            plans grow to 14 stops; on two processors, and then on four
"""
import os
import random
import select
import statistics
import subprocess
import sys
import tempfile
import time
from dataclasses import dataclass
from typing import Any, Callable, Dict, Iterable, Iterator, List, NamedTuple, Sequence, Tuple

HERE = os.path.dirname(os.path.abspath(__file__))
sys.path.insert(0, os.path.join(HERE, "..", "tools"))
from player.files import InputError, Parser, run_main  # noqa: E402
from player.sessions import open_feed  # noqa: E402

LINE_MAP = "p sp 4 6\na 1 2 60\na 2 1 60\na 2 3 60\na 3 2 60\na 3 4 60\na 4 3 60\n"
NEW_YORK = 264_346  # crossings of the map that write_map.py writes
FULL = 7  # rides of a vehicle whose plan has 14 stops


class Used(NamedTuple):
    """What a run took: seconds by the clock and of processors, and megabytes."""
    clock: float
    busy: float
    memory: float


def write(path: str, text: str) -> None:
    """Writes a file."""
    with open(path, "w", encoding="ascii") as file:
        file.write(text)


def serve_words(folder: str, workers: int = 2, desks: int = 1) -> List[str]:
    """Returns the words of a session over the files of a folder."""
    return ["serve", "--map", f"{folder}/map", "--fleet", f"{folder}/fleet", "--riders", f"{folder}/riders",
            "--drivers", f"{folder}/drivers", "--workers", str(workers), "--desks", str(desks)]


def lines(many: int, seed: int) -> Iterator[str]:
    """Yields commands of a town, of which two in a hundred are requests."""
    draw = random.Random(seed)
    clock = 0
    for number in range(many):
        kind = draw.randrange(50)
        if kind == 0:
            yield f"request {seed * many + number} {draw.randint(1, 2)} {draw.randint(3, 4)} 1 {clock + 900} 1800\n"
        elif kind < 20:
            yield f"cancel {seed * many + draw.randint(0, number)}\n"
        elif kind < 40:
            yield f"at {draw.randint(1, 5)} {draw.randint(1, 4)} {clock}\n"
        elif kind < 45:
            yield f"{draw.choice(['on', 'off'])} {draw.randint(1, 5)}\n"
        else:
            clock += 1
            yield f"clock {clock}\n"


def run(command: Sequence[str], stdout: Any = subprocess.DEVNULL) -> Used:
    """Runs a command to its end, and returns what it took. Raises InputError where its status is not 0."""
    began = time.monotonic()
    process = subprocess.Popen(command, stdout=stdout)
    _, status, usage = os.wait4(process.pid, 0)
    process.returncode = os.waitstatus_to_exitcode(status)
    if process.returncode != 0:
        raise InputError(f"{command[0]} {command[1]} ended with status {process.returncode}")
    return Used(time.monotonic() - began, usage.ru_utime + usage.ru_stime, usage.ru_maxrss / 1024)


def fill(path: str, text: str) -> int:
    """Writes a text into a pipe from a process of its own; returns its number."""
    child = os.fork()
    if child == 0:
        write(path, text)
        os._exit(0)
    return child


def made(name: str, *words: str) -> None:
    """Runs a script of this folder."""
    subprocess.run([sys.executable, f"{HERE}/{name}", *words], check=True)


def speed(program: str, folder: str) -> None:
    """Prints commands a second of a replay, and of a session of the same lines from files and through pipes."""
    write(f"{folder}/map", LINE_MAP)
    write(f"{folder}/fleet", "".join(f"vehicle {v} 4 1 0\n" for v in range(1, 6)))
    feeds = ["".join(lines(500_000, seed)) for seed in (1, 2)]
    write(f"{folder}/riders", feeds[0])
    write(f"{folder}/drivers", feeds[1])
    write(f"{folder}/both", "".join(feeds))
    for name, command in [
        ("replay", ["replay", "--map", f"{folder}/map", "--fleet", f"{folder}/fleet", "--feed", f"{folder}/both"]),
        ("serve, files", serve_words(folder)),
    ]:
        used = run([program] + command)
        print(f"{name}: {1_000_000 / used.clock:,.0f} commands a second, {used.clock:.2f} s by the clock, {used.busy:.2f} s of processors, "
              f"{used.memory:.0f} MB")
    os.remove(f"{folder}/riders")
    os.remove(f"{folder}/drivers")
    os.mkfifo(f"{folder}/riders")
    os.mkfifo(f"{folder}/drivers")
    writers = [fill(f"{folder}/riders", feeds[0]), fill(f"{folder}/drivers", feeds[1])]
    used = run([program] + serve_words(folder))
    for writer in writers:
        os.waitpid(writer, 0)
    print(f"serve, pipes: {1_000_000 / used.clock:,.0f} commands a second, {used.clock:.2f} s by the clock, {used.busy:.2f} s of "
          f"processors, {used.memory:.0f} MB")


class Live:
    """A session on named pipes."""

    def __init__(self, program: str, folder: str, workers: int, desks: int):
        os.mkfifo(f"{folder}/riders")
        os.mkfifo(f"{folder}/drivers")
        self.process = subprocess.Popen([program] + serve_words(folder, workers, desks), stdout=subprocess.PIPE, text=True)
        assert self.process.stdout is not None  # as it is a pipe
        self.output = self.process.stdout
        self.riders, self.drivers = (
            os.fdopen(open_feed(f"{folder}/{name}", self.process), "wb", buffering=0) for name in ("riders", "drivers"))

    def until(self, wanted: bytes, log: bytes = b"") -> bytes:
        """Reads the log until it has these bytes; returns what was read. Raises InputError where the log ends before."""
        while wanted not in log:
            select.select([self.output], [], [])
            piece = os.read(self.output.fileno(), 1 << 16)
            if not piece:
                raise InputError("the program ended before its session did")
            log += piece
        return log

    def kill(self) -> None:
        """Gives the session up."""
        self.process.kill()
        self.process.wait()


def answers(program: str, folder: str) -> None:
    """Prints how long the answer to a cancellation takes while a batch is priced."""
    made("write_map.py", f"{folder}/map")
    draw = random.Random(1)
    fleet = "".join(f"vehicle {v} 16 {draw.randint(1, NEW_YORK)} 0\n" for v in range(1, 1001))
    write(f"{folder}/fleet", "set batch 128\n" + fleet)
    live = Live(program, folder, 2, 1)
    half = NEW_YORK // 2
    for request in range(1, 129):
        ends = f"{draw.randint(1, half)} {draw.randint(half + 1, NEW_YORK)}"
        live.riders.write(f"request {request} {ends} 1 1000000 1000000\n".encode())
    live.riders.write(b"batch\n")
    log = live.until(b"d1 open 1")
    waits: List[float] = []
    while b"d1 commit 1" not in log and len(waits) < 2_000:
        number = 1_000_000 + len(waits)
        began = time.monotonic()
        live.drivers.write(f"cancel {number}\n".encode())
        log = live.until(f"f2 cancel {number} = ".encode(), log[-4096:])
        waits.append((time.monotonic() - began) * 1000)
        time.sleep(0.005)
    waits.sort()
    print(f"{len(waits)} cancellations: median {statistics.median(waits):.2f} ms, 99 of 100 below {waits[len(waits) * 99 // 100]:.2f} ms, "
          f"slowest {waits[-1]:.2f} ms")
    live.kill()


def silence(program: str, folder: str) -> None:
    """Prints what a session takes of the processors while nothing is written."""
    write(f"{folder}/map", LINE_MAP)
    write(f"{folder}/fleet", "vehicle 1 2 1 0\n")
    live = Live(program, folder, 2, 2)
    live.riders.write(b"clock 1\n")
    live.until(b"now 1\n")
    before = busy_seconds(live.process.pid)
    time.sleep(10)
    print(f"ten silent seconds: {busy_seconds(live.process.pid) - before:.2f} s of processors")
    live.riders.close()
    live.drivers.close()
    live.output.read()
    live.process.wait()


def busy_seconds(process: int) -> float:
    """Returns the seconds of processors that a process has used."""
    with open(f"/proc/{process}/stat", encoding="ascii") as file:
        fields = file.read().rsplit(")", 1)[1].split()
    return (int(fields[11]) + int(fields[12])) / os.sysconf("SC_CLK_TCK")


def memory(program: str, folder: str) -> None:
    """Prints the megabytes of the longest feeds, and of the most desks and workers on the largest map."""
    write(f"{folder}/map", LINE_MAP)
    write(f"{folder}/fleet", "".join(f"vehicle {v} 4 1 0\n" for v in range(1, 6)))
    for name, seed in (("riders", 1), ("drivers", 2)):
        write(f"{folder}/{name}", "".join(lines(1_000_000, seed)))
    print(f"two feeds of 1,000,000 lines: {run([program] + serve_words(folder)).memory:.0f} MB")
    with open(f"{folder}/map", "w", encoding="ascii") as file:
        file.write("p sp 500000 2000000\n")
        file.writelines(f"a {a % 500_000 + 1} {a * 7919 % 500_000 + 1} {a % 60}\n" for a in range(2_000_000))
    write(f"{folder}/riders", "clock 1\n")
    write(f"{folder}/drivers", "clock 1\n")
    print(f"two desks of 8 workers on the largest map: {run([program] + serve_words(folder, 8, 2)).memory:.0f} MB")


def day(program: str, folder: str) -> None:
    """Prints what the city's day takes: as a replay, in an audit, and with one and two desks."""
    made("write_day.py", "city", f"{folder}/map", f"{folder}/fleet", f"{folder}/feed")
    with open(f"{folder}/feed", encoding="ascii") as file:
        feed = file.readlines()
    write(f"{folder}/riders", "".join(line for line in feed if not line.startswith("cancel")))
    write(f"{folder}/drivers", "".join(line for line in feed if line.startswith("cancel")))
    files = ["--map", f"{folder}/map", "--fleet", f"{folder}/fleet"]
    with open(f"{folder}/log", "wb") as log:
        used = run([program, "replay", *files, "--feed", f"{folder}/feed"], stdout=log)
    print(f"replay: {used.clock:.1f} s by the clock, {used.busy:.1f} s of processors")
    used = run([program, "audit", *files, "--log", f"{folder}/log"])
    print(f"audit: {used.clock:.1f} s by the clock, {used.busy:.1f} s of processors, {used.memory:.0f} MB")
    for desks in (1, 2):
        used = run([program] + serve_words(folder, 4 // desks, desks))
        print(f"desks {desks}: {2_000 / used.clock * 3600:,.0f} batches an hour, {used.clock:.1f} s by the clock, {used.busy:.1f} s of "
              f"processors, {used.memory:.0f} MB")


def plans(program: str, folder: str) -> None:
    """Prints how long batches take as plans grow, on two processors and on four."""
    made("write_map.py", f"{folder}/map")
    for processors in (2, 4):
        draw = random.Random(1)
        fleet = "".join(f"vehicle {v} 16 {draw.randint(1, NEW_YORK)} 0\n" for v in range(1, 1001))
        write(f"{folder}/fleet", "set batch 128\nset penalty 1000000000000\nset wait 1\n" + fleet)
        all_processors = os.sched_getaffinity(0)
        os.sched_setaffinity(0, set(sorted(all_processors)[:processors]))
        live = Live(program, folder, processors, 1)
        os.sched_setaffinity(0, all_processors)
        print(f"{processors} processors: {Growth(live, draw).measured()}")
        live.kill()
        os.remove(f"{folder}/riders")
        os.remove(f"{folder}/drivers")


@dataclass
class Growth:
    """Gives each of 1,000 vehicles so many rides, by batches of those that have fewer, and then times batches over all of them. A few
    stand where no way leads, and never get a ride."""
    live: Live
    draw: random.Random
    asked: int = 0
    batches: int = 0

    def one_batch(self, count: int) -> Tuple[List[int], float]:
        """Returns the vehicles that a batch of so many requests seats, and the seconds from its opening to its commit."""
        self.batches += 1
        wanted = []
        for _ in range(count):
            origin, target = self.draw.sample(range(1, NEW_YORK + 1), 2)
            self.asked += 1
            wanted.append(f"request {self.asked} {origin} {target} 1 1000000000 1000000\n")
        self.live.riders.write(("".join(wanted) + "batch\n").encode())
        log = self.live.until(f"d1 open {self.batches} ".encode())
        began = time.monotonic()
        commit = f"d1 commit {self.batches} ".encode()
        log = self.live.until(commit, log)
        seconds = time.monotonic() - began
        words = self.live.until(b"\n", log.split(commit)[1]).decode().split()
        return [int(seat.split(":")[1]) for seat in words[words.index("seats") + 1:words.index("prices")]], seconds

    def report(self, word: str, vehicles: Iterable[int]) -> None:
        """Sends vehicles on or off duty, and waits for the last answer."""
        reports = [f"{word} {vehicle}" for vehicle in vehicles]
        if reports:
            self.live.drivers.write("".join(line + "\n" for line in reports).encode())
            self.live.until(f"f2 {reports[-1]} = ".encode())

    def measured(self) -> str:
        """Grows all plans, and returns what the batches took."""
        rides: Dict[int, int] = dict.fromkeys(range(1, 1001), 0)
        times: List[float] = []
        while waiting := sum(count < FULL for count in rides.values()):
            seated, seconds = self.one_batch(min(128, waiting))
            times.append(seconds)
            if not seated:
                break
            for vehicle in seated:
                rides[vehicle] += 1
            self.report("off", [vehicle for vehicle in seated if rides[vehicle] == FULL])
        self.report("on", rides)
        last = [self.one_batch(128)[1] for _ in range(3)]
        grown = sum(count == FULL for count in rides.values())
        return (f"{len(times)} batches until {grown} plans have 14 stops, the first {times[0]:.2f} s, the longest {max(times):.2f} s, the "
                f"longest of the later half {max(times[len(times) // 2:]):.2f} s; then of 128 over all "
                + ", ".join(f"{seconds:.2f} s" for seconds in last))


WHAT: Dict[str, Callable[[str, str], None]] = {
    "speed": speed, "answers": answers, "silence": silence, "memory": memory, "day": day, "plans": plans}


def main(words: Sequence[str]) -> int:
    """Prints what is measured; returns 0."""
    parser = Parser(description=__doc__)
    parser.add_argument("what", choices=WHAT, help="what is measured")
    parser.add_argument("program", help="the built ride_dispatch")
    wishes = parser.parse_args(words)
    if not os.access(wishes.program, os.X_OK) or os.path.isdir(wishes.program):
        raise InputError(f"{wishes.program}: no program")
    with tempfile.TemporaryDirectory() as folder:
        WHAT[wishes.what](wishes.program, folder)
    return 0


if __name__ == "__main__":
    run_main(main)
