"""The sections of bench/all.py that time live sessions: first batches, silence, answers, commands a second, memory, and full plans."""
import contextlib
import functools
import os
import random
import shutil
import statistics
import subprocess
import time
from dataclasses import dataclass
from typing import Callable, Dict, Iterable, Iterator, List, NamedTuple, Optional, Sequence, Set, Tuple

from live import FULL, LINE_MAP, NEW_YORK, Live, busy_seconds, lines, serve_words, write
from measuring import Ran, each, found, in_turn, in_words, megabytes, number, peak_of, ratio, span, table
from workshop import EXAMPLES, Workshop

MOST_WORKERS = 4
ROWS = 300  # rows of the peer beside a session's first batches
ANSWERED = 2_000  # cancellations whose answers are timed, at most
NOBODY = 1_000_000  # the first request that nobody asked for
SEATS = 16


class Size(NamedTuple):
    """What a session is over: a map of so many nodes, so many vehicles, the most requests of a batch, and the rides of a full plan."""
    map: str
    nodes: int
    vehicles: int
    batch: int
    rides: int


def size_of(shop: Workshop) -> Size:
    """Returns New York's size with 1,000 vehicles and batches of 128; a quick one is the town of examples/."""
    if shop.quick:
        return Size(f"{EXAMPLES}/map.gr", 30, 6, 4, 2)
    shop.script("write_map.py", shop.path("new_york.gr"))
    return Size(shop.path("new_york.gr"), NEW_YORK, 1000, 128, FULL)


def workers() -> int:
    """Returns how many workers a desk has: one for each processor, and at most four."""
    return min(MOST_WORKERS, len(os.sched_getaffinity(0)))


# A session on pipes.


@contextlib.contextmanager
def room(shop: Workshop, map_path: Optional[str], fleet: str) -> Iterator[str]:
    """Yields a folder of a session's own with its map, or that of four crossings in a row, and its fleet file."""
    folder = shop.path("session")
    os.mkdir(folder)
    try:
        if map_path:
            os.symlink(map_path, f"{folder}/map")
        else:
            write(f"{folder}/map", LINE_MAP)
        write(f"{folder}/fleet", fleet)
        yield folder
    finally:
        shutil.rmtree(folder)


class Session(Live):
    """A session on named pipes, which goes too where somebody stops the script before both are open."""

    def __init__(self, program: str, folder: str, threads: Tuple[int, int]):
        try:
            super().__init__(program, folder, *threads)
        except BaseException:
            if hasattr(self, "process"):
                self.kill()
            raise

    def close(self) -> None:
        """Gives the session up."""
        self.kill()
        self.riders.close()
        self.drivers.close()
        self.output.close()


@contextlib.contextmanager
def session(shop: Workshop, folder: str, threads: Tuple[int, int], processors: Optional[Set[int]] = None) -> Iterator[Session]:
    """Yields a session of so many workers and desks on pipes, on these processors alone where some are named. It has written its head, so
    that its map is read. It is given up at the end."""
    all_of_them = os.sched_getaffinity(0)
    if processors:
        os.sched_setaffinity(0, processors)
    shop.note([*(["taskset", "-c", ",".join(map(str, sorted(processors)))] if processors else []), shop.program,
               *serve_words(folder, *threads)])
    try:
        live = Session(shop.program, folder, threads)
    finally:
        os.sched_setaffinity(0, all_of_them)
    with contextlib.closing(live):
        live.until(b"\n")
        yield live


def large_fleet(size: Size, draw: random.Random) -> str:
    """Returns a fleet file whose vehicles take whoever asks."""
    vehicles = "".join(f"vehicle {number} {SEATS} {draw.randint(1, size.nodes)} 0\n" for number in range(1, size.vehicles + 1))
    return f"set batch {size.batch}\nset penalty 1000000000000\nset wait 1\n{vehicles}"


@dataclass
class Batches:
    """Asks a session for batches, one after the other, of requests between drawn ends."""
    live: Session
    size: Size
    draw: random.Random
    asked: int = 0
    number: int = 0

    def wanted(self, count: int) -> bytes:
        """Returns so many requests, and the question for a batch."""
        lines_of = []
        for _ in range(count):
            self.asked += 1
            origin, target = self.draw.sample(range(1, self.size.nodes + 1), 2)
            lines_of.append(f"request {self.asked} {origin} {target} 1 1000000000 1000000\n")
        self.number += 1
        return ("".join(lines_of) + "batch\n").encode()

    def seat(self, count: int) -> Tuple[float, List[int]]:
        """Returns the seconds from the opening of a batch to its commit, and the vehicles that it seats."""
        self.live.riders.write(self.wanted(count))
        log = self.live.until(f"d1 open {self.number} ".encode())
        began = time.monotonic()
        commit = f"d1 commit {self.number} ".encode()
        log = self.live.until(commit, log)
        seconds = time.monotonic() - began
        words = self.live.until(b"\n", log.split(commit)[1]).decode().split("\n")[0].split()
        return seconds, [int(seat.split(":")[1]) for seat in words[words.index("seats") + 1:words.index("prices")]]


# First batches.


class Four(NamedTuple):
    """The seconds of a session's first four batches, those from the first request to the fourth commit, and what the session took of the
    processors until then."""
    each: List[float]
    all: float
    busy: float


def first_four(shop: Workshop, size: Size) -> Four:
    """Returns what a session's first four batches take."""
    draw = random.Random(1)
    with room(shop, size.map, large_fleet(size, draw)) as folder, session(shop, folder, (workers(), 1)) as live:
        batches, began = Batches(live, size, draw), time.monotonic()
        seconds = [batches.seat(size.batch)[0] for _ in range(4)]
        return Four(seconds, time.monotonic() - began, busy_seconds(live.process.pid))


def seconds_of_rows(ran: Ran) -> float:
    """Returns the seconds that the peer's rows took, without the reading of the map."""
    return int(found(r"^\d+ rows of \d+ nodes: (\d+) microseconds", ran.text)[1]) / 1e6


def four_rows(runs: Sequence[Four], peer: Sequence[float]) -> Iterator[List[str]]:
    """Yields the table's rows of some sessions, and of the peer's rows beside each, where there are any."""
    def row(name: str, values: Iterable[float]) -> List[str]:
        return [name, *(f"{number(seconds)} s" for seconds in values)]

    for place, name in enumerate(("first", "second", "third", "fourth")):
        yield row(f"the {name} batch, from opening to commit", (run.each[place] for run in runs))
    yield row("from the first request to the fourth commit", (run.all for run in runs))
    yield row("processors' time of the session until then", (run.busy for run in runs))
    if peer:
        yield row(f"{ROWS} rows by the peer in C++, one thread", peer)
        yield ["the four batches, of these rows", *(ratio(run.all, seconds) for run, seconds in zip(runs, peer))]


def first_batches(shop: Workshop) -> List[str]:
    """Times the first four batches of a session, in turn with rows of the peer."""
    size, path = size_of(shop), shop.peer("dijkstra")
    runs: List[Four] = []
    peer: List[float] = []
    for _ in range(shop.turns(3)):
        runs.append(first_four(shop, size))
        if path:
            peer.append(seconds_of_rows(shop.run(path, size.map, str(ROWS))))
    head = ["", *(f"Run {turn}" for turn in range(1, len(runs) + 1))]
    return [f"Batches of {size.batch} over {size.vehicles:,} vehicles on {size.nodes:,} crossings, by one desk of {workers()} workers; each run "
            "is a new session.", "", *table(head, four_rows(runs, peer))]


class Silent(NamedTuple):
    """What a session took of the processors in its silence, and the seconds of the first batch behind it."""
    busy: float
    first: float


def first_after(shop: Workshop, size: Size, silence: float) -> Silent:
    """Returns what a session does in its silence, and how long its first batch takes then."""
    draw = random.Random(1)
    with room(shop, size.map, large_fleet(size, draw)) as folder, session(shop, folder, (workers(), 1)) as live:
        before = busy_seconds(live.process.pid)
        time.sleep(silence)
        busy = busy_seconds(live.process.pid) - before
        return Silent(busy, Batches(live, size, draw).seat(size.batch)[0])


def after_silence(shop: Workshop) -> List[str]:
    """Times the first batch of a session that was silent, in turn with that of one which was not."""
    size, silence, turns = size_of(shop), 0.5 if shop.quick else 15, shop.turns(3)
    ran = in_turn(turns, {name: functools.partial(first_after, shop, size, seconds)
                          for name, seconds in (("at once", 0), (f"after {silence} s of silence", silence))})
    rows = [[name, each([run.first for run in runs], "s"), each([run.busy for run in runs], "s")] for name, runs in ran.items()]
    return [f"From opening to commit, the first batch of {size.batch} over {size.vehicles:,} vehicles on {size.nodes:,} crossings, by one "
            f"desk of {workers()} workers; {in_words(turns, 'session', 'sessions in turn').lower()} of each.", "",
            *table(["", "First batch", "Processors' time in the silence"], rows)]


def busy_in_silence(shop: Workshop, over: Tuple[Optional[str], str], before: float, seconds: float) -> float:
    """Returns what a session over a map and a fleet takes of the processors in so many silent seconds, after as many before."""
    with room(shop, *over) as folder, session(shop, folder, (2, 2)) as live:
        live.riders.write(b"clock 1\n")
        live.until(b"now 1\n")
        time.sleep(before)
        busy = busy_seconds(live.process.pid)
        time.sleep(seconds)
        return busy_seconds(live.process.pid) - busy


def idle(shop: Workshop) -> List[str]:
    """Takes the processors' time of sessions while nothing is written."""
    size, (before, seconds) = size_of(shop), (0.5, 1) if shop.quick else (30, 10)
    town = busy_in_silence(shop, (None, "vehicle 1 2 1 0\n"), 0, seconds)
    large = busy_in_silence(shop, (size.map, large_fleet(size, random.Random(1))), before, seconds)
    rows = [["four crossings and one vehicle", f"{town:.2f} s"],
            [f"{size.nodes:,} crossings and {size.vehicles:,} vehicles, after {before} s of silence", f"{large:.2f} s"]]
    return [f"{seconds} s of two silent pipes, with two desks of two workers.", "", *table(["A session over", "Processors' time"], rows)]


def answers(shop: Workshop) -> List[str]:
    """Times the answers to cancellations while a batch is priced."""
    size, draw = size_of(shop), random.Random(1)
    waits: List[float] = []
    with room(shop, size.map, large_fleet(size, draw)) as folder, session(shop, folder, (2, 1)) as live:
        live.riders.write(Batches(live, size, draw).wanted(size.batch))
        log = live.until(b"d1 open 1 ")
        while not waits or (b"d1 commit 1 " not in log and len(waits) < ANSWERED):
            cancelled = NOBODY + len(waits)
            began = time.monotonic()
            live.drivers.write(f"cancel {cancelled}\n".encode())
            log = live.until(f"f2 cancel {cancelled} = ".encode(), log[-4096:])
            waits.append((time.monotonic() - began) * 1000)
            time.sleep(0.005)
    waits.sort()
    cells = [f"{len(waits):,}", f"{statistics.median(waits):.2f} ms", f"{waits[len(waits) * 99 // 100]:.1f} ms", f"{waits[-1]:.1f} ms"]
    return [f"From writing a `cancel` into a pipe to its line on the log, 5 ms apart, while one desk of two workers prices a batch of {size.batch} "
            f"over {size.vehicles:,} vehicles on {size.nodes:,} crossings.", "",
            *table(["Cancellations", "Median", "99 of 100 within", "Slowest"], [cells])]


# Long feeds.


def town_room(shop: Workshop) -> "contextlib.AbstractContextManager[str]":
    """Returns the room of a session over four crossings in a row with five vehicles."""
    return room(shop, None, "".join(f"vehicle {number} 4 1 0\n" for number in range(1, 6)))


def write_lines(path: str, many: int, seeds: Iterable[int]) -> None:
    """Writes so many drawn commands for each seed."""
    with open(path, "w", encoding="ascii") as file:
        for seed in seeds:
            file.writelines(lines(many, seed))


def through_pipes(shop: Workshop, folder: str, command: Sequence[str]) -> Ran:
    """Returns what a session takes to which two processes write the feeds."""
    writers = []
    for name in ("riders", "drivers"):
        os.mkfifo(f"{folder}/{name}")
        words = ["cat", shop.path(f"{name}.txt")]
        shop.note(words, f"{folder}/{name}")
        writers.append(subprocess.Popen(["sh", "-c", 'exec cat "$1" > "$2"', "sh", words[1], f"{folder}/{name}"]))
    try:
        return shop.run(*command, into=os.devnull)
    finally:
        for writer, name in zip(writers, ("riders", "drivers")):
            writer.kill()
            writer.wait()
            os.remove(f"{folder}/{name}")


def commands(shop: Workshop) -> List[str]:
    """Takes the commands a second of a replay, and of a session of the same lines from files and through pipes."""
    many, turns = 2_000 if shop.quick else 500_000, shop.turns(3)
    for name, seeds in (("riders", [1]), ("drivers", [2]), ("both", [1, 2])):
        write_lines(shop.path(f"{name}.txt"), many, seeds)
    with town_room(shop) as folder:
        over = ["--map", f"{folder}/map", "--fleet", f"{folder}/fleet"]
        from_files = [shop.program, "serve", *over, "--riders", shop.path("riders.txt"), "--drivers", shop.path("drivers.txt"),
                      "--workers", "2", "--desks", "1"]
        ways: Dict[str, Callable[[], Ran]] = {
            "`replay`, one feed": lambda: shop.run(shop.program, "replay", *over, "--feed", shop.path("both.txt"), into=os.devnull),
            f"`serve`, two feeds of {many:,} from files": lambda: shop.run(*from_files, into=os.devnull),
            "`serve`, the same through pipes": lambda: through_pipes(shop, folder, [shop.program, *serve_words(folder)])}
        ran = in_turn(turns, ways)
    rows = [[name, f"{2 * many / min(run.clock for run in runs):,.0f}", span([run.busy for run in runs], "s"),
             megabytes(runs)] for name, runs in ran.items()]
    return [f"The best of {in_words(turns, 'run of each', 'runs of each in turn').lower()}.", "",
            *table([f"{2 * many:,} lines", "Commands a second", "Processors' time", "Memory"], rows)]


def write_largest_map(path: str, nodes: int) -> None:
    """Writes a map of so many nodes and four times as many arcs."""
    with open(path, "w", encoding="ascii") as file:
        file.write(f"p sp {nodes} {4 * nodes}\n")
        file.writelines(f"a {arc % nodes + 1} {arc * 7919 % nodes + 1} {arc % 60}\n" for arc in range(4 * nodes))


def memory(shop: Workshop) -> List[str]:
    """Takes the memory of the longest feeds, and of the most desks and workers on the largest map."""
    many, nodes = (2_000, 500) if shop.quick else (1_000_000, 500_000)
    with town_room(shop) as folder:
        write_lines(f"{folder}/riders", many, [1])
        write_lines(f"{folder}/drivers", many, [2])
        long = shop.run(shop.program, *serve_words(folder), into=os.devnull)
        write_largest_map(f"{folder}/map", nodes)
        write(f"{folder}/riders", "clock 1\n")
        write(f"{folder}/drivers", "clock 1\n")
        large = shop.run(shop.program, *serve_words(folder, 8, 2), into=os.devnull)
    rows = [[f"two feeds of {many:,} lines", megabytes([long])],
            [f"two desks of 8 workers on a map of {nodes:,} nodes and {4 * nodes:,} arcs", megabytes([large])]]
    return table(["`serve`", "Memory"], rows)


# Full plans.


@dataclass
class Grown:
    """The seconds of batches until all plans are full, those of three more over all vehicles, how many plans are full, and the session's
    memory."""
    growing: List[float]
    full: List[float]
    plans: int
    memory: float


def report(live: Session, word: str, vehicles: Iterable[int]) -> None:
    """Sends vehicles on or off duty, and waits for the last answer."""
    reports = [f"{word} {vehicle}" for vehicle in vehicles]
    if reports:
        live.drivers.write("".join(line + "\n" for line in reports).encode())
        live.until(f"f2 {reports[-1]} = ".encode())


def grow(batches: Batches) -> Grown:
    """Gives each vehicle the rides of a full plan, by batches of those that have fewer, and then times batches over all of them. A few stand
    where no way leads, and never get a ride."""
    size, live, times = batches.size, batches.live, []
    rides: Dict[int, int] = dict.fromkeys(range(1, size.vehicles + 1), 0)
    while waiting := sum(count < size.rides for count in rides.values()):
        seconds, seated = batches.seat(min(size.batch, waiting))
        times.append(seconds)
        if not seated:
            break
        for vehicle in seated:
            rides[vehicle] += 1
        report(live, "off", [vehicle for vehicle in seated if rides[vehicle] == size.rides])
    report(live, "on", rides)
    last = [batches.seat(size.batch)[0] for _ in range(3)]
    return Grown(times, last, sum(count == size.rides for count in rides.values()), peak_of(live.process.pid) / 1024)


def full_plans(shop: Workshop) -> List[str]:
    """Times batches as plans grow full, on two processors and on four."""
    size, here = size_of(shop), sorted(os.sched_getaffinity(0))
    counts = sorted({min(count, len(here)) for count in (2, MOST_WORKERS)})
    grown = {}
    for count in counts:
        draw = random.Random(1)
        with room(shop, size.map, large_fleet(size, draw)) as folder, session(shop, folder, (count, 1), set(here[:count])) as live:
            grown[count] = grow(Batches(live, size, draw))
    later = {count: run.growing[len(run.growing) // 2:] for count, run in grown.items()}
    plans = grown[counts[-1]].plans
    rows = [["the first two batches", *(each(run.growing[:2], "s") for run in grown.values())],
            [f"the longest of the later {len(later[counts[-1]])}, as plans grow to {2 * size.rides} stops",
             *(f"{max(times):.2f} s" for times in later.values())],
            [f"three more, over {plans:,} vehicles of {2 * size.rides} stops and {size.vehicles - plans} idle ones",
             *(each(run.full, "s", 2) for run in grown.values())],
            ["memory of the session", *(f"{run.memory:,.0f} MB" for run in grown.values())]]
    head = [f"{in_words(count, 'processor', 'processors')} with as many workers" for count in grown]
    return [f"From opening to commit, batches of {size.batch} over {size.vehicles:,} vehicles on {size.nodes:,} crossings.", "",
            *table(["", *head], rows)]
