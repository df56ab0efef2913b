"""A day of two clients beside a session that is killed again and again: what they mean to say, and how they go on."""
from __future__ import annotations

import os
import random
import time
from collections import Counter
from collections.abc import Callable
from dataclasses import dataclass, field
from pathlib import Path

import interrupted  # noqa: F401 - the tools stand on the path
from interrupted.logs import Standing, Wrong, check_commands, check_promises, standing, whole_lines
from interrupted.programs import KILLED, Moment, Programs, Session, draw_moment, run
from live_city import BEGIN, made_fleet, made_riders
from player.drivers import Drivers, Habits
from player.files import write_fleet
from player.riders import Office
from player.roads import Roads, grid_city
from trip_log import LogError, TripLog, read_fleet

RIDERS, DRIVERS = 0, 1
TICK = 10  # seconds of the day between two turns of the clients
BAD = 0.02  # of the turns in which a client says what is no command
AHEAD = 0.3  # of the turns in which the riders' client does not wait for its answers
SETTLED = 0.8  # of the turns in which both clients wait until no batch is open, so that the clock does not run away from the desks
PAUSE = 0.0002  # seconds between two looks at a log, so that a batch is often open when its opening is seen
SILENCE = 60.0  # seconds in which something has to come that is due
HABITS = Habits(hold_ups=0.05, breaks=0.2, break_seconds=300)


@dataclass(frozen=True)
class Sizes:
    """How large a day is: a grid of `side` times `side` crossings, vehicles, requests and the minutes in which they are made, and the
    seconds for which it goes on at most after the last request; below 0 it breaks off before."""

    side: int = 12
    vehicles: int = 14
    requests: int = 60
    minutes: int = 12
    last_drive: int = 7_200


@dataclass(frozen=True)
class City:
    """A drawn city with its fleet, and the riders of a day."""

    programs: Programs
    roads: Roads
    sizes: Sizes


def draw_city(folder: Path, programs: tuple[Path, Path], sizes: Sizes, seed: int) -> City:
    """Returns a drawn city, whose files go into a folder."""
    draw = random.Random(seed)
    roads = grid_city(sizes.side, draw)
    files = Programs(*programs, folder / "map.gr", folder / "fleet.txt")
    roads.write(str(files.map), f"a drawn city of {roads.nodes} crossings")
    fleet = made_fleet(roads, sizes.vehicles, 1, draw)
    fleet.settings.update(batch=8, log=draw.choice([1, 2]))
    write_fleet(str(files.fleet), fleet)
    return City(files, roads, sizes)


@dataclass
class Count:
    """What was met where sessions were killed."""

    kills: int = 0
    days: int = 0
    lines: int = 0
    rides: int = 0
    met: Counter[str] = field(default_factory=Counter)

    def text(self) -> str:
        """Returns it in words."""
        met = ", ".join(f"{name} {number}" for name, number in sorted(self.met.items()))
        return f"{self.kills} kills in {self.days} days of {self.lines} lines and {self.rides} confirmed rides; when killed: {met}"


class Clients:
    """The clients of a day: an office of riders, and drivers who follow their plans by the log.

    `meant` is what each has said or is to say, kept before it is written. After an interruption each goes on behind as many commands
    as its feed has answers on the log.
    """

    def __init__(self, city: City, draw: random.Random):
        self.city, self.draw = city, draw
        sizes = city.sizes
        riders = made_riders(city.roads, sizes.requests, sizes.minutes * 60, draw)
        self.office = Office(riders, None, 0, draw)
        self.last = max(rider.asks for rider in riders)
        self.meant: list[list[str]] = [[], []]
        self.now = BEGIN
        self.done = False
        self.begin(b"")
        self.drivers = Drivers(city.roads, self.log, HABITS, draw)
        self.drivers.plan_breaks(BEGIN, BEGIN + sizes.minutes * 60)

    def begin(self, whole: bytes) -> None:
        """Forgets what the log said, and reads it again from its whole lines."""
        self.log = TripLog(read_fleet(str(self.city.programs.fleet)))
        self.answered = [0, 0]
        self.hear(whole.splitlines(keepends=True))
        if hasattr(self, "drivers"):
            self.drivers.log = self.log

    def hear(self, lines: list[bytes]) -> None:
        """Takes the next lines of the log."""
        for line in lines:
            entry = self.log.read(line.decode())
            if entry and entry.actor in ("f1", "f2") and entry.kind not in ("end", "cut"):
                self.answered[int(entry.actor[1]) - 1] += 1

    def next_turn(self) -> tuple[list[str], list[str]]:
        """Returns what riders and drivers mean to say now, none where the day is over; it is kept."""
        self.now += TICK
        if self.now > self.last + self.city.sizes.last_drive or (self.office.next_moment() is None and self._at_rest()):
            self.done = True
            return [], []
        riders = [f"clock {self.now}", *(line for _, line in self.office.due(self.now))]
        if self.log.waiting() or self.draw.random() < 0.1:
            riders += ["batch"] * self.draw.choice([0, 1, 1, 2])
        pending = {int(line.split()[1]) for line in self.meant[DRIVERS][self.answered[DRIVERS]:] if line.split()[1:]}
        drivers = self.drivers.reports(self.now, pending)
        for said in (riders, drivers):
            if self.draw.random() < BAD:
                said.insert(self.draw.randint(0, len(said)), self.draw.choice(["tick", "done 1 1", "request 1 2", "clock 99999999999999999999"]))
        self.meant[RIDERS] += riders
        self.meant[DRIVERS] += drivers
        return riders, drivers

    def _at_rest(self) -> bool:
        """Returns whether all is answered, nobody waits, and every vehicle is idle and on duty."""
        idle = not any(vehicle.stops for vehicle in self.log.vehicles.values())
        answered = all(count == len(meant) for count, meant in zip(self.answered, self.meant))
        return answered and idle and not self.log.waiting() and not self.batches_are_open()

    def batches_are_open(self) -> bool:
        """Returns whether a batch that was asked for is not committed."""
        return self.log.asked != self.log.opened or bool(self.log.open_batches)

    def waits(self, feeds: list[int]) -> bool:
        """Returns whether some of these feeds have a command without an answer."""
        return any(self.answered[feed] < len(self.meant[feed]) for feed in feeds)


class Day:
    """A day that is played to its end over any number of kills. `log` are the whole lines that stand when nothing runs, `torn` what
    stands behind them."""

    def __init__(self, city: City, folder: Path, seed: int, count: Count, desks: int = 2):
        self.city, self.folder, self.count, self.desks = city, folder, count, desks
        self.draw = random.Random(seed)
        self.clients = Clients(city, self.draw)
        self.log = self.torn = b""
        self.stood: Standing | None = None
        self.runs = self.unheard = 0
        self.heard = 0.0

    def play(self, kills: int) -> bytes:
        """Plays the day, in which sessions are killed so often at most; returns its finished log, which was looked at."""
        while True:
            session = self._start(draw_moment(self.draw) if kills else None)
            try:
                self._play(session)
            except LogError as fault:
                self._check_beginning(session.log.read_bytes())
                raise Wrong(f"session {self.runs} writes what is no log: {fault}") from fault
            finally:
                status = session.bury()
            text = session.log.read_bytes()
            if not session.was_killed or status != KILLED:
                break
            kills -= 1
            self._cut(text)
        if status != 0:
            raise Wrong(f"session {self.runs} ended with status {status}")
        self._finish(text)
        return text

    def _start(self, moment: Moment | None) -> Session:
        """Starts the next session of the day: one that begins, or one that goes on from the log."""
        self.runs += 1
        pipes = [self.folder / f"{self.runs}.{name}" for name in ("riders", "drivers")]
        for path in pipes:
            os.mkfifo(path)
        workers, programs = self.draw.randint(1, 3), self.city.programs
        if self.log:
            kept = self.folder / f"{self.runs}.kept"
            kept.write_bytes(self.log + self.torn)
            words = programs.resuming(kept, workers, pipes, self.draw)
        else:
            words = programs.serving(workers, self.desks, pipes)
        session = Session(words, pipes, self.folder / f"{self.runs}.log", len(self.log), moment)
        self._go_on(session)
        return session

    def _go_on(self, session: Session) -> None:
        """Lets each client say again what has no answer. A feed that has ended is held open, and nothing is said."""
        self.stood = standing(self.log) if self.log else None
        for feed, meant in enumerate(self.clients.meant):
            if self.stood and self.stood.ended[feed]:
                session.pipes[feed].hold()
            else:
                session.say(feed, meant[self.clients.answered[feed]:])
        self.heard = time.monotonic()

    def _play(self, session: Session) -> None:
        """Plays until the session has ended."""
        clients = self.clients
        # The lines that it begins with were heard before.
        self.unheard = len(self.log)
        while not clients.done and self._wait(session, [RIDERS, DRIVERS]):
            riders, drivers = clients.next_turn()
            session.say(RIDERS, riders)
            session.say(DRIVERS, drivers)
            self._wait(session, [DRIVERS] if self.draw.random() < AHEAD else [RIDERS, DRIVERS])
            # Behind the last turn nothing is said before the feeds end, and a desk that goes on waits for news.
            if not clients.done and self.draw.random() < SETTLED:
                self._wait(session, [RIDERS, DRIVERS], clients.batches_are_open)
        feeds = [RIDERS, DRIVERS]
        self.draw.shuffle(feeds)
        for feed in feeds:
            if not (self.stood and self.stood.ended[feed]):
                session.close(feed)
                for _ in range(self.draw.choice([0, 100])):
                    self._hear(session)
        while not session.has_ended():
            self._hear(session)
        self._hear(session)

    def _wait(self, session: Session, feeds: list[int], more: Callable[[], bool] = lambda: False) -> bool:
        """Waits until all that was said on these feeds is answered, and nothing more is waited for. Returns whether the session goes on."""
        while not session.has_ended() and (self.clients.waits(feeds) or more()):
            self._hear(session)
        return not session.has_ended()

    def _hear(self, session: Session) -> None:
        """Hears what has come, or pauses."""
        lines = session.turn()
        news = []
        for line in lines:
            if self.unheard > 0:
                self.unheard -= len(line)
            else:
                news.append(line)
        self.clients.hear(news)
        if lines:
            self.heard = time.monotonic()
        elif time.monotonic() > self.heard + SILENCE:
            raise Wrong(f"session {self.runs} is silent for {SILENCE:.0f} s, and something is due")
        else:
            time.sleep(PAUSE)

    def _cut(self, text: bytes) -> None:
        """Takes what a killed session left, looks at it, and has the clients go on from there. Where it was killed before it had written
        the lines that it was to go on from, the log is still the one before."""
        count, whole = self.count, whole_lines(text)
        self._check_beginning(text)
        count.met["old lines not yet written"] += len(whole) < len(self.log)
        if len(whole) > len(self.log):
            self.log, self.torn = whole, text[len(whole):]
        count.kills += 1
        stands = standing(self.log) if self.log else None
        count.met["before the head"] += stands is None
        if stands:
            check_commands(self.clients.meant, stands, False)
            count.met[f"{len(stands.open_batches)} open batches"] += 1
            count.met["a feed had ended"] += any(stands.ended)
            count.met["a torn line"] += self.torn != b""
        self.clients.begin(self.log)
        count.met["commands without an answer"] += self.clients.waits([RIDERS, DRIVERS])

    def _check_beginning(self, text: bytes) -> None:
        """Raises Wrong where a session's output does not begin with the lines that it was to go on from, or a desk with an open batch did
        not wait for news."""
        if not (text.startswith(self.log) if len(text) >= len(self.log) else self.log.startswith(text)):
            raise Wrong(f"session {self.runs} does not begin with the {len(self.log)} bytes of the log that it goes on from")
        first = text[len(self.log):].split(b"\n", 1)[0].decode()
        if self.stood and self.stood.lives() and self.stood.open_batches and first.split(" ")[1:2] == ["commit"]:
            raise Wrong(f"session {self.runs} commits an inherited batch before anything new stands on its board: {first[:80]}")

    def _finish(self, text: bytes) -> None:
        """Looks at a finished log."""
        self._check_beginning(text)
        path = self.folder / "finished.log"
        path.write_bytes(text)
        check_commands(self.clients.meant, standing(text), True)
        self.count.rides += check_promises(text, read_fleet(str(self.city.programs.fleet)))
        check_audit(self.city.programs, path)
        self.count.days += 1
        self.count.lines += text.count(b"\n")


def check_audit(programs: Programs, log: Path) -> None:
    """Raises Wrong where an audit does not say of a log that it is right and finished."""
    check_yes("the audit", programs.auditing(log))


def check_yes(who: str, words: list[str]) -> None:
    """Raises Wrong where an auditor that is run by these words does not say that a log is right and finished."""
    status, said = run(words)
    if status != 0 or not (said.startswith(b"yes ") and said.endswith(b" finished yes\n")):
        raise Wrong(f"{who} says '{said.decode().strip()}' with status {status}")
