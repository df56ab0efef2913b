#!/usr/bin/env python3
"""Plays a morning in a made city against a running session by the clock, and audits its log.

    live_city.py PROGRAM [--side 12] [--vehicles 20] [--requests 150] [--minutes 45] [--speed 90] [--every 20]
                 [--workers 2] [--desks 1] [--seed 1] [--keep FOLDER]

A grid of crossings and a fleet are drawn, and `PROGRAM serve` is started on two named pipes. The office of the riders sends
requests, cancellations, the clock, and asks for a batch every so many seconds while somebody waits. The drivers know the map,
the fleet file and the log, and nothing else: each follows its vehicle's plan as the log has it, reports the next crossing
whenever one is reached, and each stop that is served. Now and then one is held up, and now and then one takes a break.

Riders, drivers and roads are those of play_day.py. There each second waits for its answers; here the clock waits for nobody, so that
what falls into an open batch differs from run to run.

`--speed` is how many seconds of the city's day pass in a second. At the end `PROGRAM audit` has to say yes of the log, and what
an operator wants to know of the morning is printed. With `--keep` the map, the fleet file, both feeds and the log stay in
FOLDER. The status is 0 where the audit says that the log is right and finished.
"""
import argparse
import os
import random
import statistics
import sys
import tempfile
import threading
import time
from typing import Callable, Dict, List, Optional, Sequence, Set

sys.path.insert(0, os.path.dirname(os.path.abspath(__file__)))
from player.drivers import Drivers, Habits  # noqa: E402
from player.files import Parser, run_main, whole, write_fleet  # noqa: E402
from player.riders import Office, Rider  # noqa: E402
from player.roads import Roads, grid_city  # noqa: E402
from player.sessions import Process, SessionError, audit, is_clean  # noqa: E402
from trip_log import Entry, Fleet, LogError, State, TripLog, Vehicle, read_fleet  # noqa: E402

BEGIN = 21_600  # six in the morning, in seconds of the day
SETTINGS = {"batch": 32, "penalty": 1800, "drive": 1, "wait": 1, "dwell": 15, "log": 1}
LEAD = 10  # idle vehicles leave after so many seconds of the city's day, and those that half a second takes
LATEST = 900  # a rider waits at most so many seconds for the pickup
LAST_DRIVE = 7_200  # after the last request drivers go on for at most so many seconds
CANCELS = 0.08  # of riders who cancel
HABITS = Habits(hold_ups=0.02, breaks=0.3)
TICK = 5  # the clock is sent at least every so many seconds of the city's day
FEEDS = ("riders", "drivers")


def made_fleet(roads: Roads, vehicles: int, speed: int, draw: random.Random) -> Fleet:
    """Returns a fleet of vehicles at drawn crossings."""
    stands = [Vehicle(number, seats=draw.choice([4, 4, 6]), at=draw.randint(1, roads.nodes), ready=BEGIN)
              for number in range(1, vehicles + 1)]
    return Fleet({**SETTINGS, "lead": LEAD + speed // 2}, stands)


def made_riders(roads: Roads, requests: int, seconds: int, draw: random.Random) -> List[Rider]:
    """Returns the riders of a morning of so many seconds; most ask in its middle."""
    riders = []
    for number in range(1, requests + 1):
        asks = BEGIN + int(draw.triangular(0, seconds))
        origin, destination = draw.sample(range(1, roads.nodes + 1), 2)
        longest = 2 * roads.seconds(origin, destination) + 300
        seats = draw.choice([1, 1, 1, 2])
        cancels = asks + draw.randint(10, 600) if draw.random() < CANCELS else None
        riders.append(Rider(number, asks, origin, destination, seats, 0, asks + LATEST, longest, cancels))
    return sorted(riders, key=lambda rider: rider.asks)


class Clock:
    """The city's time, which runs faster than the system's."""

    def __init__(self, speed: int):
        self.speed = speed
        self.began = time.monotonic()

    def now(self) -> int:
        """Returns the second of the city's day."""
        return BEGIN + int((time.monotonic() - self.began) * self.speed)

    def seconds_until(self, moment: float) -> float:
        """Returns the system's seconds until a moment of the city's day."""
        return max(0.0, (moment - BEGIN) / self.speed - (time.monotonic() - self.began))


class LiveSession:
    """A running session: its two feeds, and what stands by the log that it writes."""

    def __init__(self, program: str, folder: str, workers: int, desks: int):
        self.folder = folder
        words = [program, "serve", "--map", f"{folder}/map.gr", "--fleet", f"{folder}/fleet.txt",
                 "--workers", str(workers), "--desks", str(desks)]
        self.process = Process(words, FEEDS)
        self.changed = threading.Condition()
        self.log = TripLog(read_fleet(f"{folder}/fleet.txt"))
        self.over = self.riders_done = False
        self.unanswered: Set[int] = set()
        self.sent, self.answered = [0, 0], {"f1": 0, "f2": 0, "d1": 0, "d2": 0}
        self.opened_at: Dict[int, float] = {}
        self.desk_seconds: List[float] = []
        self.fault: Optional[Exception] = None
        self._kept = [open(f"{folder}/{name}.txt", "w", encoding="utf-8") for name in FEEDS]

    def send(self, feed: int, lines: Sequence[str]) -> None:
        """Writes lines to a feed, and keeps them."""
        self.sent[feed] += len(lines)
        self._kept[feed].writelines(line + "\n" for line in lines)
        self.process.send(feed, lines)

    def close(self, feed: int) -> None:
        """Ends a feed."""
        self._kept[feed].close()
        self.process.close(feed)

    def read_log(self) -> None:
        """Takes each line of the log as it comes, until the session ends."""
        with open(f"{self.folder}/log", "w", encoding="utf-8") as kept:
            while line := self.process.line():
                kept.write(line)
                with self.changed:
                    self._note(self.log.read(line))
                    self.changed.notify_all()
        with self.changed:
            self.over = True
            self.changed.notify_all()

    def _note(self, entry: Optional[Entry]) -> None:
        if entry is None:
            return
        self.answered[entry.actor] += 1
        if entry.actor == "f2" and entry.numbers:
            self.unanswered.discard(entry.numbers[0])
        if entry.batch:
            self.opened_at[entry.batch.number] = time.monotonic()
        if entry.commit:
            self.desk_seconds.append(time.monotonic() - self.opened_at[entry.commit.number])

    def at_rest(self) -> bool:
        """Returns whether each rider's line is answered, nobody waits, and every vehicle is idle. Called with `changed` held."""
        answered = self.answered["f1"] == self.sent[0]
        return answered and not self.log.waiting() and not any(vehicle.stops for vehicle in self.log.vehicles.values())

    def may_ask(self) -> bool:
        """Returns whether somebody waits for a batch and none is under way. Called with `changed` held."""
        return bool(self.log.waiting()) and self.log.asked == self.log.opened and not self.log.open_batches

    def wait(self, seconds: float) -> None:
        """Sleeps until the log grows, or for so many seconds. Called with `changed` held."""
        self.changed.wait(min(max(seconds, 0.001), 1.0))

    def guarded(self, play: Callable[[], None]) -> None:
        """Runs a thread's work; a fault of it ends the session."""
        try:
            play()
        except (SessionError, LogError, OSError, ValueError) as fault:
            with self.changed:
                self.fault = self.fault or fault
                self.over = True
                self.changed.notify_all()


def play_riders(session: LiveSession, clock: Clock, office: Office, every: int) -> None:
    """The office of the riders: their commands, the clock, and a batch every so many seconds while somebody waits."""
    next_batch, told, last_line = BEGIN + every, None, BEGIN
    while True:
        with session.changed:
            now = clock.now()
            asks = now >= next_batch and session.may_ask()
            is_over = office.next_moment() is None and (session.at_rest() or now > last_line + LAST_DRIVE)
            if session.over or is_over:
                session.riders_done = True
                session.changed.notify_all()
                break
        due = office.due(now)
        lines = [line for _, line in due]
        last_line = due[-1][0] if due else last_line
        if told is None or now >= told + TICK or asks or lines:
            told = now
            session.send(0, [f"clock {now}"] + lines + ["batch"] * asks)
        if asks:
            next_batch = now + every
        moments = [told + TICK, max(next_batch, now + 1)] + [moment for moment in [office.next_moment()] if moment is not None]
        time.sleep(min(clock.seconds_until(min(moments)), 0.2))
    session.close(0)


def play_drivers(session: LiveSession, clock: Clock, drivers: Drivers) -> None:
    """All drivers: each knows its plan by the log alone, and reports nothing new before its last report is answered there."""
    while True:
        with session.changed:
            if session.over or session.riders_done:
                break
            reports = drivers.reports(clock.now(), session.unanswered)
            session.unanswered.update(int(report.split()[1]) for report in reports)
            if not reports:
                due = [v.ready for v in session.log.vehicles.values() if v.stops and v.id not in session.unanswered]
                session.wait(clock.seconds_until(min(due)) if due else 0.2)
        if reports:
            session.send(1, reports)
    session.close(1)


def spread(seconds: Sequence[int]) -> str:
    """Returns the median, the ninth of ten, and the longest."""
    ordered = sorted(seconds)
    return f"median {statistics.median(ordered):.0f} s, 9 of 10 within {ordered[(len(ordered) * 9 - 1) // 10]} s, longest {ordered[-1]} s"


def report(log: TripLog, desk_seconds: Sequence[float], seconds: int) -> List[str]:
    """Returns what an operator wants to know of a morning of so many seconds."""
    requests = list(log.requests.values())
    states = {state: sum(request.state == state for request in requests) for state in State}
    picked = [request for request in requests if request.picked_at is not None]
    stale = log.outcomes["moved"] + log.outcomes["behind"]
    lines = [
        f"requests {len(requests)}: served {states[State.DONE]}, away {states[State.AWAY]}, cancelled {states[State.CANCELLED]}, "
        f"open {len(requests) - states[State.DONE] - states[State.AWAY] - states[State.CANCELLED]}",
        f"seated {log.outcomes['confirmed']} (of these {log.replies['freed']} cancelled later)",
    ]
    if picked:
        lines.append("from request to promise: " + spread([request.confirmed_at - request.asked_at for request in picked]))
        lines.append("from request to pickup: " + spread([request.picked_at - request.asked_at for request in picked]))
    lines.append(f"late reports {log.replies['late']}, rides with a broken promise {sum(request.broken for request in requests)}")
    lines.append(f"stale pairs {stale} (moved {log.outcomes['moved']}, behind {log.outcomes['behind']}), "
                 f"gone from an open batch {log.outcomes['gone']}")
    lines.append(f"batches {log.opened}, {log.opened * 3600 / max(seconds, 1):.0f} an hour of the city's day")
    if desk_seconds:
        middle = statistics.median(desk_seconds)
        lines.append(f"from an open to its commit: median {middle * 1000:.0f} ms, longest {max(desk_seconds) * 1000:.0f} ms")
    lines.append(f"reports {log.replies['onmap'] + log.replies['late']}, refused commands {log.replies['refused']}")
    return lines


def play(folder: str, wishes: argparse.Namespace) -> bool:
    """Plays a morning whose files stay in a folder; returns whether its audit says yes."""
    draw = random.Random(wishes.seed)
    roads = grid_city(wishes.side, draw)
    roads.write(f"{folder}/map.gr", f"a made city of {roads.nodes} crossings")
    write_fleet(f"{folder}/fleet.txt", made_fleet(roads, wishes.vehicles, wishes.speed, draw))
    riders = made_riders(roads, wishes.requests, wishes.minutes * 60, draw)
    session = LiveSession(wishes.program, folder, wishes.workers, wishes.desks)
    clock = Clock(wishes.speed)
    office = Office(riders, None, 0, draw)
    drivers = Drivers(roads, session.log, HABITS, random.Random(wishes.seed + 1))
    drivers.plan_breaks(BEGIN, BEGIN + wishes.minutes * 60)
    parts = [session.read_log, lambda: play_riders(session, clock, office, wishes.every), lambda: play_drivers(session, clock, drivers)]
    threads = [threading.Thread(target=session.guarded, args=(part,), daemon=True) for part in parts]
    for thread in threads:
        thread.start()
    for thread in threads[1:]:
        thread.join()
    if session.fault:
        session.process.kill()
        raise SessionError(f"the session was given up: {session.fault}")
    threads[0].join()
    session.process.end()
    print("\n".join(report(session.log, session.desk_seconds, session.log.clock - BEGIN)))
    said = audit(wishes.program, f"{folder}/map.gr", f"{folder}/fleet.txt", f"{folder}/log")
    print(f"audit: {said}")
    return is_clean(said, session.log)


def main(words: Sequence[str]) -> int:
    """Plays a morning; returns 0 where its audit says yes."""
    parser = Parser(
        description="Plays a morning in a made city against a running session by the clock, and audits its log.",
        epilog="live_city.py crates/ride_dispatch/out/ride_dispatch --side 8 --vehicles 8 --requests 40 --minutes 20 --speed 120")
    parser.add_argument("program", help="the built ride_dispatch")
    for name, value, range_of, meaning in (
            ("side", 12, whole(2, 700), "crossings of a side of the city"), ("vehicles", 20, whole(1, 1000), "vehicles"),
            ("requests", 150, whole(1, 100_000), "requests of the morning"), ("minutes", 45, whole(1, 1440), "minutes in which riders ask"),
            ("speed", 90, whole(1, 3600), "seconds of the city's day in a second"),
            ("every", 20, whole(1, 3600), "seconds of the city's day between batches"), ("workers", 2, whole(1, 16), "threads of a desk"),
            ("desks", 1, whole(1, 2), "desks"), ("seed", 1, whole(0, 10 ** 9), "of city, fleet, riders and drivers")):
        parser.add_argument(f"--{name}", type=range_of, default=value, help=f"{meaning} ({value})")
    parser.add_argument("--keep", metavar="FOLDER", help="the map, the fleet file, both feeds and the log stay there")
    wishes = parser.parse_args(words)
    if wishes.keep:
        os.makedirs(wishes.keep, exist_ok=True)
        return 0 if play(wishes.keep, wishes) else 1
    with tempfile.TemporaryDirectory() as folder:
        return 0 if play(folder, wishes) else 1


if __name__ == "__main__":
    run_main(main)
