"""The loop in which riders, drivers and a dispatcher meet, second by second.

At each second drivers report what is due, the riders' office sends the clock and who asks or cancels, and every so many seconds a
batch is asked for where somebody waits. The dispatcher answers each line before the next second begins, so that the same seed gives
the same history.
"""
from dataclasses import dataclass, field
from typing import Callable, List, Optional, Protocol, Sequence, Set

from player.ahead import Advisor
from player.drivers import Drivers
from player.riders import Office
from player.sessions import DRIVERS, RIDERS, SessionError
from trip_log import Commit, Entry, TripLog

LAST_DRIVE = 7200  # seconds after the last request at which drivers stop


class Dispatcher(Protocol):
    """What an evening is played against: a session of the program, or a rival of it."""
    log: TripLog
    watchers: List[Callable[[Entry], None]]
    most_batches: int

    def submit(self, feed: int, lines: Sequence[str]) -> List[Entry]:
        """Takes lines of a feed, and returns their answers."""

    def seat(self) -> Commit:
        """Makes a batch of those who wait, and returns its commit."""

    def end(self) -> None:
        """Ends the session."""


@dataclass
class Rules:
    """How an evening is played: the seconds between batches and between reports; `advisor` follows the log and gives orders ahead after
    a commit; `tell` is told each minute how far it is."""
    every: int = 30
    tick: int = 1
    advisor: Optional[Advisor] = None
    tell: Callable[[int, TripLog], None] = lambda now, log: None


@dataclass
class Evening:
    """An evening that is played against a dispatcher."""
    dispatcher: Dispatcher
    office: Office
    drivers: Drivers
    rules: Rules
    waiting: Set[int] = field(default_factory=set)

    def play(self) -> None:
        """Plays until all who asked have an answer and all vehicles are idle, and ends the session."""
        first = self.office.next_moment() or 0
        now = last = first // self.rules.tick * self.rules.tick
        while True:
            moment = self.office.next_moment()
            last = now if moment is not None or self.waiting else last
            if moment is None and (self._is_at_rest() or now > last + LAST_DRIVE):
                break
            self._second(now)
            now = self._next(now)
        self.dispatcher.end()

    def _next(self, now: int) -> int:
        """Returns the next second at which something may happen, by whole steps."""
        tick = self.rules.tick
        if self.waiting or self.drivers.are_moving():
            return now + tick
        moments = [moment for moment in (self.office.next_moment(), self.drivers.next_break()) if moment is not None]
        return now + max(tick, -(-(min(moments, default=now) - now) // tick) * tick)

    def _is_at_rest(self) -> bool:
        log = self.dispatcher.log
        is_full = log.asked >= self.dispatcher.most_batches
        return (not self.waiting or is_full) and not any(vehicle.stops for vehicle in log.vehicles.values())

    def _second(self, now: int) -> None:
        is_batch = now % self.rules.every < self.rules.tick
        self._hear_drivers(now)
        self._hear_riders(now, is_batch)
        if is_batch and self.waiting:
            self._seat(now)
        if now % 60 < self.rules.tick:
            self.rules.tell(now, self.dispatcher.log)

    def _hear_drivers(self, now: int) -> None:
        """Takes reports until every driver is on the way to a moment after now, or idle."""
        lines = self.drivers.all_reports(now)
        for entry, line in zip(self.dispatcher.submit(DRIVERS, lines), lines):
            if entry.reply == "refused":
                raise SessionError(f"a driver's report is refused by {entry.said[0]}: {line}")

    def _hear_riders(self, now: int, sets_clock: bool) -> None:
        """Sends who asks and cancels, each behind the clock, and where a batch may follow the clock of now."""
        lines, clock = [], self.dispatcher.log.clock
        for moment, line in self.office.due(now):
            if moment > clock:
                clock = moment
                lines.append(f"clock {clock}")
            lines.append(line)
        if sets_clock and clock < now:
            lines.append(f"clock {now}")
        if lines:
            for entry in self.dispatcher.submit(RIDERS, lines):
                self._note(entry)

    def _note(self, entry: Entry) -> None:
        if entry.reply == "waiting":
            self.waiting.add(entry.numbers[0])
        elif entry.reply == "cancelled":
            self.waiting.discard(entry.numbers[0])

    def _seat(self, now: int) -> None:
        """Makes batches until all who wait have been in one."""
        log = self.dispatcher.log
        rounds = -(-len(self.waiting) // log.settings["batch"])
        for _ in range(min(rounds, self.dispatcher.most_batches - log.asked)):
            commit = self.dispatcher.seat()
            if self.rules.advisor:
                self.drivers.obey(self.rules.advisor.last.orders(), now)
            for number, outcome in commit.outcomes.items():
                if outcome.word not in ("moved", "behind"):
                    self.waiting.discard(number)
                if outcome.word == "away":
                    self.office.turned_away(number, now)
