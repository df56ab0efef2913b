"""The figures of a log: what came of riders and vehicles, taken entry by entry.

A rider's wait is from asking to pickup, the delay aboard what a ride takes beyond the fastest way. Driven are the seconds between a
vehicle's reports while it has a plan, and of an idle one those of the fastest way between them. Riders are counted, not their seats.
"""
import math
from collections import Counter
from dataclasses import asdict, dataclass, field
from typing import Dict, List, Optional, Sequence, Tuple

from player.insertion import Plan, PlanBook
from player.roads import Roads
from trip_log import Batch, Commit, Entry, State, TripLog

FATES = {State.DONE: "served", State.ABOARD: "aboard", State.CONFIRMED: "promised", State.AWAY: "away", State.CANCELLED: "cancelled",
         State.WAITING: "waiting", State.IN_BATCH: "waiting"}
MOST_BATCHES = 2000  # that the program takes in a session
REASONS = ("no vehicle", "too far", "no place", "too dear", "outbid")


@dataclass(frozen=True)
class Scope:
    """What is counted: riders who asked from `since` until before `until`, and what vehicles did within these seconds.

    `again` is the number from which on request numbers are a rider's further ones: two requests whose numbers differ by a multiple
    of it are one rider's. `reasons` asks why riders were turned away, which takes longest.
    """
    since: int = 0
    until: int = 10 ** 10
    again: Optional[int] = None
    reasons: bool = True


@dataclass
class Course:
    """What a vehicle has done so far: where it was last, and since when it is busy and off duty."""
    at: int
    ready: int
    aboard: List[int] = field(default_factory=list)
    busy_since: Optional[int] = None
    off_since: Optional[int] = None


@dataclass(frozen=True)
class BatchNote:
    """A batch: its time, cost, number of requests, how many were seated, away and stale, and the sum of its prices."""
    number: int
    time: int
    cost: int
    requests: int
    seated: int
    away: int
    stale: int
    prices: int


class Collector:
    """Collects a log's figures. `log` has taken each entry before `take` does, and none before the first."""

    def __init__(self, roads: Roads, log: TripLog, scope: Scope):
        self.roads, self.log, self.scope = roads, log, scope
        self.courses = {v.id: Course(v.at, v.ready) for v in log.vehicles.values()}
        self.book = PlanBook(roads, log)
        self.seconds: Counter = Counter()
        self.pooled = set()
        self.reasons: Dict[int, str] = {}
        self.late_seconds = self.freed = 0
        self.batches: List[BatchNote] = []
        self.begin: Optional[int] = None
        self._opened: Dict[int, Tuple[int, List[Plan]]] = {}

    def take(self, entry: Entry) -> None:
        """Counts an entry."""
        if self.begin is None and entry.kind == "request" and entry.reply != "refused":
            self.begin = self.log.clock
        if entry.batch:
            self._open(entry.batch)
        elif entry.commit:
            self._commit(entry.commit)
        elif entry.reply in ("onmap", "late"):
            self._report(entry)
        elif entry.reply in ("picked", "dropped"):
            self._serve(entry)
        elif entry.reply == "freed":
            self.freed += 1
            self._settle(entry.said[0])
        elif entry.reply == "duty":
            self._duty(entry)

    # Vehicles.

    def _add(self, kind: str, begin: int, end: int, times: int = 1) -> None:
        """Adds the seconds of an interval that are within the scope."""
        seconds = min(end, self.scope.until) - max(begin, self.scope.since)
        if seconds > 0:
            self.seconds[kind] += seconds * times

    def _course(self, number: int) -> Course:
        vehicle = self.log.vehicles[number]
        return self.courses.setdefault(number, Course(vehicle.at, vehicle.ready))

    def _report(self, entry: Entry) -> None:
        number, node, time = entry.numbers
        course = self._course(number)
        if entry.reply == "late":
            self.late_seconds += entry.said[0]
        if node != course.at:
            begin = course.ready
            if not self.log.vehicles[number].stops:
                way = self.roads.seconds(course.at, node)
                begin = time if way is None else max(begin, time - way)
                self._add("ahead", begin, time)
            self._add("driven", begin, time)
            self._add("aboard", begin, time, len(course.aboard))
            self._add("shared" if len(course.aboard) > 1 else "alone" if course.aboard else "empty", begin, time)
        course.at, course.ready = node, time

    def _serve(self, entry: Entry) -> None:
        number, request = entry.numbers[0], entry.said[0]
        course = self._course(number)
        if entry.reply == "picked":
            if course.aboard:
                self.pooled.update(course.aboard + [request])
            course.aboard.append(request)
        else:
            course.aboard.remove(request)
        self._settle(number)

    def _settle(self, number: int) -> None:
        """Takes over where a vehicle is after an entry, and notes whether its plan has begun or ended."""
        vehicle, course = self.log.vehicles[number], self._course(number)
        course.at, course.ready = vehicle.at, vehicle.ready
        if vehicle.stops and course.busy_since is None:
            course.busy_since = vehicle.ready
        elif not vehicle.stops and course.busy_since is not None:
            self._add("busy", course.busy_since, max(vehicle.ready, course.busy_since))
            course.busy_since = None

    def _duty(self, entry: Entry) -> None:
        course = self._course(entry.numbers[0])
        if entry.kind == "off" and course.off_since is None:
            course.off_since = self.log.clock
        elif entry.kind == "on" and course.off_since is not None:
            self._add("off", course.off_since, self.log.clock)
            course.off_since = None

    # Batches.

    def _open(self, batch: Batch) -> None:
        if self.scope.reasons:
            plans = [plan for plan in self.book.plans() if plan.is_open(batch.time)]
            self._opened[batch.number] = batch.time, plans

    def _commit(self, commit: Commit) -> None:
        words = Counter(outcome.word for outcome in commit.outcomes.values())
        time = self.log.clock
        if commit.number in self._opened:
            time, plans = self._opened.pop(commit.number)
            for number, outcome in commit.outcomes.items():
                if outcome.word == "away" and self._is_counted(self._asked_at(number)):
                    self.reasons[number] = self._reason(number, time, plans)
        for number in self.log.vehicles:
            self._settle(number)
        self.batches.append(BatchNote(commit.number, time, commit.cost, len(commit.outcomes), words["confirmed"], words["away"],
                                      words["moved"] + words["behind"], sum(commit.prices.values())))

    def _reason(self, number: int, time: int, plans: Sequence[Plan]) -> str:
        """Returns why a request of a batch was turned away, by the plans of the vehicles that were open."""
        ride = self.book.ride(number)
        if not plans:
            return "no vehicle"
        near = [plan for plan in plans if self.book.reaches(plan, ride, time)]
        if not near:
            return "too far"
        penalty, any_offer = self.log.settings["penalty"], False
        for plan in near:
            if offer := self.book.best_offer(plan, ride, time, 1 << 60):
                any_offer = True
                if offer.cost < penalty:
                    return "outbid"
        return "too dear" if any_offer else "no place"

    # Riders.

    def _rider(self, number: int) -> int:
        return number % self.scope.again if self.scope.again else number

    def _asked_at(self, number: int) -> int:
        """Returns when a request's rider asked first."""
        first = self.log.requests.get(self._rider(number))
        return (first or self.log.requests[number]).asked_at

    def _is_counted(self, asked_at: int) -> bool:
        return self.scope.since <= asked_at < self.scope.until

    def riders(self) -> Dict[int, int]:
        """Returns the riders who count, each with the last request."""
        last: Dict[int, int] = {}
        for number, request in self.log.requests.items():
            if self._is_counted(self._asked_at(number)):
                last[self._rider(number)] = number
        return last

    def figures(self) -> "Figures":
        """Returns what was collected, at the log's end."""
        self._close()
        figures = Figures()
        last = self.riders()
        requests = [self.log.requests[number] for number in last.values()]
        figures.riders = Counter(FATES[request.state] for request in requests)
        figures.asked = len(requests)
        figures.requests = sum(self._is_counted(self._asked_at(number)) for number in self.log.requests)
        figures.reasons = Counter(self.reasons[number] for number in last.values() if number in self.reasons
                                  and self.log.requests[number].state == State.AWAY)
        for request in requests:
            if request.picked_at is not None:
                figures.waits.append((request.picked_at, request.picked_at - self._asked_at(request.id)))
            if request.dropped_at is not None:
                way = self.roads.seconds(request.origin, request.destination) or 0
                figures.ways.append(way)
                figures.delays.append(request.dropped_at - request.picked_at - way)
                figures.delays_in_all.append(request.dropped_at - self._asked_at(request.id) - way)
                figures.pooled += request.id in self.pooled
        figures.broken = sum(request.broken for request in requests)
        figures.seconds = self.seconds
        figures.late, figures.late_seconds, figures.freed = self.log.replies["late"], self.late_seconds, self.freed
        figures.moved, figures.behind = self.log.outcomes["moved"], self.log.outcomes["behind"]
        figures.refused = self.log.replies["refused"]
        figures.used_up = self.log.asked >= MOST_BATCHES and figures.riders["waiting"] > 0
        figures.batches = [note for note in self.batches if self._is_counted(note.time)]
        figures.totals = self.log.totals()
        return figures

    def _close(self) -> None:
        """Ends what lasts at the log's end, and counts the seconds on duty from the first request to the log's last clock."""
        end = self.log.clock
        for course in self.courses.values():
            if course.busy_since is not None:
                self._add("busy", course.busy_since, max(end, course.busy_since))
            if course.off_since is not None:
                self._add("off", course.off_since, end)
            course.busy_since = course.off_since = None
            self._add("duty", self.begin or 0, end)


@dataclass
class Figures:
    """The figures of a log. `waits` has each pickup's time and wait, `seconds` those of all vehicles together by kind."""
    asked: int = 0
    requests: int = 0
    riders: Counter = field(default_factory=Counter)
    reasons: Counter = field(default_factory=Counter)
    waits: List[Tuple[int, int]] = field(default_factory=list)
    delays: List[int] = field(default_factory=list)
    delays_in_all: List[int] = field(default_factory=list)
    ways: List[int] = field(default_factory=list)
    pooled: int = 0
    broken: int = 0
    late: int = 0
    late_seconds: int = 0
    freed: int = 0
    moved: int = 0
    behind: int = 0
    refused: int = 0
    seconds: Counter = field(default_factory=Counter)
    batches: List[BatchNote] = field(default_factory=list)
    used_up: bool = False
    totals: str = ""

    def batch_rows(self) -> List[Dict[str, int]]:
        """Returns each batch: its time, cost, requests, how many were seated, away and stale, and the sum of their prices."""
        return [asdict(note) for note in self.batches]

    def values(self) -> Dict[str, object]:
        """Returns all figures by name, numbers rounded as they are printed, None where there is nothing to divide by."""
        return {**self._rider_values(), **self._vehicle_values(), **self._batch_values()}

    def _rider_values(self) -> Dict[str, object]:
        waits, served = sorted(wait for _, wait in self.waits), self.riders["served"]
        return {
            "riders asked": self.asked,
            "requests, with those asked again": self.requests,
            "served": served,
            "served, %": share(served, self.asked),
            "aboard or promised at the end": self.riders["aboard"] + self.riders["promised"],
            "away": self.riders["away"],
            "away, %": share(self.riders["away"], self.asked),
            **{f"away: {reason}": self.reasons[reason] for reason in REASONS},
            "cancelled": self.riders["cancelled"],
            "still waiting at the end": self.riders["waiting"],
            "wait, mean s": mean(waits),
            "wait, median s": nth(waits, 0.5),
            "wait, 9 of 10 within s": nth(waits, 0.9),
            "delay aboard, mean s": mean(self.delays),
            "delay aboard, 9 of 10 within s": nth(sorted(self.delays), 0.9),
            "delay in all, mean s": mean(self.delays_in_all),
            "fastest way, mean s": mean(self.ways),
            "pooled, % of served": share(self.pooled, served),
        }

    def _vehicle_values(self) -> Dict[str, object]:
        driven, duty = self.seconds["driven"], self.seconds["duty"] - self.seconds["off"]
        return {
            "driven, s": driven,
            "driven a served rider, s": ratio(driven, self.riders["served"], 0),
            "riders aboard a driven second": ratio(self.seconds["aboard"], driven, 2),
            "empty seconds": self.seconds["empty"],
            "empty, % of driven": share(self.seconds["empty"], driven),
            "sent ahead, s": self.seconds["ahead"],
            "busy, % of duty": share(self.seconds["busy"], duty),
            "late reports": self.late,
            "late, s": self.late_seconds,
            "broken promises": self.broken,
            "seats cancelled": self.freed,
            "refused commands": self.refused,
        }

    def _batch_values(self) -> Dict[str, object]:
        return {
            "batches": len(self.batches),
            "cost of a batch, mean": mean([note.cost for note in self.batches]),
            "price of a request, mean": ratio(sum(n.prices for n in self.batches), sum(n.requests for n in self.batches), 1),
            "stale pairs, moved": self.moved,
            "stale pairs, behind": self.behind,
        }


def share(part: int, whole: int) -> Optional[float]:
    """Returns so many of a hundred, to a tenth."""
    return round(100 * part / whole, 1) if whole else None


def ratio(part: int, whole: int, digits: int) -> Optional[float]:
    """Returns a quotient, to so many digits, a whole number where those are 0."""
    return round(part / whole, digits or None) if whole else None


def mean(values: Sequence[int]) -> Optional[float]:
    """Returns the mean, to a tenth."""
    return round(sum(values) / len(values), 1) if values else None


def nth(values: Sequence[int], part: float) -> Optional[int]:
    """Returns the least of sorted values that a part of them, at least, does not pass."""
    return values[max(math.ceil(len(values) * part) - 1, 0)] if values else None
