"""What the picture of a day shows, taken from its log entry by entry: rides, late reports, times off duty, who waits, batches, prices."""
from dataclasses import dataclass, field
from typing import Dict, List, Optional, Tuple

from log_reading import Reading
from player.figures import Collector, Scope, mean, nth
from trip_log import Commit, Entry, State, TripLog


@dataclass
class Bar:
    """A ride in its vehicle's lane, from its confirmation to its drop-off or cancellation. `latest` is the last second of its pickup."""
    request: int
    confirmed: int
    picked: Optional[int] = None
    end: Optional[int] = None
    cancelled: bool = False
    broken: bool = False
    latest: int = 0


@dataclass
class Batch:
    """A batch: its cost, and how many of its requests have each outcome."""
    number: int
    cost: int
    confirmed: int = 0
    away: int = 0
    moved: int = 0
    behind: int = 0
    gone: int = 0


@dataclass
class Day:
    """What the page shows. `off` has the spans off duty of each vehicle, of which the last may have no end. `late` has the vehicle,
    the second and how late of each late report; `waiting` how many wait from each moment on."""
    log: TripLog = field(default_factory=TripLog)
    bars: Dict[int, List[Bar]] = field(default_factory=dict)
    late: List[Tuple[int, int, int]] = field(default_factory=list)
    off: Dict[int, List[Tuple[int, Optional[int]]]] = field(default_factory=dict)
    waiting: List[Tuple[int, int]] = field(default_factory=list)
    wait_now: int = 0
    batches: List[Batch] = field(default_factory=list)
    seated_prices: List[int] = field(default_factory=list)
    other_prices: List[int] = field(default_factory=list)
    figures: Dict[str, object] = field(default_factory=dict)

    def bar(self, vehicle: int, request: int) -> Optional[Bar]:
        """Returns the bar of a ride, None where it was never confirmed there."""
        return next((bar for bar in reversed(self.bars.get(vehicle, [])) if bar.request == request), None)

    def span(self) -> Tuple[int, int]:
        """Returns the first time at which somebody waits and the last time of all."""
        times = [moment for moment, _ in self.waiting]
        for bars in self.bars.values():
            times += [moment for bar in bars for moment in (bar.confirmed, bar.picked, bar.end) if moment is not None]
        times += [moment for _, moment, _ in self.late]
        begin, end = (min(times), max(times)) if times else (0, 0)
        return begin, max(end, begin + 60)


def read_day(reading: Reading) -> Day:
    """Returns the day of a log. With the map all figures are taken, else those that the log alone tells. Raises InputError."""
    day = Day(reading.log)
    collector = Collector(reading.roads, reading.log, Scope(reasons=False)) if reading.roads else None
    for entry in reading.entries():
        note_entry(day, entry)
        if collector:
            collector.take(entry)
    day.figures = collector.figures().values() if collector else figures_of_log(reading.log)
    return day


def note_entry(day: Day, entry: Entry) -> None:
    """Notes what an entry shows."""
    if entry.commit:
        note_commit(day, entry.commit)
    elif entry.reply in ("waiting", "cancelled"):
        note_waiting(day, 1 if entry.reply == "waiting" else -1)
    elif entry.reply in ("freed", "picked", "dropped"):
        note_ride(day, entry)
    elif entry.reply == "late":
        note_late(day, entry)
    elif entry.reply == "duty":
        note_duty(day, entry)


def note_waiting(day: Day, more: int) -> None:
    """Notes that so many more wait."""
    day.wait_now += more
    day.waiting.append((day.log.clock, day.wait_now))


def note_commit(day: Day, commit: Commit) -> None:
    """Notes a batch, its rides and its prices."""
    batch = Batch(commit.number, commit.cost)
    for request, outcome in commit.outcomes.items():
        setattr(batch, outcome.word, getattr(batch, outcome.word) + 1)
        if outcome.word == "confirmed":
            ride = day.log.requests[request]
            day.bars.setdefault(ride.vehicle, []).append(Bar(request, day.log.clock, latest=ride.latest))
    day.batches.append(batch)
    note_waiting(day, -batch.confirmed - batch.away)
    seated = {seat.request for seat in commit.seats}
    for request, price in commit.prices.items():
        (day.seated_prices if request in seated else day.other_prices).append(price)


def note_ride(day: Day, entry: Entry) -> None:
    """Notes a pickup, a drop-off or a seat that is given back."""
    if entry.reply == "freed":
        bar = day.bar(entry.said[0], entry.numbers[0])
        if bar:
            bar.cancelled, bar.end = True, max(day.log.clock, bar.confirmed)
        return
    request = day.log.requests[entry.said[0]]
    bar = day.bar(entry.numbers[0], request.id)
    if bar and entry.reply == "picked":
        bar.picked = request.picked_at
    elif bar:
        bar.end = request.dropped_at


def note_late(day: Day, entry: Entry) -> None:
    """Notes a late report and the promises that it breaks."""
    vehicle, _, moment = entry.numbers
    day.late.append((vehicle, moment, entry.said[0]))
    for bar in (day.bar(vehicle, broken) for broken in entry.said[1:]):
        if bar:
            bar.broken = True


def note_duty(day: Day, entry: Entry) -> None:
    """Notes that a vehicle goes off duty or on."""
    spans = day.off.setdefault(entry.numbers[0], [])
    is_off = bool(spans) and spans[-1][1] is None
    if entry.kind == "off" and not is_off:
        spans.append((day.log.clock, None))
    elif entry.kind == "on" and is_off:
        spans[-1] = spans[-1][0], day.log.clock


def figures_of_log(log: TripLog) -> Dict[str, object]:
    """Returns the figures that a log tells without its map, by the names that player.figures gives them."""
    requests = list(log.requests.values())
    waits = sorted(request.picked_at - request.asked_at for request in requests if request.picked_at is not None)
    return {"riders asked": len(requests), "served": sum(request.state == State.DONE for request in requests),
            "wait, mean s": mean(waits), "wait, 9 of 10 within s": nth(waits, 0.9)}


def figures_text(figures: Dict[str, object]) -> str:
    """Returns the day's figures: a line of riders' waiting, and where they are known one of rides and driving."""
    parts = [f"served {figures['served']:,} of {figures['riders asked']:,} who asked"]
    if figures["wait, mean s"] is not None:
        parts.append(f"waiting {figures['wait, mean s']:,.0f} s in the mean, 9 of 10 at most {figures['wait, 9 of 10 within s']:,} s")
    more = []
    if figures.get("delay aboard, mean s") is not None:
        more.append(f"delay aboard {figures['delay aboard, mean s']:,.0f} s in the mean")
        more.append(f"{figures['pooled, % of served']} % of those served were pooled")
    if figures.get("driven, s"):
        more.append(f"driven {figures['driven, s']:,} s, of these {figures['empty seconds']:,} s empty ({figures['empty, % of driven']} %)")
    return "\n".join("; ".join(part) for part in (parts, more) if part)
