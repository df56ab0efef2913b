"""What stands in a zone by its stream of the log: the state that every web server has, read from the stream alone."""
import json
from collections import Counter, OrderedDict, deque
from dataclasses import dataclass, field
from typing import Any, Deque, Dict, List, Optional, Set, Tuple

from trip_log import Commit, Entry, Fleet, TripLog

from control_room.messages import is_of_message


# So many answers, batches, late reports and lines are remembered.
ANSWERS = 50_000
BATCHES = 40
LATE = 60
LINES = 30


@dataclass(frozen=True)
class Answer:
    """The line of the kept log that answers a message, with its number; `name` is who said the message, and its id."""
    name: str
    number: int
    line: str
    entry: Entry

    @property
    def code(self) -> Optional[int]:
        """The program's code where it refused, else None."""
        return self.entry.said[0] if self.entry.reply == "refused" else None


@dataclass
class BatchView:
    """A batch for the office: when it was opened (the day's second), how long it took by the clock of life, and what came of it."""
    number: int
    time: int
    requests: int
    opened: int
    cost: Optional[int] = None
    took: Optional[int] = None
    prices: Dict[int, int] = field(default_factory=dict)
    pays: Dict[int, int] = field(default_factory=dict)
    outcomes: Dict[str, int] = field(default_factory=dict)


@dataclass(frozen=True)
class LateReport:
    """A report that made a vehicle later: at which second of the day, by how many, and which promises broke."""
    clock: int
    vehicle: int
    seconds: int
    broken: Tuple[int, ...]


class ZoneView:
    """What stands after the lines that were read. Each line counts once, however often it is told."""

    def __init__(self, fleet: Fleet):
        self.log = TripLog(fleet)
        self.answers: "OrderedDict[str, Answer]" = OrderedDict()
        self.owners: Dict[int, str] = {}
        self.asked_by: Dict[str, List[int]] = {}
        self.moves: Dict[int, Tuple[int, int]] = {}
        self.heard: Dict[int, int] = {}
        self.away: Dict[int, str] = {}
        self.batches: "OrderedDict[int, BatchView]" = OrderedDict()
        self.late: Deque[LateReport] = deque(maxlen=LATE)
        self.lines: Deque[str] = deque(maxlen=LINES)
        self.feed_lines: Counter = Counter()
        self.changed_vehicles: Set[int] = set()
        self.changed_requests: Set[int] = set()
        self.moment = 0
        self.marks = 0

    def take(self, body: bytes) -> List[Answer]:
        """Takes the stream's next message. Returns the answers to messages that are new in it."""
        said = json.loads(body)
        if said["first"] > self.log.lines + 1:
            return []  # A line before it is still to come: the bridge tells it again.
        self.moment = said["moment"]
        new = []
        for number, text in enumerate(said["lines"], said["first"]):
            if number == self.log.lines + 1:
                answer = self._line(number, text, said["of"].get(str(number)))
                if answer:
                    new.append(answer)
        return new

    def _line(self, number: int, text: str, origin: Any) -> Optional[Answer]:
        self.lines.append(text[:300])
        places = {vehicle: (self.log.vehicles[vehicle].at, self.log.vehicles[vehicle].ready) for vehicle in self._reporting(text)}
        entry = self.log.read(text + "\n")
        if entry is None:
            return None
        self.feed_lines[entry.actor] += 1
        self.marks += entry.kind == "cancel" and not is_of_message(entry.kind, entry.numbers)
        self._note(entry, places)
        if not origin:
            return None
        return self._answered(Answer(f"{origin[1]} {origin[0]}", number, text, entry), origin[1])

    def _answered(self, answer: Answer, who: str) -> Optional[Answer]:
        """Keeps the first answer to a message; one that was sent again is answered by a bad line, which tells nothing."""
        if answer.name in self.answers:
            return None
        self.answers[answer.name] = answer
        if len(self.answers) > ANSWERS:
            self.answers.popitem(last=False)
        if answer.entry.kind == "request" and answer.entry.reply == "waiting":
            request = answer.entry.numbers[0]
            self.owners[request] = who
            self.asked_by.setdefault(who, []).append(request)
        return answer

    def answer_to(self, who: str, message: str) -> Optional[Answer]:
        """Returns the answer to a message of somebody, None where it is not on the kept log."""
        return self.answers.get(f"{who} {message}")

    @staticmethod
    def _reporting(text: str) -> List[int]:
        fields = text.split(" ", 3)
        return [int(fields[2])] if len(fields) > 3 and fields[1] == "at" and not text.endswith("refused 10") else []

    def _note(self, entry: Entry, places: Dict[int, Tuple[Optional[int], int]]) -> None:
        if entry.batch:
            self._opened(entry)
        elif entry.commit:
            self._committed(entry.commit)
        elif entry.kind == "request" and entry.reply == "waiting":
            self.changed_requests.add(entry.numbers[0])
        elif entry.kind == "cancel" and entry.reply in ("cancelled", "freed"):
            self.changed_requests.add(entry.numbers[0])
            self.changed_vehicles.update(entry.said)
        elif entry.reply in ("onmap", "late", "picked", "dropped", "duty"):
            self._reported(entry, places)

    def _reported(self, entry: Entry, places: Dict[int, Tuple[Optional[int], int]]) -> None:
        number = entry.numbers[0]
        vehicle = self.log.vehicles[number]
        self.changed_vehicles.add(number)
        self.heard[number] = self.log.clock
        if entry.reply in ("onmap", "late"):
            at, ready = places.get(number, (vehicle.at, vehicle.ready))
            self.moves[number] = (at or vehicle.at or 0, ready)
        elif entry.reply in ("picked", "dropped"):
            self.changed_requests.add(entry.said[0])
        if entry.reply == "late":
            self.late.append(LateReport(self.log.clock, number, entry.said[0], entry.said[1:]))
            self.changed_requests.update(entry.said[1:])

    def _opened(self, entry: Entry) -> None:
        batch = entry.batch
        assert batch is not None
        self.batches[batch.number] = BatchView(batch.number, batch.time, len(batch.requests), self.moment)
        self.changed_requests.update(batch.requests)
        if len(self.batches) > BATCHES:
            self.batches.popitem(last=False)

    def _committed(self, commit: Commit) -> None:
        view = self.batches.get(commit.number)
        words = Counter(outcome.word for outcome in commit.outcomes.values())
        if view:
            view.cost, view.prices, view.pays, view.outcomes = commit.cost, commit.prices, commit.pays, dict(words)
            view.took = self.moment - view.opened
        for request, outcome in commit.outcomes.items():
            self.changed_requests.add(request)
            if outcome.word == "away":
                self.away[request] = away_reason(commit, self.log.settings["penalty"])
        self.changed_vehicles.update(seat.vehicle for seat in commit.seats if commit.outcomes[seat.request].word == "confirmed")

    def take_changes(self) -> Tuple[Set[int], Set[int]]:
        """Returns the vehicles and the requests that changed since this was last called."""
        changed = self.changed_vehicles, self.changed_requests
        self.changed_vehicles, self.changed_requests = set(), set()
        return changed

    def silent(self) -> List[Tuple[int, int]]:
        """Returns the vehicles that drive and are offered nothing, as their last report is before the clock, and since how many seconds."""
        return [(vehicle.id, self.log.clock - vehicle.ready) for vehicle in self.log.vehicles.values()
                if vehicle.stops and vehicle.ready < self.log.clock]


def away_reason(commit: Commit, penalty: int) -> str:
    """Returns what a commit allows to say of a rider who is away.

    The prices say it: for each vehicle the ride costs the penalty or more, or the vehicle has no room within all limits, where the
    vehicle pays nothing; where it pays, the ride may cost less by as much, and other riders of the batch were worth it.
    """
    if not commit.pays:
        return f"No vehicle could take this ride within all limits for less than {penalty}."
    named = ", ".join(str(vehicle) for vehicle in sorted(commit.pays))
    return (f"No vehicle could take this ride within all limits for less than {penalty}, but perhaps {named}, "
            "whose seats were worth more to other riders of the batch.")


