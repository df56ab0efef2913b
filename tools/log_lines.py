"""The lines of a trip log, each as an entry. What entries change is told by trip_log.py."""
from dataclasses import dataclass
from typing import Dict, List, Optional, Sequence, Tuple

MOST_DIGITS = 18  # of a number
MOST_ACTORS = 2  # feeds, and desks

# How many numbers each command has. A request has seven in a log of version 2.
COMMANDS = {"request": (6, 7), "cancel": (1,), "at": (3,), "done": (1,), "on": (1,), "off": (1,), "clock": (1,), "batch": (0,)}
REPLIES = {"waiting": 0, "cancelled": 0, "freed": 1, "onmap": 0, "late": 1, "picked": 1, "dropped": 1, "duty": 0, "now": 1,
           "asked": 1, "refused": 1}
OUTCOMES = {"confirmed": 0, "away": 0, "gone": 0, "moved": 2, "behind": 2}
ACTORS = ("f1", "f2", "d1", "d2")


class LogError(ValueError):
    """A line that the lines before it do not allow, with its number."""

    def __init__(self, line: int, what: str):
        super().__init__(f"line {line}: {what}")
        self.line, self.what = line, what


@dataclass(frozen=True)
class Batch:
    """An opened batch: its requests, and the version of each vehicle's plan that it is priced with."""
    number: int
    desk: str
    time: int
    requests: Tuple[int, ...]
    plans: Dict[int, int]


@dataclass(frozen=True)
class Seat:
    """A seat of a commit: the pickup stands directly before old place `pickup` of the plan, the drop-off before `dropoff`."""
    request: int
    vehicle: int
    pickup: int
    dropoff: int


@dataclass(frozen=True)
class Outcome:
    """What became of a request: confirmed, away, gone, moved or behind. Moved and behind have two numbers."""
    word: str
    numbers: Tuple[int, ...] = ()


@dataclass(frozen=True)
class Commit:
    """A committed batch."""
    number: int
    cost: int
    seats: Tuple[Seat, ...]
    prices: Dict[int, int]
    pays: Dict[int, int]
    outcomes: Dict[int, Outcome]


@dataclass(frozen=True)
class Entry:
    """A line of the log after the head.

    `kind` is the word of the command, or bad, open, commit, abandon, end or cut. `reply` is the first word of a command's
    reply and `said` its numbers; of a late report those are the seconds and then the rides that it breaks.
    """
    line: int
    actor: str
    kind: str
    numbers: Tuple[int, ...] = ()
    reply: str = ""
    said: Tuple[int, ...] = ()
    batch: Optional[Batch] = None
    commit: Optional[Commit] = None


def number_of(text: str) -> int:
    """Returns the number that a field spells. Raises ValueError where it spells none."""
    if not (text.isascii() and text.isdigit() and len(text) <= MOST_DIGITS):
        raise ValueError(text)
    return int(text)


def head_of(fields: Sequence[str]) -> Tuple[int, int, int]:
    """Returns the version, the number of feeds and that of desks. Raises ValueError where the line is no head."""
    if list(fields[0::2]) != ["log", "feeds", "desks"] or len(fields) != 6:
        raise ValueError
    version, feeds, desks = (number_of(text) for text in fields[1::2])
    if not (1 <= version <= 2 and 1 <= feeds <= MOST_ACTORS and 1 <= desks <= MOST_ACTORS):
        raise ValueError
    return version, feeds, desks


def entry_of(line: int, fields: Sequence[str]) -> Entry:
    """Returns the entry of a line. Raises ValueError, IndexError or KeyError where it is none."""
    actor, kind, rest = fields[0], fields[1], fields[2:]
    if actor not in ACTORS:
        raise ValueError
    if kind in ("end", "cut"):
        return Entry(line, actor, kind)
    if kind in ("bad", "abandon"):
        return Entry(line, actor, kind, (number_of(rest[0]),))
    if kind == "open":
        return Entry(line, actor, kind, batch=opened_batch(actor, rest))
    if kind == "commit":
        return Entry(line, actor, kind, commit=committed_batch(rest))
    return command_of(line, fields)


def command_of(line: int, fields: Sequence[str]) -> Entry:
    """Returns the entry of a command with its reply."""
    actor, kind, rest = fields[0], fields[1], list(fields[2:])
    place = rest.index("=")
    numbers = tuple(number_of(text) for text in rest[:place])
    reply, said = rest[place + 1], rest[place + 2:]
    if reply == "late" and len(said) > 1 and said[1] == "broken":
        said = said[:1] + said[2:]
    elif REPLIES[reply] != len(said):
        raise ValueError
    if len(numbers) not in COMMANDS[kind]:
        raise ValueError
    return Entry(line, actor, kind, numbers, reply, tuple(number_of(text) for text in said))


def lists_of(fields: Sequence[str], words: Sequence[str]) -> List[Sequence[str]]:
    """Returns the lists of items that begin by these words, in this order."""
    places = [fields.index(word) for word in words] + [len(fields)]
    if places != sorted(places):
        raise ValueError
    return [fields[begin + 1:end] for begin, end in zip(places, places[1:])]


def opened_batch(actor: str, fields: Sequence[str]) -> Batch:
    """Returns the batch of an opening."""
    number, word, time = fields[:3]
    if word != "at":
        raise ValueError
    requests, plans = lists_of(fields, ["requests", "plans"])
    versions = (plan.split("@") for plan in plans)
    return Batch(number_of(number), actor, number_of(time), tuple(number_of(request) for request in requests),
                 {number_of(vehicle): number_of(version) for vehicle, version in versions})


def amounts(items: Sequence[str]) -> Dict[int, int]:
    """Returns items `KEY:AMOUNT` by their keys."""
    return {number_of(key): number_of(value) for key, value in (item.split(":") for item in items)}


def outcomes_of(items: Sequence[str]) -> Dict[int, Outcome]:
    """Returns the outcomes of a commit by request."""
    said = {}
    for item in items:
        request, word, *numbers = item.split(":")
        if OUTCOMES[word] != len(numbers):
            raise ValueError
        said[number_of(request)] = Outcome(word, tuple(number_of(text) for text in numbers))
    return said


def committed_batch(fields: Sequence[str]) -> Commit:
    """Returns a commit."""
    number, word, cost = fields[:3]
    if word != "cost":
        raise ValueError
    seats, prices, pays, outcomes = lists_of(fields, ["seats", "prices", "pays", "outcomes"])
    return Commit(number_of(number), number_of(cost), tuple(Seat(*(number_of(text) for text in seat.split(":"))) for seat in seats),
                  amounts(prices), amounts(pays), outcomes_of(outcomes))
