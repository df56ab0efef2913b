"""Riders who ask: read from a feed or from a table with times, and asking again where they are turned away.

A feed's `clock` lines are the times of the requests behind them; a booking asks at its release. A table has a line of column names
first: `time`, `from` and `to`, and where wanted `id`, `seats`, `chairs`, `latest`, `longest` and `cancel`; columns are parted by commas,
tabs or blanks. A time is seconds or HH:MM or HH:MM:SS.
"""
import random
from dataclasses import dataclass
from typing import Dict, List, Optional, Tuple

from player.files import MOST_TIME, InputError, read_lines
from player.roads import Roads

COLUMNS = ("time", "from", "to", "id", "seats", "chairs", "latest", "longest", "cancel")
NEEDED = ("time", "from", "to")
MOST_NUMBER = 10 ** 12  # of a rider, so that there is room for the numbers of those who ask again


@dataclass(frozen=True)
class Rider:
    """A rider's wish. Times are seconds: when it is asked, the latest pickup, the longest ride, and when it is cancelled."""
    id: int
    asks: int
    origin: int
    destination: int
    seats: int
    chairs: int
    latest: int
    longest: int
    cancels: Optional[int] = None

    def line(self, number: int) -> str:
        """Returns the rider's request under a number of its own."""
        chairs = f" {self.chairs}" if self.chairs else ""
        return f"request {number} {self.origin} {self.destination} {self.seats} {self.latest} {self.longest}{chairs}"


@dataclass(frozen=True)
class Limits:
    """What holds for riders of a table that says no limits: the most seconds of waiting, and of a ride beyond the fastest way."""
    wait: int = 600
    detour: int = 600


def read_riders(path: str, roads: Roads, limits: Limits) -> Tuple[List[Rider], int]:
    """Returns the riders of a feed or a table in order of asking, and how many lines of a feed are left out, as they are drivers' or
    faulty. Raises InputError where nobody asks."""
    lines = read_lines(path)
    first = next((split(line) for line in lines if line.strip() and not line.lstrip().startswith("#")), [])
    if set(NEEDED) <= set(first):
        riders, left_out = riders_of_table(path, lines, roads, limits), 0
    else:
        riders, left_out = riders_of_feed(path, lines, roads.nodes)
    if not riders:
        raise InputError(f"{path}: nobody asks (no `request` line, and no table with columns {', '.join(NEEDED)})")
    return sorted(riders, key=lambda rider: rider.asks), left_out


def split(line: str) -> List[str]:
    """Returns the fields of a table's line."""
    return [field.strip() for field in line.split(",")] if "," in line else line.split()


# Feeds.

def riders_of_feed(path: str, lines: List[str], nodes: int) -> Tuple[List[Rider], int]:
    """Returns the riders of a feed, and how many lines are left out."""
    clock, left_out = 0, 0
    riders: Dict[int, Rider] = {}
    for line in lines:
        fields = line.split()
        if not fields or fields[0].startswith("#"):
            continue
        try:
            word, numbers = fields[0], [int(field) for field in fields[1:]]
            if word == "clock":
                clock = max(clock, numbers[0])
            elif word == "batch":
                pass
            elif word == "cancel":
                riders[numbers[0]] = with_cancel(riders[numbers[0]], clock)
            elif word == "unbook" and riders[numbers[0]].asks > clock:
                del riders[numbers[0]]
            else:
                rider = asked_rider(word, numbers, clock, nodes)
                riders.setdefault(rider.id, rider)
        except (ValueError, IndexError, KeyError):
            left_out += 1
    return list(riders.values()), left_out


def with_cancel(rider: Rider, moment: int) -> Rider:
    """Returns the rider who cancels at a moment, or has done so earlier."""
    return rider if rider.cancels is not None else Rider(**{**rider.__dict__, "cancels": max(moment, rider.asks)})


def asked_rider(word: str, numbers: List[int], clock: int, nodes: int) -> Rider:
    """Returns the rider of a line `request ..` or `book RELEASE ..`. Raises ValueError where it is another line, or one that the program
    refuses."""
    asks = clock
    if word == "book":
        asks, numbers = max(clock, numbers[0]), numbers[1:]
    elif word != "request":
        raise ValueError
    number, origin, destination, seats, latest, longest, *chairs = numbers
    wanted = chairs[0] if len(chairs) == 1 else 0
    if len(chairs) > 1 or not seemly(origin, destination, seats, wanted, nodes) or longest < 1:
        raise ValueError
    return Rider(number, asks, origin, destination, seats, wanted, latest, longest)


def seemly(origin: int, destination: int, seats: int, chairs: int, nodes: int) -> bool:
    """Returns whether the program would take a request from and to these nodes, of so many seats and places for wheelchairs."""
    on_map = 1 <= origin <= nodes and 1 <= destination <= nodes and origin != destination
    return on_map and 0 <= seats <= 8 and 0 <= chairs <= 4 and seats + chairs > 0


# Tables.

def riders_of_table(path: str, lines: List[str], roads: Roads, limits: Limits) -> List[Rider]:
    """Returns the riders of a table. Raises InputError at its first faulty line."""
    names: List[str] = []
    riders: List[Rider] = []
    seen = set()
    for number, line in enumerate(lines, 1):
        if not line.strip() or line.lstrip().startswith("#"):
            continue
        if not names:
            names = split(line)
            if unknown := [name for name in names if name not in COLUMNS]:
                raise InputError(f"{path}:{number}: no such column: {unknown[0]} (there are {', '.join(COLUMNS)})")
            continue
        try:
            rider = table_rider(dict(zip(names, split(line), strict=True)), len(riders) + 1, roads, limits)
        except (ValueError, KeyError) as fault:
            raise InputError(f"{path}:{number}: no rider of the columns {', '.join(names)}: {line.strip()[:60]}") from fault
        if rider.id in seen:
            raise InputError(f"{path}:{number}: id {rider.id} stands twice")
        seen.add(rider.id)
        riders.append(rider)
    return riders


def table_rider(row: Dict[str, str], number: int, roads: Roads, limits: Limits) -> Rider:
    """Returns the rider of a table's row, the number-th. Raises ValueError or KeyError where it is none."""
    asks, origin, destination = seconds_of(row["time"]), int(row["from"]), int(row["to"])
    seats, chairs = int(row.get("seats") or 1), int(row.get("chairs") or 0)
    if not seemly(origin, destination, seats, chairs, roads.nodes):
        raise ValueError
    latest = seconds_of(row["latest"]) if row.get("latest") else asks + limits.wait
    longest = int(row.get("longest") or 0) or (roads.seconds(origin, destination) or 1) + limits.detour
    cancels = seconds_of(row["cancel"]) if row.get("cancel") else None
    number = int(row.get("id") or number)
    if not (1 <= number <= MOST_NUMBER and 1 <= longest <= MOST_TIME and max(asks, latest, cancels or 0) <= MOST_TIME):
        raise ValueError
    return Rider(number, asks, origin, destination, seats, chairs, latest, longest, cancels)


def seconds_of(text: str) -> int:
    """Returns the seconds of a time: plain, or HH:MM or HH:MM:SS. Raises ValueError where it is none."""
    parts = [int(part) for part in text.split(":")]
    if len(parts) > 3 or any(part < 0 for part in parts) or any(part > 59 for part in parts[1:]):
        raise ValueError
    if len(parts) == 1:
        return parts[0]
    return sum(part * unit for part, unit in zip(parts, (3600, 60, 1)))


# Asking.

def again_step(riders: List[Rider]) -> int:
    """Returns the power of ten above all riders' numbers: a rider's request number is the rider's and a multiple of it."""
    return 10 ** len(str(max(rider.id for rider in riders)))


class Office:
    """The riders' office: who asks or cancels when. A rider who is turned away asks again after some seconds, under a new number, until
    the latest pickup has passed; a share of the riders does so.

    `again` is None where nobody asks again.
    """

    def __init__(self, riders: List[Rider], again: Optional[int], share: float, draw: random.Random):
        self.step = again_step(riders)
        self.again = again
        self.riders = {rider.id: rider for rider in riders}
        self.asking_again = {rider.id for rider in riders if draw.random() < share} if again else set()
        self._plan: List[Tuple[int, int, int, str]] = []  # the next line last; requests before cancellations of their second
        for rider in riders:
            self._plan.append((rider.asks, 0, rider.id, rider.line(rider.id)))
            if rider.cancels is not None:
                self._plan.append((rider.cancels, 1, rider.id, f"cancel {rider.id}"))
        self._plan.sort(reverse=True)

    def next_moment(self) -> Optional[int]:
        """Returns when somebody asks or cancels next, None where nobody does."""
        return self._plan[-1][0] if self._plan else None

    def due(self, now: int) -> List[Tuple[int, str]]:
        """Takes and returns the lines that are due, with their times, in order."""
        lines = []
        while self._plan and self._plan[-1][0] <= now:
            moment, _, _, line = self._plan.pop()
            lines.append((moment, line))
        return lines

    def turned_away(self, number: int, now: int) -> None:
        """A request was turned away: its rider may ask again."""
        rider = self.riders[number % self.step]
        if rider.id not in self.asking_again or now + self.again > rider.latest:
            return
        if rider.cancels is not None and rider.cancels <= now + self.again:
            return
        self._insert(now + self.again, rider, number + self.step)

    def _insert(self, moment: int, rider: Rider, number: int) -> None:
        entry = (moment, 0, rider.id, rider.line(number))
        place = len(self._plan)
        while place > 0 and self._plan[place - 1] < entry:
            place -= 1
        self._plan.insert(place, entry)
