"""A league of two companies as one dispatcher.

A league's text names the vehicle of each request that is won and not the places in its plan, so that drivers put a ride where it costs
least, the first of such places, as the program does. What stands is kept as the log of one fleet that has the vehicles of both
companies; that log is a session's to the letter, so that it can be audited where the vehicles of both are a lawful fleet.
"""
import os
from typing import Callable, List, Optional, Sequence, Tuple

from player.figures import MOST_BATCHES
from player.insertion import PlanBook
from player.roads import Roads
from player.sessions import CHUNK, RIDERS, Process, SessionError
from trip_log import Commit, Entry, Fleet, LogError, TripLog, Vehicle

SECOND = 1000  # is added to the numbers of the second company's vehicles


def of_both(first: Fleet, second: Fleet) -> Fleet:
    """Returns one fleet with the vehicles of both, and the settings of the first."""
    more = [Vehicle(v.id + SECOND, v.at, v.ready, seats=v.seats, chairs=v.chairs) for v in second.vehicles]
    return Fleet(dict(first.settings), list(first.vehicles) + more)


class League:
    """A running `league`, in step. `fleet` is that of both companies; its log is kept where a path is given."""

    def __init__(self, program: str, files: Sequence[str], roads: Roads, fleet: Fleet, kept: Optional[str] = None):
        map_path, first, second = files
        self.process = Process([program, "league", "--map", map_path, "--fleet", first, "--second", second], ["feed"])
        self._kept = open(kept or os.devnull, "w", encoding="utf-8")
        self.log = TripLog(fleet)
        self.book = PlanBook(roads, self.log)
        self.watchers: List[Callable[[Entry], None]] = []
        self.most_batches = MOST_BATCHES
        self.batch_seconds: List[float] = []
        self._line()
        self._take(f"log {fleet.settings['log']} feeds 2 desks 1")

    def submit(self, feed: int, lines: Sequence[str]) -> List[Entry]:
        """Writes lines, those of drivers as their company's, waits for their answers and returns them."""
        entries = []
        for begin in range(0, len(lines), CHUNK):
            chunk = lines[begin:begin + CHUNK]
            self.process.send(0, chunk if feed == RIDERS else [company_line(line) for line in chunk])
            for line in chunk:
                reply = self._line().rsplit(" = ", 1)[-1]
                entries.append(self._take(f"f{feed + 1} {line} = {reply}"))
        return entries

    def seat(self) -> Commit:
        """Makes a round, and returns it as a commit."""
        before = self.process.processors()
        self.process.send(0, ["batch"])
        fields = self._line().split()
        self.batch_seconds.append(self.process.processors() - before)
        if fields[0] != "round":
            raise SessionError(f"the league answers a batch by {' '.join(fields)[:60]}")
        awards, prices, pays, outcomes = parts_of(fields, ["awards", "prices", "pays", "outcomes"])
        number, cost, now = fields[1], fields[3], self.log.clock
        plans = " ".join(f"{vehicle.id}@{vehicle.version}" for vehicle in self.log.vehicles.values())
        requests = [outcome.split(":")[0] for outcome in outcomes]
        seats = [self._seat(award, now) for award in awards]
        self._take("f1 batch = asked " + number)
        self._take(" ".join(["d1 open", number, "at", str(now), "requests", *requests, "plans", plans]))
        said = [":".join(map(str, (merged(company, vehicle), pay))) for company, vehicle, pay in numbers_of(pays)]
        return self._take(" ".join(["d1 commit", number, "cost", cost, "seats", *seats, "prices", *prices, "pays", *said,
                                    "outcomes", *outcomes])).commit

    def end(self) -> None:
        """Ends the feed."""
        self.process.end()
        for actor in ("f1", "f2", "d1"):
            self._take(f"{actor} end")
        self._kept.close()

    def kill(self) -> None:
        """Gives the league up."""
        self.process.kill()
        self._kept.close()

    def _seat(self, award: str, now: int) -> str:
        request, company, number, _ = map(int, award.split(":"))
        vehicle = self.log.vehicles[merged(company, number)]
        offer = self.book.best_offer(self.book.plan(vehicle), self.book.ride(request), now, 1 << 60)
        if offer is None:
            raise SessionError(f"request {request} is won by vehicle {number} of company {company}, which has no place for it")
        return f"{request}:{vehicle.id}:{offer.pickup}:{offer.dropoff}"

    def _line(self) -> str:
        line = self.process.line()
        if not line:
            raise SessionError("the league ended before its feed did")
        return line.rstrip("\n")

    def _take(self, line: str) -> Optional[Entry]:
        self._kept.write(line + "\n")
        try:
            entry = self.log.read(line + "\n")
        except LogError as fault:
            raise SessionError(f"the league's line is not due: {line[:80]} ({fault})") from fault
        for watch in self.watchers if entry else ():
            watch(entry)
        return entry


def merged(company: int, vehicle: int) -> int:
    """Returns the number of a company's vehicle in the fleet of both."""
    return vehicle + SECOND * (company - 1)


def company_line(line: str) -> str:
    """Returns a driver's line as one of its company."""
    word, number, *rest = line.split()
    company = 2 if int(number) > SECOND else 1
    return " ".join(["company", str(company), word, str(int(number) - SECOND * (company - 1)), *rest])


def parts_of(fields: List[str], words: Sequence[str]) -> List[List[str]]:
    """Returns the lists of items behind these words."""
    places = [fields.index(word) for word in words] + [len(fields)]
    return [fields[begin + 1:end] for begin, end in zip(places, places[1:])]


def numbers_of(items: Sequence[str]) -> List[Tuple[int, ...]]:
    """Returns the numbers of items that are parted by colons."""
    return [tuple(map(int, item.split(":"))) for item in items]
