#!/usr/bin/env python3
"""Reads a trip log line by line and keeps what stands: each vehicle's plan and each request's state.

    log = TripLog()
    for line in open("morning.log"):
        entry = log.read(line)
    print(log.clock, log.requests[105].state, log.vehicles[4].stops)

A log alone tells plans, versions and states, and where a vehicle is once it has reported. Where vehicles stand at the
start, and the settings `lead` and `dwell`, are in the fleet file: with `TripLog(read_fleet("fleet.txt"))` each vehicle's
`at` and `ready` are those of the program too. Without it `at` is None until a report, and `ready` the least that it can be.

Nothing is judged here but what a reader needs: a line of another form, an id that was never accepted, a version or a
stop that is not due raise LogError. Whether a log is right is for `ride_dispatch audit`.

As a program, `trip_log.py LOG [FLEET [MAP]]` prints what stands at the log's end; `--help` says more.
"""
import enum
from collections import Counter
from dataclasses import dataclass, field
from typing import Dict, List, Optional, Tuple

from log_lines import (Batch, Commit, Entry, LogError, Outcome, Seat, committed_batch, entry_of, head_of, number_of,
                       opened_batch)

# What others read of a log they import from here.
__all__ = ["Batch", "Commit", "DEFAULTS", "Entry", "Fleet", "FleetError", "LogError", "Outcome", "Request", "Seat", "State", "Stop",
           "TripLog", "Vehicle", "committed_batch", "opened_batch", "read_fleet", "read_log"]


class FleetError(ValueError):
    """A line of a fleet file that is none, with its number."""

    def __init__(self, line: int, what: str):
        super().__init__(f"line {line}: {what}")
        self.line, self.what = line, what


class State(enum.Enum):
    """What has become of an accepted request."""
    WAITING = "waiting"
    IN_BATCH = "in a batch"
    CONFIRMED = "confirmed"
    ABOARD = "aboard"
    DONE = "done"
    AWAY = "away"
    CANCELLED = "cancelled"


@dataclass
class Request:
    """An accepted request. Times are the log's, None where that has not happened."""
    id: int
    origin: int
    destination: int
    seats: int
    latest: int
    longest: int
    chairs: int
    asked_at: int
    state: State = State.WAITING
    vehicle: Optional[int] = None
    confirmed_at: Optional[int] = None
    picked_at: Optional[int] = None
    dropped_at: Optional[int] = None
    broken: bool = False

    def waits(self) -> bool:
        """Returns whether the rider has neither a seat nor an answer that closes the request."""
        return self.state in (State.WAITING, State.IN_BATCH)


@dataclass(frozen=True)
class Stop:
    """A stop of a plan: a pickup or a drop-off of a request, at a node."""
    request: int
    pickup: bool
    node: int


@dataclass
class Vehicle:
    """A vehicle with its plan: its rides in order of confirmation, and its stops in the order in which it drives. Its seats and
    places for wheelchairs are those of the fleet file, and 0 without one."""
    id: int
    at: Optional[int] = None
    ready: int = 0
    on_duty: bool = True
    version: int = 0
    rides: List[int] = field(default_factory=list)
    stops: List[Stop] = field(default_factory=list)
    seats: int = 0
    chairs: int = 0


@dataclass
class Fleet:
    """What a fleet file says: its settings, and its vehicles in fleet order."""
    settings: Dict[str, int]
    vehicles: List[Vehicle]


DEFAULTS = {"batch": 32, "penalty": 3600, "drive": 1, "wait": 0, "lead": 0, "dwell": 0, "log": 1}


def read_fleet(path: str) -> Fleet:
    """Returns the settings and vehicles of a fleet file that the program accepts. Raises FleetError at a line of another form."""
    fleet = Fleet(dict(DEFAULTS), [])
    with open(path, encoding="utf-8", errors="replace") as lines:
        for number, line in enumerate(lines, 1):
            fields = line.split()
            if not fields or fields[0].startswith("#"):
                continue
            try:
                take_fleet_line(fleet, fields)
            except FleetError as wrong:
                raise FleetError(number, wrong.what) from wrong
            except (ValueError, IndexError) as wrong:
                raise FleetError(number, f"no line of a fleet file: {line.strip()[:60]}") from wrong
    return fleet


def take_fleet_line(fleet: Fleet, fields: List[str]) -> None:
    """Adds a line's setting or vehicle to the fleet."""
    if fields[0] == "set" and len(fields) == 3:
        if fields[1] not in DEFAULTS:
            raise FleetError(0, f"no such setting: {fields[1]}")
        fleet.settings[fields[1]] = number_of(fields[2])
    elif fields[0] == "vehicle" and len(fields) in (5, 6):
        number, seats, node, ready, chairs = (number_of(text) for text in (fields[1:] + ["0"])[:5])
        fleet.vehicles.append(Vehicle(id=number, at=node, ready=ready, seats=seats, chairs=chairs))
    else:
        raise ValueError


class TripLog:
    """What stands after the lines that were read."""

    def __init__(self, fleet: Optional[Fleet] = None):
        self.settings = dict(fleet.settings if fleet else DEFAULTS)
        self.vehicles: Dict[int, Vehicle] = {v.id: v for v in fleet.vehicles} if fleet else {}
        self.requests: Dict[int, Request] = {}
        self.open_batches: Dict[int, Batch] = {}
        self.clock = 0
        self.lines = 0
        self.version = self.feeds = self.desks = 0
        self.asked = self.opened = 0
        self.abandoned = 0
        self.ended: Dict[str, str] = {}
        self.outcomes: Counter = Counter()
        self.replies: Counter = Counter()

    def read(self, line: str) -> Optional[Entry]:
        """Takes the next line; returns its entry, None for the head."""
        self.lines += 1
        if not line.endswith("\n"):
            raise self.error("the line is cut")
        try:
            if self.lines == 1:
                self.version, self.feeds, self.desks = head_of(line.split())
                return None
            entry = entry_of(self.lines, line.split())
            self._take(entry)
            return entry
        except LogError:
            raise
        except (ValueError, IndexError, KeyError, TypeError) as cause:
            what = "no line of a log" if self.lines > 1 else "no head of a log"
            raise self.error(f"{what}: {line.strip()[:80]}") from cause

    def waiting(self) -> List[int]:
        """Returns the requests that wait or are in an open batch, in order of acceptance."""
        return [request.id for request in self.requests.values() if request.waits()]

    def finished(self) -> bool:
        """Returns whether all ended whole, each batch that was asked for was opened, and none is open or was given up."""
        actors = [f"f{n + 1}" for n in range(self.feeds)] + [f"d{n + 1}" for n in range(self.desks)]
        whole = all(self.ended.get(actor) == "end" for actor in actors)
        return whole and self.opened == self.asked and not self.open_batches and not self.abandoned

    def totals(self) -> str:
        """Returns the totals as an audit that says yes prints them."""
        return (f"entries {self.lines - 1} confirmed {self.outcomes['confirmed']} away {self.outcomes['away']} "
                f"picked {self.replies['picked']} dropped {self.replies['dropped']} finished {'yes' if self.finished() else 'no'}")

    def error(self, what: str) -> LogError:
        """Returns a fault of the line that was read last."""
        return LogError(self.lines, what)

    # What entries change.

    def _take(self, entry: Entry) -> None:
        if entry.batch:
            self._open(entry.batch)
        elif entry.commit:
            self._commit(entry.commit)
        elif entry.kind == "abandon":
            self._abandon(entry.numbers[0])
        elif entry.kind in ("end", "cut"):
            self.ended[entry.actor] = entry.kind
        elif entry.kind != "bad":
            self.replies[entry.reply] += 1
            if entry.reply != "refused":
                getattr(self, "_" + entry.reply)(entry)

    def _waiting(self, entry: Entry) -> None:
        numbers = entry.numbers
        if numbers[0] in self.requests:
            raise self.error(f"request {numbers[0]} was accepted before")
        chairs = numbers[6] if len(numbers) == 7 else 0
        self.requests[numbers[0]] = Request(*numbers[:6], chairs=chairs, asked_at=self.clock)

    def _cancelled(self, entry: Entry) -> None:
        self._request(entry.numbers[0]).state = State.CANCELLED

    def _freed(self, entry: Entry) -> None:
        request = self._request(entry.numbers[0])
        vehicle = self._vehicle(entry.said[0])
        if request.id not in vehicle.rides:
            raise self.error(f"vehicle {vehicle.id} has no ride {request.id}")
        vehicle.rides.remove(request.id)
        vehicle.stops = [stop for stop in vehicle.stops if stop.request != request.id]
        vehicle.version += 1
        request.state = State.CANCELLED

    def _onmap(self, entry: Entry) -> None:
        vehicle = self._vehicle(entry.numbers[0])
        vehicle.at, vehicle.ready = entry.numbers[1:]
        vehicle.version += 1

    def _late(self, entry: Entry) -> None:
        self._onmap(entry)
        for broken in entry.said[1:]:
            self._request(broken).broken = True

    def _picked(self, entry: Entry) -> None:
        vehicle, request = self._served(entry, pickup=True)
        request.state, request.picked_at = State.ABOARD, vehicle.ready
        vehicle.ready += self.settings["dwell"]

    def _dropped(self, entry: Entry) -> None:
        vehicle, request = self._served(entry, pickup=False)
        request.state, request.dropped_at = State.DONE, vehicle.ready
        vehicle.rides.remove(request.id)
        vehicle.ready += self.settings["dwell"]

    def _served(self, entry: Entry, pickup: bool) -> Tuple[Vehicle, Request]:
        """Takes the first stop away and returns its vehicle and request. It has to be the one that the reply names."""
        vehicle, request = self._vehicle(entry.numbers[0]), self._request(entry.said[0])
        if not vehicle.stops or (vehicle.stops[0].request, vehicle.stops[0].pickup) != (request.id, pickup):
            raise self.error(f"vehicle {vehicle.id} has another first stop")
        vehicle.at = vehicle.stops.pop(0).node
        vehicle.version += 1
        return vehicle, request

    def _duty(self, entry: Entry) -> None:
        vehicle = self._vehicle(entry.numbers[0])
        vehicle.on_duty = entry.kind == "on"
        vehicle.version += 1

    def _now(self, entry: Entry) -> None:
        self.clock = entry.said[0]

    def _asked(self, entry: Entry) -> None:
        self.asked = entry.said[0]

    def _open(self, batch: Batch) -> None:
        for vehicle, version in batch.plans.items():
            if self._vehicle(vehicle).version != version:
                raise self.error(f"vehicle {vehicle} has version {self._vehicle(vehicle).version}, not {version}")
        for request in batch.requests:
            self._request(request).state = State.IN_BATCH
        self.open_batches[batch.number] = batch
        self.opened += 1

    def _commit(self, commit: Commit) -> None:
        batch = self._closed(commit.number)
        seats = {seat.request: seat for seat in commit.seats}
        for number, outcome in commit.outcomes.items():
            self.outcomes[outcome.word] += 1
            request = self._request(number)
            if outcome.word == "confirmed":
                self._confirm(request, seats[number], batch.time)
            elif outcome.word == "away":
                request.state = State.AWAY
            elif outcome.word in ("moved", "behind"):
                request.state = State.WAITING

    def _confirm(self, request: Request, seat: Seat, time: int) -> None:
        vehicle = self._vehicle(seat.vehicle)
        stops = vehicle.stops
        if not 0 <= seat.pickup <= seat.dropoff <= len(stops):
            raise self.error(f"vehicle {vehicle.id} has {len(stops)} stops, and no places {seat.pickup} and {seat.dropoff}")
        if not stops:
            vehicle.ready = max(vehicle.ready, time + self.settings["lead"])
        pickup = Stop(request.id, True, request.origin)
        dropoff = Stop(request.id, False, request.destination)
        vehicle.stops = stops[:seat.pickup] + [pickup] + stops[seat.pickup:seat.dropoff] + [dropoff] + stops[seat.dropoff:]
        vehicle.rides.append(request.id)
        vehicle.version += 1
        request.state, request.vehicle, request.confirmed_at = State.CONFIRMED, vehicle.id, self.clock

    def _abandon(self, number: int) -> None:
        self.abandoned += 1
        for request in self._closed(number).requests:
            if self._request(request).state == State.IN_BATCH:
                self._request(request).state = State.WAITING

    def _closed(self, number: int) -> Batch:
        if number not in self.open_batches:
            raise self.error(f"batch {number} is not open")
        return self.open_batches.pop(number)

    def _request(self, number: int) -> Request:
        if number not in self.requests:
            raise self.error(f"request {number} was not accepted")
        return self.requests[number]

    def _vehicle(self, number: int) -> Vehicle:
        return self.vehicles.setdefault(number, Vehicle(number))


def read_log(path: str, fleet: Optional[Fleet] = None) -> TripLog:
    """Returns what stands at a log's end."""
    log = TripLog(fleet)
    with open(path, encoding="utf-8", errors="replace") as lines:
        for line in lines:
            log.read(line)
    return log


if __name__ == "__main__":
    from log_report import main  # which reads by this module, so that it cannot be imported before
    from player.files import run_main
    run_main(main)
