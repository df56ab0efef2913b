"""The board: what each command does, which batch is due, and what a commit makes of each request."""
from dataclasses import dataclass, field, replace
from itertools import islice

from certificate import Batch
from entries import Seats
from fleet_file import Settings
from offers import Market
from plans import Ride, Vehicle, broken, changed, insert, remove
from travel_times import TravelTimes

MOST_REQUESTS, MOST_ASKS, MOST_SEATS, MOST_CHAIRS = 100_000, 2_000, 8, 4
MOST_STAMP, MOST_LONGEST, MOST_READY = 10**9, 10**6, 10**9 + 3_600
WAITING, IN_BATCH, CONFIRMED, ABOARD, CLOSED = "waiting", "in batch", "confirmed", "aboard", "closed"


@dataclass
class Request:
    """An accepted request: its ride, its state, and the vehicle of a confirmed one."""

    ride: Ride
    state: str = WAITING
    vehicle: int = 0


def refusal(*cases: tuple[int, bool]) -> str:
    """Returns the refusal of the first case that applies, or an empty text."""
    return next((f"refused {code}" for code, applies in cases if applies), "")


@dataclass
class Board:
    """The state that the entries so far give; times are in seconds, vehicles stand by id in fleet order, requests by id in
    the order of acceptance."""

    settings: Settings
    roads: TravelTimes
    nodes: int
    vehicles: dict[int, Vehicle]
    clock: int = 0
    asked: int = 0
    opened: int = 0
    requests: dict[int, Request] = field(default_factory=dict)
    batches: dict[int, Batch] = field(default_factory=dict)

    def reply(self, word: bytes, numbers: tuple[int, ...]) -> str:
        """Carries out a feed's command and returns its reply; a refused command changes nothing."""
        if word in (b"at", b"done", b"on", b"off") and numbers[0] not in self.vehicles:
            return "refused 10"
        if word in (b"on", b"off"):
            self._change(replace(self.vehicles[numbers[0]], duty=word == b"on"))
            return "duty"
        return getattr(self, f"_{word.decode()}")(*numbers)

    def _request(self, name: int, origin: int, target: int, seats: int, latest: int, longest: int,
                 chairs: int = 0) -> str:
        refused = refusal((1, name in self.requests),
                          (2, not (1 <= origin <= self.nodes and 1 <= target <= self.nodes)),
                          (3, origin == target),
                          (4, seats > MOST_SEATS or chairs > MOST_CHAIRS or seats == chairs == 0),
                          (5, latest > MOST_STAMP or not 1 <= longest <= MOST_LONGEST),
                          (6, len(self.requests) == MOST_REQUESTS))
        if not refused:
            self.requests[name] = Request(Ride(name, origin, target, seats, chairs, latest, longest))
        return refused or "waiting"

    def _cancel(self, name: int) -> str:
        request = self.requests.get(name)
        if request is None:
            return "refused 7"
        was = request.state
        refused = refusal((8, was == ABOARD), (9, was == CLOSED))
        if refused:
            return refused
        request.state = CLOSED
        if was != CONFIRMED:
            return "cancelled"
        self._change(remove(self.vehicles[request.vehicle], name, self.roads))
        return f"freed {request.vehicle}"

    def _at(self, name: int, node: int, time: int) -> str:
        vehicle = self.vehicles[name]
        refused = refusal((11, not 1 <= node <= self.nodes), (5, time > MOST_STAMP), (12, time < vehicle.ready))
        moved = None if refused else changed(vehicle, self.roads, at=node, ready=time)
        if moved is None:
            return refused or "refused 13"
        self._change(moved)
        late = time + moved.legs[0] - vehicle.ready - vehicle.legs[0] if vehicle.stops else 0
        if late <= 0:
            return "onmap"
        rides = broken(moved, time, self.settings.dwell)
        return " ".join(map(str, ["late", late, *(["broken", *rides] if rides else [])]))

    def _done(self, name: int) -> str:
        vehicle = self.vehicles[name]
        if not vehicle.stops:
            return "refused 14"
        stop, ready = vehicle.stops[0], vehicle.ready + self.settings.dwell
        refused = refusal((15, vehicle.at != stop.node), (17, ready > MOST_READY))
        if refused:
            return refused
        rides = tuple(replace(ride, picked=vehicle.ready) if ride.id == stop.ride else ride
                      for ride in vehicle.rides if stop.pickup or ride.id != stop.ride)
        self._change(replace(vehicle, ready=ready, rides=rides, stops=vehicle.stops[1:], legs=vehicle.legs[1:]))
        self.requests[stop.ride].state = ABOARD if stop.pickup else CLOSED
        return f"{'picked' if stop.pickup else 'dropped'} {stop.ride}"

    def _clock(self, time: int) -> str:
        if time > MOST_STAMP:
            return "refused 5"
        self.clock = max(self.clock, time)
        return f"now {self.clock}"

    def _batch(self) -> str:
        if self.asked == MOST_ASKS:
            return "refused 16"
        self.asked += 1
        return f"asked {self.asked}"

    def _change(self, vehicle: Vehicle) -> None:
        self.vehicles[vehicle.id] = replace(vehicle, version=vehicle.version + 1)

    def due(self) -> dict[int, Ride]:
        """Returns the rides of the batch that is due: the first that wait."""
        waiting = (request.ride for request in self.requests.values() if request.state == WAITING)
        return {ride.id: ride for ride in islice(waiting, self.settings.batch)}

    def open_batch(self, desk: bytes) -> Batch:
        """Opens the batch that is due, over all vehicles as they stand, at the clock's time."""
        market = Market(self.settings, self.roads, self.clock)
        batch = Batch(self.opened + 1, desk, market, self.due(), dict(self.vehicles))
        self.opened += 1
        self.batches[self.opened] = batch
        for name in batch.rides:
            self.requests[name].state = IN_BATCH
        return batch

    def outcomes(self, batch: Batch, seats: Seats) -> dict[int, str]:
        """Returns what a commit of these seats makes of each request of the batch."""
        vehicles = {request: vehicle for request, vehicle, _, _ in seats}
        return {name: self._outcome(batch, name, vehicles.get(name)) for name in batch.rides}

    def _outcome(self, batch: Batch, name: int, vehicle: int | None) -> str:
        """Returns the first case that applies."""
        if self.requests[name].state == CLOSED:
            return "gone"
        if vehicle is None:
            return "away"
        copy, stands = batch.copies[vehicle], self.vehicles[vehicle].version
        if copy.version != stands:
            return f"moved:{copy.version}:{stands}"
        start = batch.market.start_of(copy)
        return f"behind:{start}:{self.clock}" if start < self.clock else "confirmed"

    def close(self, batch: Batch, seats: Seats, outcomes: dict[int, str]) -> None:
        """Carries out a commit of these seats and outcomes."""
        places = {seat[0]: seat[1:] for seat in seats}
        for name, outcome in outcomes.items():
            request = self.requests[name]
            if outcome == "away":
                request.state = CLOSED
            elif outcome == "confirmed":
                request.state, (request.vehicle, i, j) = CONFIRMED, places[name]
                copy = batch.copies[request.vehicle]
                started = replace(copy, ready=batch.market.start_of(copy))
                plan = insert(started, request.ride, i, j, self.roads)
                assert plan is not None  # as the seat has a cost
                self._change(plan)
        self.abandon(batch.number)

    def abandon(self, number: int) -> None:
        """Gives a batch up: those of its requests that are still in it wait again."""
        for name in self.batches.pop(number).rides:
            if self.requests[name].state == IN_BATCH:
                self.requests[name].state = WAITING
