"""The assignment of trips of Alonso-Mora et al. 2017, solved exactly: another dispatcher to compare with, for small evenings.

At each batch all riders who are not aboard yet are dealt anew, those too who were promised a pickup. Each vehicle has trips: sets of
riders whom it can serve within all limits, each by the best order of its stops, found by trying all. A mixed integer program
(scipy's `milp`, which is HiGHS) takes at most one trip a vehicle and each rider at most once, so that the sum of all delays is least;
a rider who is left out costs far more than any delay. Riders wait until their latest pickup has passed.

What differs from the article: trips have at most four riders who are not aboard; nothing is cut short by time, so that each
assignment is the least; idle vehicles are not sent to riders who were left out.
"""
import itertools
import time
from typing import Dict, FrozenSet, List, NamedTuple, Optional, Sequence, Tuple

import numpy
from scipy.optimize import Bounds, LinearConstraint, milp
from scipy.sparse import coo_matrix

from player.board import Board
from player.insertion import Ride
from player.roads import Roads
from trip_log import Commit, Entry, Fleet, Outcome, Seat, State, Stop, Vehicle

MOST_RIDERS = 4  # of a trip, beside those aboard
LEFT_OUT = 100_000  # what a rider costs who is left out, in seconds of delay
BROKEN = 10_000_000  # and one who was promised a pickup

Members = FrozenSet[int]


class Route(NamedTuple):
    """An order of stops, and the sum of its riders' delays in seconds."""
    delay: int
    stops: Tuple[Stop, ...]


class Router:
    """Finds the best order of a vehicle's stops by trying all that keep the limits."""

    def __init__(self, roads: Roads, dwell: int, rides: Dict[int, Ride], due: Dict[int, int]):
        self.roads, self.dwell, self.rides, self.due = roads, dwell, rides, due

    def best(self, vehicle: Vehicle, start: int, aboard: Sequence[int], more: Members) -> Optional[Route]:
        """Returns the order of least delay that drops who is aboard and serves more riders; None where none keeps all limits."""
        self._vehicle, self._best = vehicle, None
        self._picked = {number: self.rides[number].picked for number in aboard}
        load = sum(self.rides[number].seats for number in aboard)
        self._try(vehicle.at, start - self.dwell, 0, load, set(more), set(aboard), [])
        return self._best

    def _try(self, at: int, time_there: int, delay: int, load: int, to_pick: set, to_drop: set, stops: List[Stop]) -> None:
        if self._best and delay >= self._best.delay:
            return
        if not to_pick and not to_drop:
            self._best = Route(delay, tuple(stops))
            return
        if not self._can_keep(at, time_there + self.dwell, to_pick, to_drop):
            return
        for number in sorted(to_drop):
            ride = self.rides[number]
            arrives = time_there + self.dwell + self.roads.toward(ride.destination).seconds[at]
            stops.append(Stop(number, False, ride.destination))
            self._try(ride.destination, arrives, delay + arrives - self.due[number], load - ride.seats, to_pick, to_drop - {number}, stops)
            stops.pop()
        for number in sorted(to_pick):
            ride = self.rides[number]
            if load + ride.seats > self._vehicle.seats:
                continue
            arrives = time_there + self.dwell + self.roads.toward(ride.origin).seconds[at]
            self._picked[number] = arrives
            stops.append(Stop(number, True, ride.origin))
            self._try(ride.origin, arrives, delay, load + ride.seats, to_pick - {number}, to_drop | {number}, stops)
            stops.pop()

    def _can_keep(self, at: int, leaves: int, to_pick: set, to_drop: set) -> bool:
        """Returns whether each limit alone can still be kept, by the direct way."""
        for number in to_drop:
            ride = self.rides[number]
            if leaves + self.roads.toward(ride.destination).seconds[at] - self._picked[number] > ride.longest:
                return False
        return all(leaves + self.roads.toward(self.rides[number].origin).seconds[at] <= self.rides[number].latest for number in to_pick)


class Trips(Board):
    """The dispatcher that deals trips."""

    def __init__(self, roads: Roads, fleet: Fleet):
        super().__init__(roads, fleet, lambda book, ride, now: None)
        fleet.settings["batch"] = 10 ** 6
        self.log.settings["batch"] = 10 ** 6
        self._assigned: Dict[int, int] = {}

    def seat(self) -> Commit:
        """Deals all riders who are not aboard, turns away those whose latest pickup has passed, and returns both as a commit."""
        self._take(f"f1 batch = asked {self.log.asked + 1}")
        self.log.opened += 1
        began = time.process_time()
        outcomes = self._turn_away()
        pool = [request.id for request in self.log.requests.values() if request.state in (State.WAITING, State.CONFIRMED)]
        dealt = self._deal(pool)
        self.batch_seconds.append(time.process_time() - began)
        seats = []
        for vehicle, members, route in dealt:
            self._give(vehicle, members, route)
            seats += [Seat(number, vehicle.id, 0, 0) for number in sorted(members)]
        for seat in seats:
            outcomes[seat.request] = Outcome("confirmed")
        commit = Commit(self.log.asked, 0, tuple(seats), {}, {}, outcomes)
        entry = Entry(self.log.lines, "d1", "commit", commit=commit)
        for watch in self.watchers:
            watch(entry)
        return commit

    def _turn_away(self) -> Dict[int, Outcome]:
        outcomes = {}
        for number in self.log.waiting():
            request = self.log.requests[number]
            if request.latest < self.log.clock:
                request.state = State.AWAY
                self.log.outcomes["away"] += 1
                outcomes[number] = Outcome("away")
        return outcomes

    def _deal(self, pool: List[int]) -> List[Tuple[Vehicle, Members, Route]]:
        """Returns the vehicles whose plans are to be made anew, with their trips."""
        rides = {number: self.book.ride(number) for vehicle in self.log.vehicles.values() for number in vehicle.rides}
        rides.update({number: self.book.ride(number) for number in pool})
        due = {number: self._due(ride) for number, ride in rides.items()}
        router = Router(self.roads, self.log.settings["dwell"], rides, due)
        vehicles = [vehicle for vehicle in self.log.vehicles.values() if vehicle.on_duty]
        trips = [self._trips(router, vehicle, pool) for vehicle in vehicles]
        chosen = solved(trips, pool, {number: self.log.requests[number].state == State.CONFIRMED for number in pool})
        dealt = []
        for vehicle, options, members in zip(vehicles, trips, chosen):
            held = frozenset(number for number in vehicle.rides if rides[number].picked is None)
            if members != held:
                dealt.append((vehicle, members, options[members]))
        return dealt

    def _due(self, ride: Ride) -> int:
        """Returns when the rider could be there at the earliest."""
        return self.log.requests[ride.id].asked_at + self.roads.toward(ride.destination).seconds[ride.origin]

    def _trips(self, router: Router, vehicle: Vehicle, pool: List[int]) -> Dict[Members, Route]:
        """Returns all trips of a vehicle, the one without further riders among them."""
        start = vehicle.ready if vehicle.stops else max(vehicle.ready, self.log.clock + self.log.settings["lead"])
        aboard = [number for number in vehicle.rides if router.rides[number].picked is not None]
        trips = {frozenset(): router.best(vehicle, start, aboard, frozenset())}
        near = [number for number in pool
                if start + self.roads.toward(router.rides[number].origin).seconds[vehicle.at] <= router.rides[number].latest]
        found = {members: route for members in ({frozenset([number]) for number in near})
                 if (route := router.best(vehicle, start, aboard, members))}
        singles = sorted(number for members in found for number in members)
        size = 1
        while found and size < MOST_RIDERS:
            trips.update(found)
            wider = {members | {number} for members in found for number in singles if number not in members}
            size += 1
            found = {members: route for members in sorted(wider, key=sorted)
                     if all(frozenset(part) in trips for part in itertools.combinations(members, size - 1))
                     and (route := router.best(vehicle, start, aboard, members))}
        trips.update(found)
        return trips

    def _give(self, vehicle: Vehicle, members: Members, route: Route) -> None:
        """Makes a vehicle's plan anew."""
        log = self.log
        for number in vehicle.rides:
            request = log.requests[number]
            if request.state == State.CONFIRMED and self._assigned.get(number) == vehicle.id and number not in members:
                request.state = State.WAITING
        if not vehicle.stops:
            vehicle.ready = max(vehicle.ready, log.clock + log.settings["lead"])
        vehicle.stops = list(route.stops)
        aboard = [number for number in vehicle.rides if log.requests[number].state == State.ABOARD]
        vehicle.rides = aboard + sorted(members)
        vehicle.version += 1
        for number in members:
            request = log.requests[number]
            request.state, request.vehicle, request.confirmed_at = State.CONFIRMED, vehicle.id, log.clock
            self._assigned[number] = vehicle.id


def solved(trips: Sequence[Dict[Members, Route]], pool: Sequence[int], promised: Dict[int, bool]) -> List[Members]:
    """Returns the trip of each vehicle by which the sum of all delays is least."""
    none: Members = frozenset()
    place = {number: len(trips) + row for row, number in enumerate(pool)}
    columns = [(vehicle, members) for vehicle, options in enumerate(trips) for members in options if members]
    costs = [trips[vehicle][members].delay - trips[vehicle][none].delay for vehicle, members in columns]
    costs += [BROKEN if promised[number] else LEFT_OUT for number in pool]
    rows, cols = [], []
    for column, (vehicle, members) in enumerate(columns):
        for row in [vehicle] + [place[number] for number in members]:
            rows.append(row)
            cols.append(column)
    for number, column in zip(pool, range(len(columns), len(costs))):
        rows.append(place[number])
        cols.append(column)
    chosen = [none] * len(trips)
    if not columns:
        return chosen
    matrix = coo_matrix((numpy.ones(len(rows)), (rows, cols)), shape=(len(trips) + len(pool), len(costs))).tocsr()
    least = numpy.array([0] * len(trips) + [1] * len(pool))
    answer = milp(numpy.array(costs), constraints=LinearConstraint(matrix, least, 1), integrality=numpy.ones(len(costs)),
                  bounds=Bounds(0, 1), options={"mip_rel_gap": 0})
    if answer.x is None:
        raise RuntimeError(f"the solver found no assignment: {answer.message}")
    for (vehicle, members), value in zip(columns, answer.x):
        if value > 0.5:
            chosen[vehicle] = members
    return chosen
