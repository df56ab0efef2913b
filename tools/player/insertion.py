"""The cheapest places of a new ride in a vehicle's plan, by the rules of dispatch that docs/formats.md and docs/guide.md tell.

A pair of places is priced by the legs that change, and a whole plan is judged only where that is below the best so far.
"""
from dataclasses import dataclass
from typing import Dict, List, NamedTuple, Optional, Sequence, Tuple

from player.roads import Roads
from trip_log import Stop, TripLog, Vehicle

MOST_STOPS = 16


class Ride(NamedTuple):
    """What a request wants, and when it was picked up."""
    id: int
    origin: int
    destination: int
    seats: int
    chairs: int
    latest: int
    longest: int
    picked: Optional[int] = None


class Offer(NamedTuple):
    """A vehicle's offer: its cost, and the places of pickup and drop-off."""
    cost: int
    pickup: int
    dropoff: int


@dataclass(frozen=True)
class Plan:
    """A vehicle as it stands at one version. `legs[k]` and `times[k]` are the seconds to stop k and the time there; an idle vehicle
    has neither."""
    vehicle: int
    at: int
    ready: int
    on_duty: bool
    seats: int
    chairs: int
    stops: Tuple[Stop, ...]
    rides: Dict[int, Ride]
    legs: Tuple[int, ...]
    times: Tuple[int, ...]

    def is_open(self, time: int) -> bool:
        """Returns whether it may take a ride in a batch of this time."""
        return self.on_duty and (not self.stops or self.ready >= time)

    def start(self, time: int, lead: int) -> int:
        """Returns when it would leave with a ride of a batch of this time."""
        return self.ready if self.stops else max(self.ready, time + lead)


class PlanBook:
    """The plans of a log's vehicles, made anew where a version has changed, and the offers that they make."""

    def __init__(self, roads: Roads, log: TripLog):
        self.roads, self.log = roads, log
        self.dwell, self.lead = log.settings["dwell"], log.settings["lead"]
        self.drive, self.wait = log.settings["drive"], log.settings["wait"]
        self._plans: Dict[int, Tuple[int, Plan]] = {}

    def plan(self, vehicle: Vehicle) -> Plan:
        """Returns the plan of a vehicle as it stands."""
        kept = self._plans.get(vehicle.id)
        if kept is None or kept[0] != vehicle.version:
            kept = self._plans[vehicle.id] = vehicle.version, self._made(vehicle)
        return kept[1]

    def plans(self) -> List[Plan]:
        """Returns all plans as they stand, in fleet order."""
        return [self.plan(vehicle) for vehicle in self.log.vehicles.values()]

    def ride(self, number: int) -> Ride:
        """Returns the ride of an accepted request."""
        request = self.log.requests[number]
        return Ride(number, request.origin, request.destination, request.seats, request.chairs, request.latest, request.longest,
                    request.picked_at)

    def _made(self, vehicle: Vehicle) -> Plan:
        legs, times, at, time = [], [], vehicle.at, vehicle.ready
        for stop in vehicle.stops:
            legs.append(self.roads.toward(stop.node).seconds[at])
            time += legs[-1] + (self.dwell if len(legs) > 1 else 0)
            times.append(time)
            at = stop.node
        return Plan(vehicle.id, vehicle.at, vehicle.ready, vehicle.on_duty, vehicle.seats, vehicle.chairs, tuple(vehicle.stops),
                    {number: self.ride(number) for number in vehicle.rides}, tuple(legs), tuple(times))

    def reaches(self, plan: Plan, ride: Ride, time: int) -> bool:
        """Returns whether an open vehicle would be at the pickup in time, if it drove there at once."""
        seconds = self.roads.toward(ride.origin).seconds[plan.at]
        return seconds >= 0 and plan.start(time, self.lead) + seconds <= ride.latest

    def best_offer(self, plan: Plan, ride: Ride, time: int, below: int) -> Optional[Offer]:
        """Returns the cheapest offer of an open vehicle at a batch's time, that of the first places; None where none is below `below`."""
        best, start, count = None, plan.start(time, self.lead), len(plan.stops)
        if count + 2 > MOST_STOPS:
            return None
        direct = self.roads.toward(ride.destination).seconds[ride.origin]
        if direct < 0:
            return None
        for i in range(count + 1):
            leaves = start if i == 0 else plan.times[i - 1] + self.dwell
            if leaves > ride.latest:
                break
            there = self._leg(plan, i, ride.origin)
            picked = leaves + there
            if there < 0 or picked > ride.latest:
                continue
            waited = self.wait * (picked - time)
            for j in range(i, count + 1):
                added = self._added(plan, ride, (i, j), there, direct)
                if added is None or (cost := self.drive * added + waited) >= below:
                    continue
                if self.keeps(plan, ride, (i, j), start):
                    best, below = Offer(cost, i, j), cost
        return best

    def _leg(self, plan: Plan, place: int, node: int) -> int:
        """Returns the seconds to a node from where the vehicle is before a place of its plan, -1 where no way leads there."""
        before = plan.stops[place - 1].node if place else plan.at
        return self.roads.toward(node).seconds[before]

    def _added(self, plan: Plan, ride: Ride, places: Tuple[int, int], there: int, direct: int) -> Optional[int]:
        """Returns the seconds that a ride adds to a plan at these places, None where a way is missing."""
        (i, j), count = places, len(plan.stops)
        toward = self.roads.toward
        added = there + (2 * self.dwell if count else self.dwell)
        if i == j:
            added += direct
        else:
            on = toward(plan.stops[i].node).seconds[ride.origin]
            back = self._leg(plan, j, ride.destination)
            if on < 0 or back < 0:
                return None
            added += on - plan.legs[i] + back
        if j < count:
            last = toward(plan.stops[j].node).seconds[ride.destination]
            if last < 0:
                return None
            added += last - plan.legs[j]
        return added

    def keeps(self, plan: Plan, ride: Ride, places: Tuple[int, int], start: int) -> bool:
        """Returns whether the vehicle keeps all limits with a ride at these places."""
        rides = {**plan.rides, ride.id: ride}
        return self.keeps_stops(plan, with_ride(plan.stops, ride, *places), rides, start)

    def keeps_stops(self, plan: Plan, stops: Sequence[Stop], rides: Dict[int, Ride], start: int) -> bool:
        """Returns whether these stops keep the limits of all rides and the vehicle's seats."""
        picked = {number: other.picked for number, other in rides.items() if other.picked is not None}
        seats = sum(rides[number].seats for number in picked)
        chairs = sum(rides[number].chairs for number in picked)
        time, at = start - self.dwell, plan.at
        for stop in stops:
            ride, leg = rides[stop.request], self.roads.toward(stop.node).seconds[at]
            time, at = time + self.dwell + leg, stop.node
            if leg < 0:
                return False
            if not stop.pickup:
                seats, chairs = seats - ride.seats, chairs - ride.chairs
                if time - picked[stop.request] > ride.longest:
                    return False
                continue
            picked[stop.request] = time
            seats, chairs = seats + ride.seats, chairs + ride.chairs
            if time > ride.latest or seats > plan.seats or chairs > plan.chairs:
                return False
        return True


def with_ride(stops: Sequence[Stop], ride: Ride, pickup: int, dropoff: int) -> Tuple[Stop, ...]:
    """Returns the stops with a ride's pickup before one old place and its drop-off before another."""
    stops = tuple(stops)
    first, last = Stop(ride.id, True, ride.origin), Stop(ride.id, False, ride.destination)
    return stops[:pickup] + (first,) + stops[pickup:dropoff] + (last,) + stops[dropoff:]
