"""Offers: at which places of its plan a vehicle can take a ride, and what that costs."""
from dataclasses import dataclass
from typing import Iterator

from fleet_file import Settings
from plans import Ride, Vehicle, driving, insert, keeps, nodes_of, times
from travel_times import Row, TravelTimes


@dataclass
class Market:
    """What offers of a batch depend on beside vehicle and ride: the settings, the roads, the batch's time in seconds."""

    settings: Settings
    roads: TravelTimes
    now: int

    def start_of(self, vehicle: Vehicle) -> int:
        """Returns the second from which the vehicle's plan is priced."""
        return vehicle.ready if vehicle.stops else max(vehicle.ready, self.now + self.settings.lead)

    def is_open(self, vehicle: Vehicle) -> bool:
        """Returns whether the vehicle may be offered a ride."""
        return vehicle.duty and (not vehicle.stops or vehicle.ready >= self.now)


def detour(vehicle: Vehicle, place: int, there: int, onward: Row) -> int:
    """Returns the driving seconds that a way of `there` seconds and the way onward from it add directly before this old
    place, more than all others where there is no way."""
    return there + (onward.to(vehicle.stops[place].node) - vehicle.legs[place] if place < len(vehicle.stops) else 0)


class Offers:
    """What the vehicles of a batch can offer for a ride."""

    def __init__(self, market: Market, ride: Ride) -> None:
        self.market, self.ride, self.settings = market, ride, market.settings
        self.to_origin, self.from_origin = market.roads.row(ride.origin, 1), market.roads.row(ride.origin, 0)
        self.to_target, self.from_target = market.roads.row(ride.target, 1), market.roads.row(ride.target, 0)

    def cost_at(self, vehicle: Vehicle, i: int, j: int) -> int | None:
        """Returns the cost of the offer at these places, or None where there is none: where the vehicle is not open,
        the places are not there, no way leads along the new plan, or some promise would break."""
        if not (0 <= i <= j <= len(vehicle.stops) and self.market.is_open(vehicle)):
            return None
        start, dwell = self.market.start_of(vehicle), self.settings.dwell
        plan = insert(vehicle, self.ride, i, j, self.market.roads)
        if plan is None or not keeps(plan, start, dwell):
            return None
        more, waiting = driving(plan, dwell) - driving(vehicle, dwell), times(plan, start, dwell)[i] - self.market.now
        return self.settings.drive * more + self.settings.wait * waiting

    def last_pickup(self, below: int) -> int:
        """Returns the last second at which a pickup is in time and its waiting alone costs less than `below`."""
        wait, latest = self.settings.wait, self.ride.latest
        return min(latest, self.market.now + (below - 1) // wait) if wait else latest

    def places_below(self, vehicle: Vehicle, below: int) -> Iterator[tuple[int, int, int]]:
        """Yields (cost, i, j) of places of an open vehicle: of all offers that cost less than `below`, and of some places
        at which a promise would break or no way leads.

        A later place picks up no earlier, and a drop-off never makes the driving less. So the pickup alone bounds what
        all drop-offs behind it cost.
        """
        start, last = self.market.start_of(vehicle), self.last_pickup(below)
        wait, drive, dwell = self.settings.wait, self.settings.drive, self.settings.dwell
        nodes = nodes_of(vehicle)
        drops: list[int] = []
        standing = drive * dwell * (2 if vehicle.stops else 1)
        for i, depart in enumerate([start, *(time + dwell for time in times(vehicle, start, dwell))]):
            to_pickup = self.to_origin.to(nodes[i])
            if depart + to_pickup > last:
                return
            fixed = standing + wait * (depart + to_pickup - self.market.now)
            pickup = detour(vehicle, i, to_pickup, self.from_origin)
            if fixed + drive * pickup >= below:
                continue
            drops = drops or [detour(vehicle, j, self.to_target.to(node), self.from_target) for j, node in enumerate(nodes)]
            both = detour(vehicle, i, to_pickup + self.to_target.to(self.ride.origin), self.from_target)
            costs = [fixed + drive * more for more in (both, *(pickup + drop for drop in drops[i + 1:]))]
            yield from ((cost, i, j) for j, cost in enumerate(costs, start=i) if cost < below)

    def least(self, vehicle: Vehicle, below: int) -> tuple[int, int, int] | None:
        """Returns (cost, i, j) of the vehicle's least offer, where one costs less than `below`, or None."""
        places = sorted(self.places_below(vehicle, below)) if self.market.is_open(vehicle) else []
        return next((place for place in places if self.cost_at(vehicle, *place[1:]) is not None), None)
