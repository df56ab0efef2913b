"""Prices by brute force: every place of every plan is played second by second, over travel times of all pairs of nodes."""
import sys
from dataclasses import dataclass
from itertools import combinations_with_replacement
from pathlib import Path

sys.path.insert(0, str(Path(__file__).resolve().parents[1]))

from fleet_file import Settings  # noqa: E402
from plans import Ride, Vehicle  # noqa: E402
from road_map import RoadMap  # noqa: E402

FAR = float("inf")


def all_times(road_map: RoadMap) -> dict[tuple[int, int], float]:
    """Returns the seconds from each node to each, infinite where there is no way (the method of Floyd and Warshall)."""
    nodes = range(1, road_map.nodes + 1)
    times: dict[tuple[int, int], float] = {(tail, head): 0 if tail == head else FAR for tail in nodes for head in nodes}
    for tail, head, seconds in road_map.arcs:
        times[tail, head] = min(times[tail, head], seconds)
    for middle in nodes:
        for tail in nodes:
            for head in nodes:
                times[tail, head] = min(times[tail, head], times[tail, middle] + times[middle, head])
    return times


@dataclass
class Played:
    """What came of the visits of a plan: the second of each pickup and drop-off by ride, who is aboard after each visit
    (and before the first), and the last second."""

    pickups: dict[int, float]
    drops: dict[int, float]
    loads: list[list[Ride]]
    last: float


class Day:
    """Offers at the second `now` of a batch, over these travel times."""

    def __init__(self, times: dict[tuple[int, int], float], settings: Settings, now: int) -> None:
        self.times, self.settings, self.now = times, settings, now

    def start(self, vehicle: Vehicle) -> int:
        """Returns the second from which the vehicle is priced."""
        return vehicle.ready if vehicle.stops else max(vehicle.ready, self.now + self.settings.lead)

    def play(self, vehicle: Vehicle, visits: list[tuple[int, bool]], rides: dict[int, Ride]) -> Played:
        """Plays the visits, each a ride and whether it is picked up; returns what comes of them."""
        here, aboard = vehicle.at, [ride for ride in vehicle.rides if ride.picked is not None]
        picked: dict[int, float] = {ride.id: ride.picked for ride in vehicle.rides if ride.picked is not None}
        told = Played(picked, {}, [list(aboard)], self.start(vehicle))
        for place, (name, pickup) in enumerate(visits):
            node = rides[name].origin if pickup else rides[name].target
            told.last += (self.settings.dwell if place else 0) + self.times[here, node]
            here = node
            (told.pickups if pickup else told.drops)[name] = told.last
            aboard = [*aboard, rides[name]] if pickup else [ride for ride in aboard if ride.id != name]
            told.loads.append(aboard)
        return told

    def at(self, vehicle: Vehicle, ride: Ride, i: int, j: int) -> dict:
        """Returns what comes of the ride at these places: `seconds` driven more, `pickup`, `aboard`, `full`, `broken`."""
        rides = {**{other.id: other for other in vehicle.rides}, ride.id: ride}
        visits = [(stop.ride, stop.pickup) for stop in vehicle.stops]
        old = self.play(vehicle, visits, rides)
        new = self.play(vehicle, [*visits[:i], (ride.id, True), *visits[i:j], (ride.id, False), *visits[j:]], rides)
        aboard = {name: new.drops[name] - new.pickups[name] for name in rides}
        broken = [name for name, other in rides.items() if aboard[name] > other.longest
                  or other.picked is None and new.pickups[name] > other.latest]
        full = any(sum(other.seats for other in load) > vehicle.seats or sum(other.chairs for other in load) > vehicle.chairs
                   for load in new.loads)
        return {"seconds": new.last - old.last, "pickup": new.pickups[ride.id], "aboard": aboard[ride.id],
                "full": full, "broken": broken, "exists": new.last < FAR, "stops": len(visits) + 2}

    def cost(self, vehicle: Vehicle, ride: Ride, i: int, j: int) -> int | None:
        """Returns the cost of the offer at these places, or None where there is none."""
        closed = not vehicle.duty or vehicle.stops and vehicle.ready < self.now
        told = self.at(vehicle, ride, i, j)
        if closed or not told["exists"] or told["full"] or told["broken"] or told["stops"] > 16:
            return None
        return self.settings.drive * told["seconds"] + self.settings.wait * (told["pickup"] - self.now)

    def places(self, vehicle: Vehicle) -> list[tuple[int, int]]:
        """Returns all pairs of places of the vehicle's plan."""
        return [(i, j) for i, j in combinations_with_replacement(range(len(vehicle.stops) + 1), 2)]

    def price(self, vehicle: Vehicle, ride: Ride) -> int | None:
        """Returns the cost of the vehicle's least offer, or None."""
        costs = [self.cost(vehicle, ride, i, j) for i, j in self.places(vehicle)]
        return min((cost for cost in costs if cost is not None), default=None)
