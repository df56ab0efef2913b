"""Vehicles and their plans: the times of stops, what a plan promises, and plans with a ride more or less."""
from dataclasses import dataclass, replace
from itertools import accumulate, pairwise

from travel_times import TravelTimes

MOST_STOPS = 16


@dataclass(frozen=True)
class Ride:
    """A request, or the ride that it became; `picked` is the second of the pickup of a rider aboard."""

    id: int
    origin: int
    target: int
    seats: int
    chairs: int
    latest: int
    longest: int
    picked: int | None = None


@dataclass(frozen=True)
class Stop:
    """A pickup or drop-off at a node."""

    ride: int
    pickup: bool
    node: int


@dataclass(frozen=True)
class Vehicle:
    """A vehicle that is at node `at` from the second `ready` on, with its rides in order of confirmation. `legs` has the
    seconds to each stop from the one before, to the first from `at`."""

    id: int
    seats: int
    chairs: int
    at: int
    ready: int
    duty: bool = True
    version: int = 0
    rides: tuple[Ride, ...] = ()
    stops: tuple[Stop, ...] = ()
    legs: tuple[int, ...] = ()


def nodes_of(vehicle: Vehicle) -> list[int]:
    """Returns the nodes of a vehicle's plan: where it is, and those of its stops."""
    return [vehicle.at, *(stop.node for stop in vehicle.stops)]


def times(vehicle: Vehicle, start: int, dwell: int) -> list[int]:
    """Returns the second of arrival at each stop, from a start: legs add up, and each stop takes `dwell` seconds."""
    return [time - dwell for time in accumulate((leg + dwell for leg in vehicle.legs), initial=start)][1:]


def driving(vehicle: Vehicle, dwell: int) -> int:
    """Returns the seconds from the start to the last stop, 0 of an idle vehicle."""
    return times(vehicle, 0, dwell)[-1] if vehicle.stops else 0


def broken(vehicle: Vehicle, start: int, dwell: int) -> list[int]:
    """Returns the rides, in order of confirmation, that are picked up too late or last too long from this start."""
    pickups = {ride.id: ride.picked for ride in vehicle.rides if ride.picked is not None}
    drops: dict[int, int] = {}
    for stop, time in zip(vehicle.stops, times(vehicle, start, dwell)):
        (pickups if stop.pickup else drops)[stop.ride] = time
    return [ride.id for ride in vehicle.rides if ride.picked is None and pickups[ride.id] > ride.latest
            or drops[ride.id] - pickups[ride.id] > ride.longest]


def fits(vehicle: Vehicle, places: int, taken: dict[int, int]) -> bool:
    """Returns whether the riders aboard, each of whom takes so many of the places, find room now and after each stop."""
    aboard = sum(taken[ride.id] for ride in vehicle.rides if ride.picked is not None)
    changes = (taken[stop.ride] if stop.pickup else -taken[stop.ride] for stop in vehicle.stops)
    return max(accumulate(changes, initial=aboard)) <= places


def has_room(vehicle: Vehicle) -> bool:
    """Returns whether seats and chairs suffice."""
    return (fits(vehicle, vehicle.seats, {ride.id: ride.seats for ride in vehicle.rides})
            and fits(vehicle, vehicle.chairs, {ride.id: ride.chairs for ride in vehicle.rides}))


def keeps(vehicle: Vehicle, start: int, dwell: int) -> bool:
    """Returns whether the vehicle keeps all its promises from this start."""
    return len(vehicle.stops) <= MOST_STOPS and has_room(vehicle) and not broken(vehicle, start, dwell)


def changed(vehicle: Vehicle, roads: TravelTimes, **changes: object) -> Vehicle | None:
    """Returns the vehicle with another node, stops or rides, or None where no way leads along its stops."""
    after = replace(vehicle, **changes)
    known = dict(zip(pairwise(nodes_of(vehicle)), vehicle.legs))
    legs = tuple(known.get(ends) or roads.between(*ends) for ends in pairwise(nodes_of(after)))
    return None if None in legs else replace(after, legs=legs)


def insert(vehicle: Vehicle, ride: Ride, i: int, j: int, roads: TravelTimes) -> Vehicle | None:
    """Returns the vehicle with the ride last among its rides, its pickup directly before old place i and its drop-off
    directly before old place j; or None where there is no way."""
    stops, pickup, drop = vehicle.stops, Stop(ride.id, True, ride.origin), Stop(ride.id, False, ride.target)
    return changed(vehicle, roads, rides=(*vehicle.rides, ride), stops=(*stops[:i], pickup, *stops[i:j], drop, *stops[j:]))


def remove(vehicle: Vehicle, ride: int, roads: TravelTimes) -> Vehicle:
    """Returns the vehicle without the ride and its stops."""
    rides = tuple(other for other in vehicle.rides if other.id != ride)
    after = changed(vehicle, roads, rides=rides, stops=tuple(stop for stop in vehicle.stops if stop.ride != ride))
    assert after is not None  # as a way that leads along all stops leads along fewer
    return after
