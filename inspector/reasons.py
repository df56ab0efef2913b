"""Reasons: what each vehicle of a batch could have done for a request, and why it does not take it."""
from collections import Counter
from itertools import combinations_with_replacement

from certificate import Batch
from entries import Entry
from offers import Market, Offers
from plans import MOST_STOPS, Ride, Vehicle, broken, has_room, insert, times

Reason = dict[str, object]
WORDS = {
    "off duty": "closed: off duty",
    "silent": "closed: its last report is of second {ready}, before the batch's {now}",
    "small": "no offer: its seats are {seats}, its places for wheelchairs {chairs}",
    "no room for stops": "no offer: its plan has {stops} stops, and 16 are the most",
    "promise broken": "no offer: it is too late for its own riders {rides} already",
    "no way": "no offer: no way leads to the pickup, or on from there",
    "late": "no offer: picked up {seconds} s too late at best",
    "long": "no offer: the ride takes {seconds} s more than allowed at best",
    "no place": "no offer at any of {places} places of its plan: ",
    "takes it": "takes it for {cost}",
    "dear": "for {cost}, no less than the penalty of {penalty} for turning the rider away",
    "worth more": "for {cost}, but it takes request {other} and is worth {pay} more to the batch",
    "dearer": "for {cost}, which costs the batch at least {more} more",
    "as good": "for {cost}, which is as good for the batch",
}
CAUSES = {"full": "no room at {full}", "late": "picked up too late at {late}", "long": "too long a ride at {long}",
          "others": "a promise to {rides} broken at {others}"}  # of places that are none


def in_words(reason: Reason) -> str:
    """Returns the reason as a half sentence."""
    told = {name: ", ".join(map(str, value)) if isinstance(value, list) else value for name, value in reason.items()}
    causes = [text for cause, text in CAUSES.items() if reason["why"] == "no place" and reason[cause]]
    return (WORDS[str(reason["why"])] + ", ".join(causes)).format(**told)


def reason_of(batch: Batch, commit: Entry, request: int, vehicle: int) -> Reason:
    """Returns why this vehicle of the batch takes the request or does not, by the commit and its prices."""
    market, copy, ride = batch.market, batch.copies[vehicle], batch.rides[request]
    offer = Offers(market, ride).least(copy, below=1 << 62)
    if offer is None:
        return why_no_offer(market, copy, ride)
    cost, pay, price = offer[0], dict(commit.pays).get(vehicle, 0), dict(commit.prices)[request]
    taken = {seat[1]: seat[0] for seat in commit.seats}
    if taken.get(vehicle) == request:
        return {"why": "takes it", "cost": cost}
    if pay > 0:
        return {"why": "worth more", "cost": cost, "other": taken[vehicle], "pay": pay}
    if request not in taken.values():
        return {"why": "dear", "cost": cost, "penalty": market.settings.penalty}
    return {"why": "dearer", "cost": cost, "more": cost - price} if cost > price else {"why": "as good", "cost": cost}


def why_no_offer(market: Market, copy: Vehicle, ride: Ride) -> Reason:
    """Returns why a vehicle has no offer for a ride: the first cause that already decides alone."""
    start, dwell = market.start_of(copy), market.settings.dwell
    if not copy.duty:
        return {"why": "off duty"}
    if not market.is_open(copy):
        return {"why": "silent", "ready": copy.ready, "now": market.now}
    if ride.seats > copy.seats or ride.chairs > copy.chairs:
        return {"why": "small", "seats": copy.seats, "chairs": copy.chairs}
    if len(copy.stops) + 2 > MOST_STOPS:
        return {"why": "no room for stops", "stops": len(copy.stops)}
    if rides := broken(copy, start, dwell):
        return {"why": "promise broken", "rides": rides}
    to_pickup, aboard = market.roads.between(copy.at, ride.origin), market.roads.between(ride.origin, ride.target)
    if to_pickup is None or aboard is None:
        return {"why": "no way"}
    if start + to_pickup > ride.latest:
        return {"why": "late", "seconds": start + to_pickup - ride.latest}
    if dwell + aboard > ride.longest:
        return {"why": "long", "seconds": dwell + aboard - ride.longest}
    return why_no_place(market, copy, ride)


def why_no_place(market: Market, copy: Vehicle, ride: Ride) -> Reason:
    """Returns the causes for which each place of the plan is none, with how many places each rules out."""
    start, dwell = market.start_of(copy), market.settings.dwell
    causes: Counter[str] = Counter()
    others: set[int] = set()
    for i, j in combinations_with_replacement(range(len(copy.stops) + 1), 2):
        plan = insert(copy, ride, i, j, market.roads)
        if plan is None:
            continue
        late = broken(plan, start, dwell)
        if times(plan, start, dwell)[i] > ride.latest:
            causes["late"] += 1
        elif not has_room(plan):
            causes["full"] += 1
        elif ride.id in late:
            causes["long"] += 1
        else:
            causes["others"] += 1
            others.update(late)
    if not causes:
        return {"why": "no way"}
    return {"why": "no place", "places": causes.total(), **{cause: causes[cause] for cause in CAUSES},
            "rides": [other.id for other in copy.rides if other.id in others]}
