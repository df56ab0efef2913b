"""The certificate of a commit: a seating of the batch, its cost, and prices that prove that no seating costs less.

Each request has a price of at most the penalty, and each vehicle pays nothing or something. Where no request's price is
above what an offer of some vehicle costs plus what that vehicle pays, every seating costs at least the prices less the
payments. A seating of just that cost is least. So no offer has to be found: it is enough that none costs less than the
price and the payment leave.
"""

from dataclasses import dataclass

from entries import Entry, Seats
from offers import Market, Offers
from plans import Ride, Vehicle


@dataclass
class Batch:
    """An open batch: its number, its desk, its requests in order, the vehicles as they stood when it was opened."""

    number: int
    desk: bytes
    market: Market
    rides: dict[int, Ride]
    copies: dict[int, Vehicle]


def cost_of_seats(batch: Batch, seats: Seats) -> int | None:
    """Returns what this seating costs, or None where it is no seating of the batch."""
    seated, vehicles = {seat[0] for seat in seats}, {seat[1] for seat in seats}
    in_order = [request for request in batch.rides if request in seated]
    if len(vehicles) < len(seats) or [seat[0] for seat in seats] != in_order:
        return None
    total = batch.market.settings.penalty * (len(batch.rides) - len(seats))
    for request, vehicle, i, j in seats:
        copy = batch.copies.get(vehicle)
        cost = Offers(batch.market, batch.rides[request]).cost_at(copy, i, j) if copy else None
        if cost is None:
            return None
        total += cost
    return total


def certifies(batch: Batch, commit: Entry) -> bool:
    """Returns whether the commit's prices and payments prove that no seating of the batch costs less."""
    prices, pays, market = dict(commit.prices), dict(commit.pays), batch.market
    in_order = ([request for request, _ in commit.prices] == list(batch.rides)
                and [vehicle for vehicle, _ in commit.pays] == [vehicle for vehicle in batch.copies if vehicle in pays])
    if not in_order or 0 in pays.values() or max(prices.values(), default=0) > market.settings.penalty:
        return False
    if sum(prices.values()) - sum(pays.values()) != commit.numbers[1]:
        return False
    ready = [(market.start_of(copy), copy) for copy in batch.copies.values() if market.is_open(copy)]
    return not any(undercut(Offers(market, batch.rides[request]), ready, price, pays) for request, price in prices.items())


def undercut(offers: Offers, ready: list[tuple[int, Vehicle]], price: int, pays: dict[int, int]) -> bool:
    """Returns whether some open vehicle, listed with its start, has an offer that costs less than the price less its
    payment. One that comes too late, or lets the rider wait for more than the price, needs no closer look."""
    last = offers.last_pickup(price)
    reach = offers.to_origin.within(last - offers.market.now)
    near = [copy for start, copy in ready if start + reach[copy.at] <= last]
    return price > 0 and any(offers.least(copy, price - pays.get(copy.id, 0)) for copy in near)
