"""Sheets of idle vehicles sent ahead: their lines, and the certificate that a sheet costs least, which needs no solver."""
import heapq
from dataclasses import dataclass
from typing import Dict, Iterable, List, Sequence, Tuple

from player.drivers import Order
from player.roads import Arc

Standing = Dict[int, Tuple[int, int]]  # the node and the version of each idle vehicle
Rows = Sequence[Tuple[int, int]]  # the requests that a batch leaves out, each with its pickup


@dataclass(frozen=True)
class Go:
    """An order of a sheet: a vehicle at a version to a request's pickup, so many seconds away."""
    request: int
    vehicle: int
    version: int
    node: int
    seconds: int


@dataclass(frozen=True)
class Sheet:
    """The orders behind a commit, and the prices and payments that certify them."""
    batch: int
    cost: int
    goes: Tuple[Go, ...]
    prices: Dict[int, int]
    pays: Dict[int, int]

    def line(self) -> str:
        """Returns the line `moves ..`, as `ahead` writes it."""
        goes = [f"{go.request}:{go.vehicle}@{go.version}:{go.node}:{go.seconds}" for go in self.goes]
        prices = [f"{request}:{price}" for request, price in self.prices.items()]
        pays = [f"{vehicle}:{pay}" for vehicle, pay in self.pays.items()]
        return " ".join(["moves", str(self.batch), "cost", str(self.cost), "goes", *goes, "prices", *prices, "pays", *pays])

    def orders(self) -> List[Order]:
        """Returns the orders as drivers take them."""
        return [Order(go.vehicle, go.version, go.node) for go in self.goes]


def sheet_of(line: str) -> Sheet:
    """Returns the sheet of a line `moves ..`. Raises ValueError where it is none, or not as `ahead` writes it."""
    words = line.split(" ")
    goes, prices, pays = (words.index(name) for name in ("goes", "prices", "pays"))
    sheet = Sheet(int(words[1]), int(words[3]), tuple(_go_of(item) for item in words[goes + 1:prices]),
                  _amounts_of(words[prices + 1:pays]), _amounts_of(words[pays + 1:]))
    if sheet.line() != line:
        raise ValueError(line)
    return sheet


def _go_of(item: str) -> Go:
    request, stand, node, seconds = item.split(":")
    vehicle, version = stand.split("@")
    return Go(int(request), int(vehicle), int(version), int(node), int(seconds))


def _amounts_of(items: Iterable[str]) -> Dict[int, int]:
    pairs = [item.split(":") for item in items]
    return {int(number): int(amount) for number, amount in pairs}


def times_to(arcs: Iterable[Arc], target: int) -> Dict[int, int]:
    """Returns the least seconds to a node from each that has a way there (Dijkstra 1959)."""
    into: Dict[int, List[Tuple[int, int]]] = {}
    for tail, head, seconds in arcs:
        into.setdefault(head, []).append((tail, seconds))
    least: Dict[int, int] = {}
    queue = [(0, target)]
    while queue:
        time, node = heapq.heappop(queue)
        if node in least:
            continue
        least[node] = time
        for tail, seconds in into.get(node, []):
            heapq.heappush(queue, (time + seconds, tail))
    return least


class Certifier:
    """Looks at sheets over a map. It searches travel times itself, those to a pickup once."""

    def __init__(self, arcs: Sequence[Arc], reach: int):
        self.arcs, self.reach = arcs, reach
        self._times: Dict[int, Dict[int, int]] = {}

    def fault_of(self, sheet: Sheet, batch: int, rows: Rows, idle: Standing) -> str:
        """Returns what is wrong with the sheet of a batch that left these requests out beside these idle vehicles, empty where its
        prices certify it: they are at most the reach and at most each pair's time and what its vehicle pays, and they sum to the cost and
        all payments."""
        pickups = dict(rows)
        if sheet.batch != batch or list(sheet.prices) != [request for request, _ in rows]:
            return "another batch, or other requests"
        for go in sheet.goes:
            if fault := self._fault_of_go(go, pickups, idle):
                return fault
        sent, met = {go.vehicle for go in sheet.goes}, {go.request for go in sheet.goes}
        if len(sent) < len(sheet.goes) or len(met) < len(sheet.goes):
            return "a vehicle or a request twice"
        if sheet.cost != sum(go.seconds for go in sheet.goes) + self.reach * (len(rows) - len(met)):
            return "another cost"
        if any(pay <= 0 for pay in sheet.pays.values()) or sum(sheet.prices.values()) != sheet.cost + sum(sheet.pays.values()):
            return "prices that do not sum to the cost and the payments"
        if any(sheet.prices[request] > self._bound_of(pickup, idle, sheet.pays) for request, pickup in rows):
            return "a price above the reach, or above a pair's time and payment"
        return ""

    def _fault_of_go(self, go: Go, pickups: Dict[int, int], idle: Standing) -> str:
        at, version = idle.get(go.vehicle, (0, -1))
        if version != go.version:
            return "a vehicle that is not idle at this version"
        if pickups.get(go.request) != go.node:
            return "a node that is not the pickup of a request that was left out"
        if self._times_to(go.node).get(at) != go.seconds or go.seconds > self.reach:
            return "another time, or one out of reach"
        return ""

    def _bound_of(self, pickup: int, idle: Standing, pays: Dict[int, int]) -> int:
        """Returns the most that the price of a request may be."""
        times = self._times_to(pickup)
        seconds = {vehicle: times[at] for vehicle, (at, _) in idle.items() if at in times}
        return min([self.reach, *(time + pays.get(vehicle, 0) for vehicle, time in seconds.items() if time <= self.reach)])

    def _times_to(self, pickup: int) -> Dict[int, int]:
        if pickup not in self._times:
            self._times[pickup] = times_to(self.arcs, pickup)
        return self._times[pickup]
