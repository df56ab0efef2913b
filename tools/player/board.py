"""A board that answers commands as the program does, for dispatchers that are compared with it: it writes the same lines of a log."""
import time
from typing import Callable, Dict, List, Optional, Sequence, Tuple

from player.insertion import Plan, PlanBook, Ride
from player.roads import Roads
from trip_log import Commit, Entry, Fleet, State, TripLog, Vehicle

Choice = Tuple[int, int, int, int]  # a vehicle, the places of pickup and drop-off, and the cost
Choose = Callable[[PlanBook, Ride, int], Optional[Choice]]


class Board:
    """A dispatcher in this process. `choose` finds a seat for one request of a batch, or None; batches have one request each, so that
    each is seated before the next is looked at. Commands are taken to be those that drivers and riders send: none is refused."""

    def __init__(self, roads: Roads, fleet: Fleet, choose: Choose):
        fleet.settings["batch"] = 1
        self.roads, self.choose = roads, choose
        self.log = TripLog(fleet)
        self.log.read(f"log {fleet.settings['log']} feeds 2 desks 1\n")
        self.book = PlanBook(roads, self.log)
        self.watchers: List[Callable[[Entry], None]] = []
        self.batch_seconds: List[float] = []
        self.most_batches = 10 ** 6
        self._order: List[int] = []

    def submit(self, feed: int, lines: Sequence[str]) -> List[Entry]:
        """Takes lines of a feed, and returns their answers."""
        return [self._take(f"f{feed + 1} {line} = {self._reply(line)}") for line in lines]

    def seat(self) -> Commit:
        """Seats the request that has waited longest, or turns it away; returns the commit."""
        log = self.log
        self._take(f"f1 batch = asked {log.asked + 1}")
        number, now = self._next(), log.clock
        plans = " ".join(f"{vehicle.id}@{vehicle.version}" for vehicle in log.vehicles.values())
        self._take(f"d1 open {log.asked} at {now} requests {number} plans {plans}")
        began = time.process_time()
        choice = self.choose(self.book, self.book.ride(number), now)
        self.batch_seconds.append(time.process_time() - began)
        seat, cost, word = "", log.settings["penalty"], "away"
        if choice:
            vehicle, pickup, dropoff, cost = choice
            seat, word = f" {number}:{vehicle}:{pickup}:{dropoff}", "confirmed"
        return self._take(f"d1 commit {log.asked} cost {cost} seats{seat} prices {number}:{cost} pays outcomes {number}:{word}").commit

    def end(self) -> None:
        """Ends both feeds and the desk."""
        for actor in ("f1", "f2", "d1"):
            self._take(f"{actor} end")

    def _next(self) -> int:
        """Takes and returns the first request that still waits."""
        while self.log.requests[self._order[0]].state != State.WAITING:
            self._order.pop(0)
        return self._order.pop(0)

    def _take(self, line: str) -> Entry:
        entry = self.log.read(line + "\n")
        for watch in self.watchers:
            watch(entry)
        return entry

    def _reply(self, line: str) -> str:
        word, *texts = line.split()
        numbers = [int(text) for text in texts]
        return getattr(self, "_" + word)(*numbers)

    def _request(self, number: int, *_wish: int) -> str:
        self._order.append(number)
        return "waiting"

    def _cancel(self, number: int) -> str:
        request = self.log.requests[number]
        if request.waits():
            return "cancelled"
        if request.state == State.CONFIRMED:
            return f"freed {request.vehicle}"
        return "refused 8" if request.state == State.ABOARD else "refused 9"

    def _clock(self, moment: int) -> str:
        return f"now {max(moment, self.log.clock)}"

    def _on(self, _number: int) -> str:
        return "duty"

    _off = _on

    def _done(self, number: int) -> str:
        stop = self.log.vehicles[number].stops[0]
        return f"{'picked' if stop.pickup else 'dropped'} {stop.request}"

    def _at(self, number: int, node: int, moment: int) -> str:
        vehicle = self.log.vehicles[number]
        if not vehicle.stops:
            return "onmap"
        toward = self.roads.toward(vehicle.stops[0].node).seconds
        late = moment + toward[node] - vehicle.ready - toward[vehicle.at]
        if late <= 0:
            return "onmap"
        broken = " ".join(str(ride) for ride in self._broken(vehicle, node, moment))
        return f"late {late}" + (f" broken {broken}" if broken else "")

    def _broken(self, vehicle: Vehicle, node: int, moment: int) -> List[int]:
        """Returns the rides whose limits do not hold when a vehicle is at a node at a moment."""
        picked: Dict[int, Optional[int]] = {number: self.log.requests[number].picked_at for number in vehicle.rides}
        broken, leaves = set(), moment
        for stop in vehicle.stops:
            arrives = leaves + self.roads.toward(stop.node).seconds[node]
            request = self.log.requests[stop.request]
            if stop.pickup:
                picked[stop.request] = arrives
            is_late = arrives > request.latest if stop.pickup else arrives - picked[stop.request] > request.longest
            if is_late:
                broken.add(stop.request)
            leaves, node = arrives + self.log.settings["dwell"], stop.node
        return [number for number in vehicle.rides if number in broken]


def cheapest_insertion(book: PlanBook, ride: Ride, now: int) -> Optional[Choice]:
    """Returns the seat that costs least of all vehicles, below the penalty."""
    best, below = None, book.log.settings["penalty"]
    near = [plan for plan in open_plans(book, now) if book.reaches(plan, ride, now)]
    for plan in near:
        if offer := book.best_offer(plan, ride, now, below):
            best, below = (plan.vehicle, offer.pickup, offer.dropoff, offer.cost), offer.cost
    return best


def nearest_idle(book: PlanBook, ride: Ride, now: int) -> Optional[Choice]:
    """Returns the idle vehicle that is at the pickup first, if that is in time: nobody shares."""
    toward = book.roads.toward(ride.origin).seconds
    idle = [(plan.start(now, book.lead) + toward[plan.at], place, plan) for place, plan in enumerate(open_plans(book, now))
            if not plan.stops and book.reaches(plan, ride, now) and plan.seats >= ride.seats and plan.chairs >= ride.chairs]
    if not idle:
        return None
    _, _, plan = min(idle, key=lambda item: item[:2])
    offer = book.best_offer(plan, ride, now, 1 << 60)
    return (plan.vehicle, offer.pickup, offer.dropoff, offer.cost) if offer else None


def open_plans(book: PlanBook, now: int) -> List[Plan]:
    """Returns the vehicles that may take a ride now."""
    return [plan for plan in book.plans() if plan.is_open(now)]
