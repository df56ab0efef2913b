"""What stands at a trip log's end, as text or JSON: plans with their times, requests with theirs, and why some were turned away.

The program is `trip_log.py`.
"""
import argparse
import json
from dataclasses import dataclass, field
from typing import Dict, List, Optional, Sequence, Tuple

from log_reading import Reading, open_reading, tell_torn, times_by_plan
from player.figures import Collector, Scope
from player.files import Parser
from trip_log import Batch, Commit, Entry, Request, State, TripLog, Vehicle

ABOUT = "Prints what stands at a trip log's end: the totals, each vehicle's plan, and each request."
MORE = """\
With a fleet file each vehicle's place and second are those of the program. With the map too each stop has its time by plan, each promised
request its pickup and arrival, and each request that was turned away its reason, found by asking every vehicle that was open. Without the
map the reason is as much as the log tells.

    trip_log.py examples/morning.log examples/fleet.txt examples/map.gr --requests

A log whose last line is torn is told up to the line before it, and a line on standard error says so. The status is 0, or 2 where a file
is none of what it should be; whether a log is right is for `ride_dispatch audit`."""
BY_MAP = {
    "no vehicle": "no vehicle was open",
    "too far": "limits: no open vehicle could be at the pickup in time",
    "no place": "limits: at no place of an open vehicle's plan would everybody's limits be kept",
    "too dear": "price: the cheapest seat would have cost the penalty or more",
    "outbid": "price: the vehicles were worth more to others of the batch",
}


@dataclass
class Reasons:
    """Why requests were turned away, as far as the log tells it alone, or with the fleet file."""
    log: TripLog
    has_fleet: bool
    found: Dict[int, str] = field(default_factory=dict)
    _open: Dict[int, bool] = field(default_factory=dict)

    def take(self, entry: Entry) -> None:
        """Notes what an entry tells of it."""
        if entry.batch:
            self._open[entry.batch.number] = self._is_any_open(entry.batch)
        elif entry.commit:
            why = self._why(entry.commit)
            self.found.update((request, why) for request, outcome in entry.commit.outcomes.items() if outcome.word == "away")

    def _is_any_open(self, batch: Batch) -> bool:
        """Returns whether a vehicle may have been open: without the fleet file a driver's second is only the least that it can be."""
        return any(vehicle.on_duty and (not vehicle.stops or not self.has_fleet or vehicle.ready >= batch.time)
                   for vehicle in self.log.vehicles.values())

    def _why(self, commit: Commit) -> str:
        if not self._open.get(commit.number, True):
            return BY_MAP["no vehicle"]
        # A request that is left out has the penalty as its price, and that is no more than an offer costs and its vehicle pays.
        if not commit.pays:
            return "limits or price: no seat within all limits would have cost less than the penalty"
        wanted = " ".join(str(vehicle) for vehicle in commit.pays)
        return f"limits or price: no such seat for less than the penalty, or it was in a vehicle that others wanted more ({wanted})"


@dataclass
class Told:
    """What is told of a log."""
    reading: Reading
    times: Dict[int, Tuple[int, ...]] = field(default_factory=dict)  # of each vehicle's stops
    reasons: Dict[int, str] = field(default_factory=dict)

    def by_plan(self, request: Request) -> Tuple[Optional[int], Optional[int]]:
        """Returns the seconds of pickup and arrival by plan, None where there is none or the map is not at hand."""
        if request.vehicle not in self.times or request.state not in (State.CONFIRMED, State.ABOARD):
            return None, None
        stops = self.reading.log.vehicles[request.vehicle].stops
        pickup = arrival = None
        for stop, time in zip(stops, self.times[request.vehicle]):
            if stop.request == request.id:
                pickup, arrival = (time, arrival) if stop.pickup else (pickup, time)
        return pickup, arrival


def told_of(reading: Reading, with_reasons: bool) -> Told:
    """Returns what is told of a log, which is read to its end."""
    by_log = Reasons(reading.log, reading.has_fleet)
    by_map = Collector(reading.roads, reading.log, Scope()) if reading.roads and with_reasons else None
    for entry in reading.entries():
        by_log.take(entry)
        if by_map:
            by_map.take(entry)
    told = Told(reading)
    if reading.roads:
        told.times = times_by_plan(reading)
    if with_reasons:
        told.reasons = {request: BY_MAP[by_map.reasons[request]] if by_map and request in by_map.reasons else why
                        for request, why in by_log.found.items()}
    return told


# As text.

def vehicle_line(vehicle: Vehicle, times: Sequence[int]) -> str:
    """Returns a vehicle's line; its stops have their times where they are known."""
    stops = [f"{'+' if stop.pickup else '-'}{stop.request}@{stop.node}" for stop in vehicle.stops]
    said = ", ".join(f"{stop} at {time}" for stop, time in zip(stops, times)) if times else " ".join(stops)
    duty = "" if vehicle.on_duty else ", off duty"
    place = "somewhere" if vehicle.at is None else f"at {vehicle.at} from {vehicle.ready}"
    return f"vehicle {vehicle.id}, version {vehicle.version}, {place}{duty}: {said or 'idle'}"


def request_line(told: Told, request: Request) -> str:
    """Returns a request's line."""
    pickup, arrival = told.by_plan(request)
    said = f"request {request.id}: {request.state.value}"
    if request.vehicle is not None and request.state != State.CANCELLED:
        said += f", vehicle {request.vehicle}"
    if request.picked_at is not None:
        said += f", picked up at {request.picked_at}"
    elif pickup is not None:
        said += f", pickup at {pickup}"
    if request.state in (State.WAITING, State.IN_BATCH, State.CONFIRMED):
        said += f", by {request.latest} at the latest"
    if request.dropped_at is not None:
        said += f", arrived at {request.dropped_at}"
    elif arrival is not None:
        said += f", arrival at {arrival}"
    return said + (", a promise broken" if request.broken else "") + (f", {told.reasons[request.id]}" if request.id in told.reasons else "")


def text_of(told: Told, with_requests: bool) -> List[str]:
    """Returns the lines that are printed."""
    log = told.reading.log
    lines = [log.totals(), f"clock {log.clock}, waiting: {' '.join(map(str, log.waiting())) or 'nobody'}"]
    lines += [vehicle_line(vehicle, told.times.get(vehicle.id, ())) for vehicle in log.vehicles.values()]
    return lines + ([request_line(told, request) for request in log.requests.values()] if with_requests else [])


# As JSON.

def vehicle_object(vehicle: Vehicle, times: Sequence[int]) -> Dict[str, object]:
    """Returns a vehicle with its plan."""
    known = list(times) or [None] * len(vehicle.stops)
    stops = [{"request": stop.request, "pickup": stop.pickup, "node": stop.node, "time": time} for stop, time in zip(vehicle.stops, known)]
    return {"id": vehicle.id, "version": vehicle.version, "at": vehicle.at, "ready": vehicle.ready, "on_duty": vehicle.on_duty,
            "stops": stops}


def request_object(told: Told, request: Request) -> Dict[str, object]:
    """Returns a request with its state and times."""
    pickup, arrival = told.by_plan(request)
    return {"id": request.id, "from": request.origin, "to": request.destination, "seats": request.seats, "chairs": request.chairs,
            "latest": request.latest, "longest": request.longest, "state": request.state.value, "vehicle": request.vehicle,
            "asked_at": request.asked_at, "confirmed_at": request.confirmed_at, "picked_at": request.picked_at,
            "dropped_at": request.dropped_at, "pickup_by_plan": pickup, "arrival_by_plan": arrival, "broken": request.broken,
            "why_away": told.reasons.get(request.id)}


def object_of(told: Told) -> Dict[str, object]:
    """Returns all that is told, for a program."""
    log = told.reading.log
    return {"entries": log.lines - 1, "confirmed": log.outcomes["confirmed"], "away": log.outcomes["away"],
            "picked": log.replies["picked"], "dropped": log.replies["dropped"], "finished": log.finished(),
            "torn_line": told.reading.torn, "clock": log.clock, "waiting": log.waiting(),
            "vehicles": [vehicle_object(vehicle, told.times.get(vehicle.id, ())) for vehicle in log.vehicles.values()],
            "requests": [request_object(told, request) for request in log.requests.values()]}


def wishes_of(words: Sequence[str]) -> argparse.Namespace:
    """Returns the command line."""
    parser = Parser(description=ABOUT, epilog=MORE)
    parser.add_argument("log", help="the trip log")
    parser.add_argument("fleet", nargs="?", help="its fleet file (none)")
    parser.add_argument("map", nargs="?", help="its map, a .gr file (none)")
    parser.add_argument("--requests", action="store_true", help="prints a line for each request too (no)")
    parser.add_argument("--json", action="store_true", help="prints all as one JSON object (as text)")
    parser.add_argument("--no-reasons", action="store_true", help="does not look for why requests were turned away, which takes longest (it does)")
    return parser.parse_args(words)


def main(words: Sequence[str]) -> int:
    """Prints what stands; returns 0. Raises InputError."""
    wishes = wishes_of(words)
    reading = open_reading(wishes.log, wishes.fleet, wishes.map)
    told = told_of(reading, (wishes.requests or wishes.json) and not wishes.no_reasons)
    print(json.dumps(object_of(told), indent=1) if wishes.json else "\n".join(text_of(told, wishes.requests)))
    tell_torn(reading)
    return 0
