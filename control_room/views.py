"""What riders, drivers and the office are told: documents made of a zone's view and its roads."""
from dataclasses import asdict
from typing import Any, Dict, Iterable, List, Optional

from trip_log import Request, State, Vehicle

from control_room.chart import Chart
from control_room.day_clock import DayClock, written
from control_room.zone_view import ZoneView

Document = Dict[str, Any]

# Of so many waiting requests the office sees each; of the others it sees the number.
SHOWN_WAITING = 300
WORDS = {State.WAITING: "waiting", State.IN_BATCH: "waiting", State.CONFIRMED: "confirmed", State.ABOARD: "aboard",
         State.DONE: "dropped", State.AWAY: "away", State.CANCELLED: "cancelled"}


class Times:
    """Seconds of the day as clock times. Times of the day and of life stand side by side where the day is faster."""

    def __init__(self, clock: DayClock):
        self.clock = clock

    def __call__(self, second: Optional[int]) -> Optional[Document]:
        """Returns a second of the day with its clock time, None for None."""
        return None if second is None else {"second": second, "time": written(self.clock.moment(second))}


def plan_times(vehicle: Vehicle, dwell: int, chart: Chart) -> List[Optional[int]]:
    """Returns the day's second at which each stop of a plan is due by the map; None from the first that no road leads to."""
    times: List[Optional[int]] = []
    at, second = vehicle.at, vehicle.ready
    for stop in vehicle.stops:
        leg = chart.seconds(at, stop.node) if at and times[-1:] != [None] else None
        if leg is None:
            times.append(None)
            continue
        times.append(second + leg)
        at, second = stop.node, second + leg + dwell
    return times


def vehicle_view(view: ZoneView, chart: Chart, times: Times, number: int) -> Document:
    """Returns what a driver is told of the vehicle: where it is next, and its stops with the times that the map gives."""
    vehicle = view.log.vehicles[number]
    due = plan_times(vehicle, view.log.settings["dwell"], chart)
    stops = [{"request": stop.request, "what": "pickup" if stop.pickup else "drop-off", "node": stop.node, "due": times(second),
              "latest": times(view.log.requests[stop.request].latest) if stop.pickup else None}
             for stop, second in zip(vehicle.stops, due)]
    way = chart.way(vehicle.at, vehicle.stops[0].node) if vehicle.at and vehicle.stops else []
    return {"vehicle": number, "version": vehicle.version, "on_duty": vehicle.on_duty, "at": vehicle.at, "ready": times(vehicle.ready),
            "stops": stops, "way": way, "clock": times(view.log.clock)}


def request_view(view: ZoneView, chart: Chart, times: Times, number: int) -> Document:
    """Returns what a rider is told of the request."""
    request = view.log.requests[number]
    said: Document = {"request": number, "state": WORDS[request.state], "from": request.origin, "to": request.destination,
                      "seats": request.seats, "chairs": request.chairs, "asked": times(request.asked_at),
                      "latest_pickup": times(request.latest), "ride_at_most": request.longest, "clock": times(view.log.clock)}
    if request.state in (State.CONFIRMED, State.ABOARD, State.DONE):
        said.update(vehicle=request.vehicle, confirmed=times(request.confirmed_at), promise_broken=request.broken)
    if request.state in (State.CONFIRMED, State.ABOARD):
        said.update(_estimates(view, chart, times, request))
    if request.picked_at is not None:
        said["picked_up"] = times(request.picked_at)
    if request.dropped_at is not None:
        said["dropped_off"] = times(request.dropped_at)
    if request.state == State.AWAY:
        said["reason"] = view.away.get(number, "")
    return said


def _estimates(view: ZoneView, chart: Chart, times: Times, request: Request) -> Document:
    """Returns the seconds at which the plan and the map let the rider in and out, and where the vehicle is next."""
    assert request.vehicle is not None
    vehicle = view.log.vehicles[request.vehicle]
    due = plan_times(vehicle, view.log.settings["dwell"], chart)
    said: Document = {"vehicle_at": vehicle.at, "stops_before": 0}
    for place, (stop, second) in enumerate(zip(vehicle.stops, due)):
        if stop.request == request.id:
            said["estimated_pickup" if stop.pickup else "estimated_arrival"] = times(second)
            said["stops_before"] = place if stop.pickup or request.state == State.ABOARD else said["stops_before"]
    return said


# The office's picture. It is sent often, so its items are short.

def vehicle_mark(view: ZoneView, number: int) -> List[Any]:
    """Returns a vehicle as the map draws it: id, node, second at which it is there, node and second before, duty, version, stops."""
    vehicle = view.log.vehicles[number]
    before, left = view.moves.get(number, (vehicle.at, vehicle.ready))
    stops = [[stop.request, 1 if stop.pickup else 0, stop.node] for stop in vehicle.stops]
    return [number, vehicle.at, vehicle.ready, before, left, 1 if vehicle.on_duty else 0, vehicle.version, stops]


def waiting_marks(view: ZoneView) -> List[List[int]]:
    """Returns the first requests that wait: id, from, to, seats and chairs, second of asking, latest pickup, 1 where in a batch."""
    waiting = [view.log.requests[number] for number in view.log.waiting()[:SHOWN_WAITING]]
    return [[one.id, one.origin, one.destination, one.seats + one.chairs, one.asked_at, one.latest, int(one.state == State.IN_BATCH)]
            for one in waiting]


def counters(view: ZoneView) -> Document:
    """Returns the counts of a day so far."""
    log = view.log
    states: Dict[str, int] = {}
    for request in log.requests.values():
        states[WORDS[request.state]] = states.get(WORDS[request.state], 0) + 1
    driving = sum(bool(vehicle.stops) for vehicle in log.vehicles.values())
    return {"requests": len(log.requests), "states": states, "asked": log.asked, "opened": log.opened, "open": len(log.open_batches),
            "committed": log.opened - len(log.open_batches) - log.abandoned, "abandoned": log.abandoned,
            "confirmed": log.outcomes["confirmed"], "away": log.outcomes["away"], "moved": log.outcomes["moved"],
            "behind": log.outcomes["behind"], "gone": log.outcomes["gone"], "picked": log.replies["picked"],
            "dropped": log.replies["dropped"], "late": log.replies["late"], "refused": log.replies["refused"] - view.marks,
            "broken": sum(request.broken for request in log.requests.values()), "driving": driving,
            "idle": sum(vehicle.on_duty and not vehicle.stops for vehicle in log.vehicles.values()),
            "off_duty": sum(not vehicle.on_duty for vehicle in log.vehicles.values()), "vehicles": len(log.vehicles)}


def batches_view(view: ZoneView, most: int = 12) -> List[Document]:
    """Returns the last batches with their costs and prices, the newest first."""
    last = list(view.batches.values())[-most:]
    return [asdict(batch) for batch in reversed(last)]


def late_view(view: ZoneView, most: int = 20) -> List[Document]:
    """Returns the last late reports, the newest first."""
    return [asdict(report) for report in list(view.late)[-most:][::-1]]


def office_picture(view: ZoneView, vehicles: Optional[Iterable[int]] = None) -> Document:
    """Returns the office's picture: of all vehicles, or of those that changed."""
    numbers = view.log.vehicles if vehicles is None else vehicles
    return {"clock": view.log.clock, "vehicles": [vehicle_mark(view, number) for number in numbers], "waiting": waiting_marks(view),
            "waiting_in_all": len(view.log.waiting())}
