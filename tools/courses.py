"""Where vehicles were through a day: by their reports, between these along fastest ways, and after the log's end by plan."""
from dataclasses import dataclass, field
from typing import Dict, List, Optional, Sequence, Tuple

from log_reading import Reading, times_by_plan
from player.figures import Collector, Scope
from player.roads import Roads
from trip_log import Entry, Request, State, Stop

Point = Tuple[int, int]  # a second and a node


@dataclass
class Course:
    """A vehicle's way. From `planned` on, a place in `points`, it is the plan's and not a report's. `loads` says how many riders are
    aboard from each second on, `off` the spans off duty, and `served` the stops with their seconds."""
    vehicle: int
    points: List[Point]
    planned: int = 0
    loads: List[Point] = field(default_factory=list)
    off: List[Tuple[int, Optional[int]]] = field(default_factory=list)
    served: List[Tuple[int, Stop]] = field(default_factory=list)


@dataclass
class Movement:
    """A day as it moves: each vehicle's course, and each request's moments. `ended` is when a request was turned away or cancelled, `late` says each
    late report, `figures` are the day's by the names of player.figures."""
    reading: Reading
    courses: Dict[int, Course] = field(default_factory=dict)
    ended: Dict[int, int] = field(default_factory=dict)
    late: List[Tuple[int, str]] = field(default_factory=list)
    figures: Dict[str, object] = field(default_factory=dict)
    begin: int = 0
    end: int = 0


def movement_of(reading: Reading) -> Movement:
    """Returns how a day moves, whose log is read to its end. The reading has a fleet file and a map. Raises InputError."""
    movement = Movement(reading)
    movement.courses = {v.id: Course(v.id, [(v.ready, v.at)], loads=[(v.ready, 0)]) for v in reading.log.vehicles.values()}
    collector, begins = Collector(reading.roads, reading.log, Scope(reasons=False)), []
    for entry in reading.entries():
        note(movement, entry)
        collector.take(entry)
        if not begins and entry.reply == "waiting":
            begins.append(reading.log.clock)
    movement.figures = collector.figures().values()
    times = times_by_plan(reading)
    for course in movement.courses.values():
        course.planned = len(course.points)
        follow_plan(course, reading, times[course.vehicle])
    movement.begin = begins[0] if begins else reading.log.clock
    movement.end = max([reading.log.clock] + [course.points[-1][0] for course in movement.courses.values()])
    return movement


def note(movement: Movement, entry: Entry) -> None:
    """Notes what an entry tells of places and moments."""
    log = movement.reading.log
    if entry.reply in ("onmap", "late"):
        report(movement, entry)
    elif entry.reply in ("picked", "dropped"):
        serve(movement.courses[entry.numbers[0]], log.requests[entry.said[0]], entry.reply == "picked")
        vehicle = log.vehicles[entry.numbers[0]]
        stand(movement.courses[vehicle.id], vehicle.ready)
    elif entry.reply == "duty":
        duty(movement.courses[entry.numbers[0]], entry.kind == "off", log.clock)
    elif entry.reply in ("freed", "cancelled"):
        movement.ended[entry.numbers[0]] = log.clock
    elif entry.commit:
        movement.ended.update((request, log.clock) for request, outcome in entry.commit.outcomes.items() if outcome.word == "away")


def report(movement: Movement, entry: Entry) -> None:
    """Adds the way to a reported place: an idle vehicle arrives in time, a driving one has left when it was last seen."""
    number, node, time = entry.numbers
    is_idle = not movement.reading.log.vehicles[number].stops
    drive(movement.courses[number], movement.reading.roads, node, time, is_idle)
    if entry.reply == "late":
        broken = f", and breaks the promise of {' '.join(map(str, entry.said[1:]))}" if entry.said[1:] else ""
        movement.late.append((movement.reading.log.clock, f"vehicle {number} is late by {entry.said[0]} s{broken}"))


def drive(course: Course, roads: Roads, node: int, time: int, late_start: bool) -> None:
    """Adds a way to a node at a second, at an even pace along the fastest way."""
    begin, at = course.points[-1]
    tree = roads.toward(node)
    whole = tree.seconds[at]
    if node == at:
        stand(course, time)
        return
    if whole < 0 or time <= begin:
        course.points.append((max(time, begin), node))
        return
    if late_start and time - whole > begin:
        begin = time - whole
        course.points.append((begin, at))
    while at != node:
        at = tree.following[at]
        course.points.append((begin + (time - begin) * (whole - tree.seconds[at]) // whole, at))


def stand(course: Course, until: int) -> None:
    """Adds that a vehicle stands where it is."""
    if until > course.points[-1][0]:
        course.points.append((until, course.points[-1][1]))


def serve(course: Course, request: Request, is_pickup: bool) -> None:
    """Adds a stop that was served."""
    time = request.picked_at if is_pickup else request.dropped_at
    node = request.origin if is_pickup else request.destination
    course.served.append((time, Stop(request.id, is_pickup, node)))
    course.loads.append((time, course.loads[-1][1] + (1 if is_pickup else -1)))


def duty(course: Course, is_off: bool, clock: int) -> None:
    """Notes that a vehicle goes off duty or on."""
    was_off = bool(course.off) and course.off[-1][1] is None
    if is_off and not was_off:
        course.off.append((clock, None))
    elif was_off and not is_off:
        course.off[-1] = course.off[-1][0], clock


def follow_plan(course: Course, reading: Reading, times: Sequence[int]) -> None:
    """Adds what is left of a vehicle's plan at the log's end, whose stops have these times."""
    vehicle = reading.log.vehicles[course.vehicle]
    stand(course, vehicle.ready)
    for stop, time in zip(vehicle.stops, times):
        drive(course, reading.roads, stop.node, time, False)
        stand(course, time + reading.log.settings["dwell"])
        course.served.append((time, stop))
        course.loads.append((time, course.loads[-1][1] + (1 if stop.pickup else -1)))


def moments_of(movement: Movement, request: Request) -> Dict[str, Optional[int]]:
    """Returns the seconds at which a request was asked for, promised, picked up, dropped and ended without a ride; by plan where the log
    ends before."""
    moments = {"asked": request.asked_at, "promised": request.confirmed_at, "picked": request.picked_at, "dropped": request.dropped_at,
               "ended": movement.ended.get(request.id)}
    if request.vehicle is None or request.state == State.CANCELLED:
        return moments
    for time, stop in movement.courses[request.vehicle].served:
        if stop.request == request.id:
            moments["picked" if stop.pickup else "dropped"] = time
    return moments
