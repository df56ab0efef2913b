"""What riders, drivers and the office may ask and say over HTTP."""
import hashlib
import secrets
from typing import Any, Dict, Optional

from aiohttp import web

from control_room.day_clock import read_moment, unix_now
from control_room.kept_log import OPEN_STATES
from control_room.messages import Message, is_number
from control_room.tokens import Person
from control_room.views import (SHOWN_WAITING, batches_view, counters, late_view, office_picture, request_view, vehicle_view)
from control_room.watch import alarms, silent_view
from control_room.web import ROOM, Room, body_of, enter
from control_room.web_zone import WebZone
from control_room.words import Problem, refused
from control_room.zone_view import Answer

# A rider has at most so many open requests at once.
OPEN_REQUESTS = 4
# A rider is told of so many requests, the last ones; the office of so many.
TOLD = 50
ROUTES = web.RouteTableDef()


def wrong(what: str) -> Problem:
    """Returns the problem of a body whose members are not those that are asked for."""
    return Problem("bad-member", what)


def number_of(said: Dict[str, Any], name: str, default: Optional[int] = None) -> int:
    """Returns a whole number of a body; raises Problem."""
    value = said.get(name, default)
    if value is None or not is_number(value):
        raise wrong(f"{name} has to be a whole number from 0")
    return int(value)


def only(said: Dict[str, Any], names: str) -> None:
    """Raises Problem where a body has a member of another name."""
    strange = sorted(set(said) - set(names.split()))
    if strange:
        raise wrong(f"{strange[0]!r:.60} is no member; those are {names}")


def moment_of(zone: WebZone, said: Dict[str, Any], clock_name: str, seconds_name: str) -> int:
    """Returns a moment in Unix milliseconds that a body gives as a clock time, or as seconds of the day from now."""
    if (clock_name in said) == (seconds_name in said):
        raise wrong(f"give either {clock_name}, a date and time as in RFC 3339, or {seconds_name}, in seconds from now")
    if seconds_name in said:
        return zone.clock.moment(zone.clock.now() + number_of(said, seconds_name))
    try:
        moment = read_moment(str(said[clock_name]))
    except (ValueError, OverflowError) as cause:
        raise wrong(f"{clock_name} is no date and time as in RFC 3339") from cause
    if moment < 0:
        raise wrong(f"{clock_name} is before 1970")
    return moment


def message_id(request: web.Request, person: Person) -> str:
    """Returns the id of a message: a new one, or that of this call with its Idempotency-Key, so that calling again says nothing new."""
    key = request.headers.get("Idempotency-Key", "")
    if not key:
        return secrets.token_hex(12)
    call = f"{person.who()} {request.method} {request.path} {key[:200]}"
    return hashlib.sha256(call.encode("utf-8", "replace")).hexdigest()[:24]


def checked(answer: Answer) -> None:
    """Raises the problem that an answer is, where the program refused."""
    if answer.code is not None:
        raise refused(answer.code, answer.line)
    if answer.entry.kind == "bad":
        raise Problem("not-said", f"The log says: {answer.line}")


def sent(request: web.Request, message: Message) -> web.Response:
    """Answers for a message that is in its stream, and whose line is not on the kept log yet."""
    return web.json_response({"state": "sent", "message": message.id, "detail": "Taken, and not answered yet. Send it again with the "
                              "same Idempotency-Key to hear its answer."}, status=202, headers={"Retry-After": "2"})


# Riders.

@ROUTES.post("/zones/{zone}/requests")
async def ask(request: web.Request) -> web.Response:
    """A rider asks for a ride."""
    zone, person = enter(request)
    if person.role == "driver":
        raise Problem("other-role", "A driver asks for no ride.")
    said = await body_of(request)
    only(said, "from to seats chairs pickup_by wait_at_most ride_at_most")
    numbers = {name: number_of(said, name) for name in ("from", "to")}
    numbers.update(seats=number_of(said, "seats", 1), chairs=number_of(said, "chairs", 0), longest=number_of(said, "ride_at_most"),
                   by=moment_of(zone, said, "pickup_by", "wait_at_most"))
    message = Message(message_id(request, person), person.who(), "request", numbers)
    if person.role == "rider" and not zone.view.answer_to(person.who(), message.id):
        refuse_more(zone, person)
    answer = await zone.say("riders", message)
    if answer is None:
        return sent(request, message)
    checked(answer)
    number = answer.entry.numbers[0]
    return web.json_response(request_view(zone.view, zone.chart, zone.times, number), status=201,
                             headers={"Location": f"/zones/{zone.zone.name}/requests/{number}"})


def refuse_more(zone: WebZone, person: Person) -> None:
    """Raises Problem where a rider has as many open requests as one may have."""
    own = zone.view.asked_by.get(person.who(), [])[-200:]
    log = zone.view.log
    open_now = sum(log.requests[number].state in OPEN_STATES for number in own)
    if open_now >= OPEN_REQUESTS:
        raise Problem("open-requests", f"A rider has at most {OPEN_REQUESTS} at once.")


def own_request(zone: WebZone, person: Person, text: str) -> int:
    """Returns the number of a request that this person may see; raises Problem. Of another's a rider is not told that it exists."""
    number = int(text) if text.isdigit() and len(text) <= 18 else -1
    known = number in zone.view.log.requests
    if person.role == "driver":
        raise Problem("other-role", "A driver sees the own plan, and no requests.")
    if not known or (person.role == "rider" and zone.view.owners.get(number) != person.who()):
        raise refused(7)
    return number


@ROUTES.get("/zones/{zone}/requests")
async def requests(request: web.Request) -> web.Response:
    """A rider's own requests, or the office's last ones."""
    zone, person = enter(request)
    if person.role == "driver":
        raise Problem("other-role", "A driver sees the own plan, and no requests.")
    numbers = zone.view.asked_by.get(person.who(), []) if person.role == "rider" else list(zone.view.log.requests)
    return web.json_response({"requests": [request_view(zone.view, zone.chart, zone.times, number) for number in numbers[-TOLD:]]})


@ROUTES.get("/zones/{zone}/requests/{number}")
async def one_request(request: web.Request) -> web.Response:
    """What has become of a request."""
    zone, person = enter(request)
    number = own_request(zone, person, request.match_info["number"])
    return web.json_response(request_view(zone.view, zone.chart, zone.times, number))


@ROUTES.delete("/zones/{zone}/requests/{number}")
async def cancel(request: web.Request) -> web.Response:
    """A rider cancels."""
    zone, person = enter(request)
    number = own_request(zone, person, request.match_info["number"])
    message = Message(message_id(request, person), person.who(), "cancel", {"id": number})
    answer = await zone.say("riders", message)
    if answer is None:
        return sent(request, message)
    checked(answer)
    return web.json_response(request_view(zone.view, zone.chart, zone.times, number))


# Drivers.

def own_vehicle(zone: WebZone, person: Person, text: str) -> int:
    """Returns the number of a vehicle that this person drives, or that the office asks for; raises Problem."""
    number = int(text) if text.isdigit() and len(text) <= 18 else -1
    if person.role == "rider" or (person.role == "driver" and person.name != text):
        raise Problem("other-vehicle")
    if number not in zone.view.log.vehicles:
        raise refused(10)
    return number


@ROUTES.get("/zones/{zone}/vehicles/{number}")
async def vehicle(request: web.Request) -> web.Response:
    """A vehicle's plan, with the times that the map gives."""
    zone, person = enter(request)
    number = own_vehicle(zone, person, request.match_info["number"])
    return web.json_response(vehicle_view(zone.view, zone.chart, zone.times, number))


@ROUTES.post("/zones/{zone}/vehicles/{number}/reports")
async def report(request: web.Request) -> web.Response:
    """A driver reports: where the vehicle is next, a stop that is served, or that it goes on or off duty."""
    zone, person = enter(request)
    number = own_vehicle(zone, person, request.match_info["number"])
    said = await body_of(request)
    word = said.get("report")
    if word not in ("at", "done", "on", "off"):
        raise wrong("report has to be at, done, on or off")
    numbers = {"vehicle": number}
    if word == "at":
        only(said, "report node time in")
        numbers.update(node=number_of(said, "node"), time=moment_of(zone, said, "time", "in"))
    else:
        only(said, "report")
    message = Message(message_id(request, person), person.who(), str(word), numbers)
    answer = await zone.say("drivers", message)
    if answer is None:
        return sent(request, message)
    checked(answer)
    return web.json_response({"reply": answer.entry.reply, "said": list(answer.entry.said), "line": answer.line,
                              "plan": vehicle_view(zone.view, zone.chart, zone.times, number)})


# The office, and who only looks.

def of_the_office(request: web.Request) -> WebZone:
    """Returns the zone where the office asks; raises Problem."""
    zone, person = enter(request)
    if person.role != "office":
        raise Problem("other-role", "This page is the office's.")
    return zone


def watched(zone: WebZone) -> Dict[str, Any]:
    """Returns what the office watches beside the map."""
    age = zone.news_age()
    return {"counters": counters(zone.view), "batches": batches_view(zone.view), "late": late_view(zone.view),
            "rooms": zone.watch.rooms(zone.view), "silent": silent_view(zone.view), "alarms": alarms(zone.view, age, zone.audit),
            "audit": zone.audit, "news_age": round(age, 1), "lines": list(zone.view.lines)[-12:], "shown_waiting": SHOWN_WAITING}


@ROUTES.get("/zones/{zone}/office")
async def office(request: web.Request) -> web.Response:
    """Everything at once: the picture of the map and what the office watches."""
    zone = of_the_office(request)
    return web.json_response({**office_picture(zone.view), **watched(zone), **day_of(zone)})


def day_of(zone: WebZone) -> Dict[str, Any]:
    """Returns how a zone's day goes by."""
    clock = zone.clock
    return {"zone": zone.zone.name, "day": {"began": clock.began, "begin": clock.begin, "speed": clock.speed, "server": unix_now()}}


@ROUTES.get("/zones/{zone}/map")
async def roads(request: web.Request) -> web.Response:
    """The map's crossings and roads: each pair of neighbours once, with its seconds there."""
    zone, _person = enter(request)
    said = {"nodes": zone.chart.places, "roads": zone.chart.pairs(), **day_of(zone)}
    response = web.json_response(said)
    response.enable_compression()
    return response


@ROUTES.get("/zones")
async def zones(request: web.Request) -> web.Response:
    """The zones' names."""
    room: Room = request.app[ROOM]
    return web.json_response({"zones": sorted(room.zones)})
