"""WebSockets: what changes, as it changes, to riders, drivers and the office.

A client's first message is {"token": ".."}. From then on it is told, at most five times a second: a rider of the own requests,
a driver of the own vehicle, the office of all. A client that reads too slowly misses pictures, and no state.
"""
import asyncio
import json
from dataclasses import dataclass, field
from typing import Any, Dict, Optional, Set

from aiohttp import WSMsgType, web

from control_room.tokens import Person
from control_room.views import office_picture, request_view, vehicle_view
from control_room.web import ROOM, Room
from control_room.web_people import day_of, watched
from control_room.web_zone import WebZone
from control_room.words import Problem

# Seconds between two pictures, and between two lists of what the office watches.
PICTURE = 0.2
WATCHED = 1.0
# Seconds in which a client has to say its token; sockets that a person may have.
TOKEN_IN = 5.0
SOCKETS = 4
ROUTES = web.RouteTableDef()


@dataclass
class Listener:
    """A client that is told: who it is, what it has still to be told, and whether it is being told something now."""
    socket: web.WebSocketResponse
    person: Person
    vehicles: Set[int] = field(default_factory=set)
    requests: Set[int] = field(default_factory=set)
    whole: bool = True
    busy: "Optional[asyncio.Task[None]]" = None




class Tellers:
    """The clients of one zone."""

    def __init__(self, zone: WebZone):
        self.zone = zone
        self.listeners: "Dict[int, Listener]" = {}
        self.rounds = 0

    def tell_all(self) -> None:
        """Tells each client what has changed since it was last told."""
        vehicles, requests = self.zone.view.take_changes()
        self.rounds += 1
        watching = self.rounds % round(WATCHED / PICTURE) == 0
        lists = watched(self.zone) if watching and any(one.person.role == "office" for one in self.listeners.values()) else None
        for listener in self.listeners.values():
            listener.vehicles |= vehicles
            listener.requests |= requests
            if listener.busy is None or listener.busy.done():
                said = self._said(listener, lists)
                if said is not None:
                    listener.busy = asyncio.create_task(send(listener.socket, said))

    def _said(self, listener: Listener, lists: Optional[Dict[str, Any]]) -> Optional[Dict[str, Any]]:
        said = {"office": self._to_office, "driver": self._to_driver, "rider": self._to_rider}[listener.person.role](listener, lists)
        if said is not None:
            listener.whole, listener.vehicles, listener.requests = False, set(), set()
        return said

    def _to_office(self, listener: Listener, lists: Optional[Dict[str, Any]]) -> Optional[Dict[str, Any]]:
        if listener.whole:
            return {**office_picture(self.zone.view), **watched(self.zone), **day_of(self.zone), "whole": True}
        if not listener.vehicles and not listener.requests and lists is None:
            return None
        return {**office_picture(self.zone.view, listener.vehicles), **(lists or {})}

    def _to_driver(self, listener: Listener, _lists: Any) -> Optional[Dict[str, Any]]:
        number = int(listener.person.name)
        if (not listener.whole and number not in listener.vehicles) or number not in self.zone.view.log.vehicles:
            return None
        return {"plan": vehicle_view(self.zone.view, self.zone.chart, self.zone.times, number)}

    def _to_rider(self, listener: Listener, _lists: Any) -> Optional[Dict[str, Any]]:
        view = self.zone.view
        own = view.asked_by.get(listener.person.who(), [])[-20:]
        news = [number for number in own if listener.whole or number in listener.requests
                or view.log.requests[number].vehicle in listener.vehicles]
        if not news and not listener.whole:
            return None
        return {"requests": [request_view(view, self.zone.chart, self.zone.times, number) for number in news]}




async def send(socket: web.WebSocketResponse, said: Dict[str, Any]) -> None:
    """Sends a document; a client that has gone is nobody's fault."""
    try:
        await socket.send_str(json.dumps(said, separators=(",", ":")))
    except (ConnectionError, RuntimeError):
        pass


async def tell(room: Room, zone: WebZone) -> None:
    """Tells the clients of a zone, five times a second."""
    tellers = tellers_of(room, zone)
    while True:
        await asyncio.sleep(PICTURE)
        if zone.caught_up:
            tellers.tell_all()


def tellers_of(room: Room, zone: WebZone) -> Tellers:
    """Returns the clients of a zone in a room."""
    if zone.zone.name not in room.tellers:
        room.tellers[zone.zone.name] = Tellers(zone)
    return room.tellers[zone.zone.name]


@ROUTES.get("/zones/{zone}/live")
async def live(request: web.Request) -> web.StreamResponse:
    """A WebSocket to a rider, a driver or the office."""
    room: Room = request.app[ROOM]
    zone = room.zone(request.match_info["zone"])
    socket = web.WebSocketResponse(heartbeat=20.0, max_msg_size=4_096)
    await socket.prepare(request)
    try:
        person = await said_token(room, zone, socket, request.remote or "")
    except Problem as problem:
        await send(socket, {"problem": problem.document(request.path)})
        await socket.close(code=4000 + problem.status)
        return socket
    tellers, name = tellers_of(room, zone), f"{zone.zone.name} {person.who()}"
    room.sockets[name] = room.sockets.get(name, 0) + 1
    listener = Listener(socket, person)
    tellers.listeners[id(listener)] = listener
    try:
        async for _message in socket:
            pass  # A client says nothing more here.
    finally:
        del tellers.listeners[id(listener)]
        room.sockets[name] -= 1
        if not room.sockets[name]:
            del room.sockets[name]
    return socket


async def said_token(room: Room, zone: WebZone, socket: web.WebSocketResponse, address: str) -> Person:
    """Returns who speaks by the client's first message; raises Problem."""
    try:
        first = await asyncio.wait_for(socket.receive(), TOKEN_IN)
        said = json.loads(first.data) if first.type == WSMsgType.TEXT else {}
        token = said.get("token", "") if isinstance(said, dict) else ""
    except (asyncio.TimeoutError, ValueError, RecursionError):
        token = ""
    person = room.person(str(token), zone.zone.name, address)
    if room.sockets.get(f"{zone.zone.name} {person.who()}", 0) >= SOCKETS:
        raise Problem("too-many-sockets", f"A person has at most {SOCKETS} at once.")
    return person


