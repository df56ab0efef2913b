"""The web server: riders, drivers and the office over HTTP. It keeps no state of its own: what it knows it reads from the streams."""
import asyncio
import json
import signal
import sys
from dataclasses import dataclass
from pathlib import Path
from typing import Any, Awaitable, Callable, Dict, List, Optional

from aiohttp import web
from trip_log import LogError

from control_room.access import Access
from control_room.limits import RateLimit
from control_room.link import Link
from control_room.tokens import BadToken, Person, read_token
from control_room.web_zone import WebZone
from control_room.words import OWN, REFUSALS, Problem
from control_room.zones import Zone

STATIC = Path(__file__).resolve().parent / "static"
# A body has at most so many bytes.
LONGEST_BODY = 4_096
# So many acts a second, and at once, for each person of a role; and bad tokens for each address.
RATES = {"rider": (2.0, 20), "driver": (5.0, 40), "office": (50.0, 200)}
BAD_TOKENS = (0.5, 20)

Handler = Callable[[web.Request], Awaitable[web.StreamResponse]]


@dataclass
class Room:
    """What a web server's handlers share."""
    secret: bytes
    zones: Dict[str, WebZone]
    limits: Dict[str, RateLimit]
    strangers: RateLimit
    sockets: Dict[str, int]
    tellers: Dict[str, Any]

    def zone(self, name: str) -> WebZone:
        """Returns a zone by name; raises Problem."""
        if name not in self.zones:
            raise Problem("no-zone", f"The zones are {', '.join(sorted(self.zones))}.")
        return self.zones[name]

    def person(self, token: str, zone: str, address: str) -> Person:
        """Returns whose token this is, where it is of that zone; raises Problem. Counts bad ones by address, and acts by person."""
        if self.strangers.is_empty(address):
            raise too_often(self.strangers.take(address))
        try:
            person = read_token(self.secret, token)
        except (BadToken, ValueError) as cause:
            self.strangers.take(address)
            raise Problem("bad-token", f"{cause}." if isinstance(cause, BadToken) else "It is no token.") from cause
        if not person.may_enter(zone):
            raise Problem("other-zone")
        wait = self.limits[person.role].take(f"{person.zone} {person.who()}")
        if wait:
            raise too_often(wait)
        return person


ROOM = "room"


def too_often(seconds: float) -> Problem:
    """Returns the problem of who comes too often, and may come again after so many seconds."""
    return Problem("too-often", f"Come again in {seconds:.1f} seconds.", retry_after=max(1, round(seconds)))


def problem_response(problem: Problem, request: web.Request) -> web.Response:
    """Returns a problem document."""
    headers = {"Retry-After": str(problem.retry_after)} if problem.retry_after else {}
    if problem.status == 401:
        headers["WWW-Authenticate"] = 'Bearer realm="control room"'
    return web.Response(status=problem.status, text=json.dumps(problem.document(request.path)) + "\n", headers=headers,
                        content_type="application/problem+json")


KINDS = {404: "no-page", 405: "other-method", 413: "too-long"}


@web.middleware
async def problems(request: web.Request, handler: Handler) -> web.StreamResponse:
    """Answers each refusal by a problem document."""
    try:
        return await handler(request)
    except Problem as problem:
        return problem_response(problem, request)
    except web.HTTPException as refused:
        if refused.status < 400:
            raise
        detail = f"A body has at most {LONGEST_BODY} bytes." if refused.status == 413 else ""
        return problem_response(Problem(KINDS.get(refused.status, "bad-call"), detail), request)


@web.middleware
async def safe_headers(request: web.Request, handler: Handler) -> web.StreamResponse:
    """Tells browsers to run nothing but what this server gives, and to show the page in no frame."""
    response = await handler(request)
    if not response.prepared:
        response.headers.setdefault("X-Content-Type-Options", "nosniff")
        response.headers.setdefault("Cache-Control", "no-store")
        response.headers.setdefault("Referrer-Policy", "no-referrer")
        response.headers.setdefault("Content-Security-Policy", "default-src 'self'; frame-ancestors 'none'; base-uri 'none'")
    return response


def bearer(request: web.Request) -> str:
    """Returns the token of the Authorization header, nothing where there is none."""
    kind, _, token = request.headers.get("Authorization", "").partition(" ")
    return token.strip() if kind.lower() == "bearer" else ""


def enter(request: web.Request) -> "tuple[WebZone, Person]":
    """Returns the zone of a request's path and who asks; raises Problem."""
    room: Room = request.app[ROOM]
    zone = room.zone(request.match_info["zone"])
    person = room.person(bearer(request), zone.zone.name, request.remote or "")
    if not zone.caught_up:
        raise Problem("reading", retry_after=1)
    return zone, person


async def body_of(request: web.Request) -> Dict[str, Any]:
    """Returns a body that is one JSON object; raises Problem."""
    try:
        said = json.loads(await request.text())
    except (ValueError, LookupError, RecursionError) as cause:  # LookupError is that of an unknown charset.
        raise Problem("bad-json", str(cause)[:200]) from cause
    if not isinstance(said, dict):
        raise Problem("bad-json")
    return said


async def page(request: web.Request) -> web.StreamResponse:
    """Serves a page of the folder `static`."""
    name = request.match_info.get("name") or {"/": "office.html", "/api": "api.html", "/telephone": "telephone.html"}[request.path]
    path = STATIC / name
    if not path.is_file():
        raise web.HTTPNotFound()
    return web.FileResponse(path)


async def problem_page(_request: web.Request) -> web.Response:
    """Serves the page that the types of problem documents point to."""
    rows = "".join(f'<tr id="refused-{code}"><th>{code}</th><td>{one.name}</td><td>{one.status}</td><td>{one.sentence}</td></tr>'
                   for code, one in REFUSALS.items())
    own = "".join(f'<tr id="{kind}"><th>{kind}</th><td>{title}</td><td>{status}</td></tr>' for kind, (status, title) in OWN.items())
    text = ("<!doctype html><html lang=en><meta charset=utf-8><title>Refusals</title>"
            "<link rel=stylesheet href=/static/office.css><link rel=icon href=/static/icon.svg>"
            "<main class=text><h1>Refusals</h1><p>The program refuses a command by a code and a name. The HTTP status is the one that "
            "fits it.</p><table><tr><th>Code</th><th>Name</th><th>Status</th><th>Meaning</th></tr>" + rows + "</table>"
            "<h2>The control room's own</h2><table><tr><th>Name</th><th>Meaning</th><th>Status</th></tr>" + own + "</table></main></html>")
    return web.Response(text=text, content_type="text/html")


async def health(request: web.Request) -> web.Response:
    """Says of each zone whether this server has caught up, and how old its news are."""
    room: Room = request.app[ROOM]
    said = {name: {"caught_up": zone.caught_up, "lines": zone.view.log.lines, "news_age": round(zone.news_age(), 3),
                   "broker": zone.link.up.is_set()} for name, zone in room.zones.items()}
    return web.json_response({"zones": said})


def make_app(room: Room) -> web.Application:
    """Returns the application over a room."""
    from control_room import web_live, web_people

    app = web.Application(middlewares=[safe_headers, problems], client_max_size=LONGEST_BODY)
    app[ROOM] = room
    app.add_routes([web.get("/", page), web.get("/api", page), web.get("/telephone", page),
                    web.get("/static/{name:[a-z_]+\\.(?:html|css|js|json|svg)}", page), web.get("/health", health),
                    web.get("/problems", problem_page), web.get("/{name:openapi\\.json}", page)])
    app.add_routes(web_people.ROUTES)
    app.add_routes(web_live.ROUTES)
    return app


def make_room(secret: bytes, zones: Dict[str, Zone], link: Link) -> Room:
    """Returns a web server's room over these zones."""
    limits = {role: RateLimit(rate, burst) for role, (rate, burst) in RATES.items()}
    return Room(secret, {name: WebZone(zone, link) for name, zone in zones.items()}, limits, RateLimit(*BAD_TOKENS), {}, {})


async def serve(secret: bytes, zones: Dict[str, Zone], access: Access, host: str, port: int) -> None:
    """Serves until SIGTERM."""
    from control_room import web_live

    link = Link(access, [stream for zone in zones.values() for stream in zone.streams()])
    link.start()
    room = make_room(secret, zones, link)
    ended = asyncio.Event()
    asyncio.get_running_loop().add_signal_handler(signal.SIGTERM, ended.set)
    runner = web.AppRunner(make_app(room), access_log=None, handle_signals=False)
    await runner.setup()
    await web.TCPSite(runner, host, port, shutdown_timeout=2.0, reuse_port=True).start()
    telling = [asyncio.create_task(web_live.tell(room, zone)) for zone in room.zones.values()]
    for zone in room.zones.values():
        zone.start()
    fault = await first_fault([*telling, *(task for zone in room.zones.values() for task in zone.tasks)], ended)
    for task in telling:
        task.cancel()
    for zone in room.zones.values():
        zone.stop()
    await runner.cleanup()
    await link.close()
    if fault:
        raise fault


async def first_fault(tasks: "List[asyncio.Task[None]]", ended: asyncio.Event) -> Optional[BaseException]:
    """Waits until the server is to end, or a task that never ends has ended: then its fault is returned."""
    waiting = asyncio.create_task(ended.wait())
    done, _ = await asyncio.wait([*tasks, waiting], return_when=asyncio.FIRST_COMPLETED)
    return None if waiting in done else next(iter(done)).exception()


def main(secret: bytes, zones: Dict[str, Zone], access: Access, host: str, port: int) -> int:
    """Runs a web server. Returns 0 where it was told to end, 3 where a stream of a log is not one."""
    signal.signal(signal.SIGINT, signal.SIG_IGN)
    try:
        asyncio.run(serve(secret, zones, access, host, port))
    except (LogError, KeyError) as fault:
        print(f"web server: a stream of the log is not that of its zone: {fault}", file=sys.stderr)
        return 3
    return 0


