"""Runs a whole control room: broker, and for each zone keeper and bridge, then the web servers and simulated people."""
import argparse
import asyncio
import json
import os
import shutil
import signal
import sys
import tempfile
import time
import urllib.error
import urllib.request
from dataclasses import replace
from pathlib import Path
from typing import Any, Dict, List, Optional, Tuple

from control_room import HERE, made_zones, remnants, streams
from control_room.auditor import audit
from control_room.broker import Broker, BrokerError
from control_room.keeper import CANNOT_START
from control_room.kept_log import is_running
from control_room.parts import Part, Room
from control_room.tokens import Person, secret_of, sign
from control_room.zones import Zone, ZoneError, load_zones

# Seconds in which the web server answers, and between two lines of progress.
PATIENCE = 180.0
PROGRESS = 10.0
WEEK = 7 * 86_400


class Told(Exception):
    """The room was told to end (SIGTERM, or its terminal was closed)."""


def say(text: str) -> None:
    """Prints a line of progress; where nobody reads any more nothing is said."""
    try:
        print(f"{time.strftime('%H:%M:%S')} {text}", flush=True)
    except BrokenPipeError:
        os.dup2(os.open(os.devnull, os.O_WRONLY), sys.stdout.fileno())


def built(name: str) -> Path:
    """Returns the path at which a program of this name is built."""
    return HERE.parent / "crates" / name / "out" / name


def program_of(given: Optional[str], name: str, option: str) -> str:
    """Returns the path of the program of this name; raises ZoneError."""
    found = given or (str(built(name)) if built(name).exists() else shutil.which(name))
    if not found or not shutil.which(found):
        raise ZoneError(f"{found or built(name)} is no program that can be run; build it as README.md says, or give {option}")
    return str(Path(shutil.which(found) or found).resolve())


def resume_of(words: argparse.Namespace, program: str) -> str:
    """Returns the path of ride_resume, which may stand beside the other program; empty where none was named and none is there."""
    beside = Path(program).with_name("ride_resume")
    if not words.resume and not built("ride_resume").exists() and os.access(beside, os.X_OK):
        return str(beside)
    if not words.resume and not built("ride_resume").exists() and not shutil.which("ride_resume"):
        return ""
    return program_of(words.resume, "ride_resume", "--resume")


def make_room(words: argparse.Namespace) -> Tuple[Path, List[Zone]]:
    """Returns the folder of a control room with its zones: a new one, or one that goes on. A temporary one is taken away where its zones
    cannot be made."""
    program = program_of(words.program, "ride_dispatch", "--program")
    resume = resume_of(words, program)
    if words.again:
        folder = Path(words.again).resolve()
        return folder, saved(left_zones(folder), program, resume)
    folder = new_folder(words)
    try:
        return folder, saved(make_zones(words, folder, program), program, resume)
    except (OSError, ValueError):
        if not words.folder:
            shutil.rmtree(folder)
        raise


def saved(zones: List[Zone], program: str, resume: str) -> List[Zone]:
    """Returns the zones with these programs, by which their parts know them."""
    found = [replace(zone, program=program, resume=resume) for zone in zones]
    for zone in found:
        zone.save()
    return found


def left_zones(folder: Path) -> List[Zone]:
    """Returns the zones of a room of which nothing runs any more; raises ZoneError."""
    zones = list(load_zones(str(folder)).values())
    left = [*remnants.living(folder), *(f"the session of {zone.name}" for zone in zones if is_running(zone.kept_log))]
    if left:
        raise ZoneError(f"of {folder} there runs: {', '.join(left)}; `control_room stop {folder}` ends it")
    return zones


def make_zones(words: argparse.Namespace, folder: Path, program: str) -> List[Zone]:
    """Returns the new zones that the words ask for."""
    if words.own:
        plan = made_zones.OwnPlan(words.begin, words.columns)
        return [made_zones.own_zone(folder, program, words.speed, words.every, Path(source), plan) for source in words.own]
    if not words.city:
        return [made_zones.town(folder, program, words.speed, words.every)]
    names = [f"city{place}" for place in range(1, words.zones + 1)] if words.zones > 1 else ["city"]
    plans = [made_zones.Plan(words.city, words.vehicles, words.seed + place) for place in range(len(names))]
    return [made_zones.drawn_city(folder, program, words.speed, words.every, name, plan) for name, plan in zip(names, plans)]


def new_folder(words: argparse.Namespace) -> Path:
    """Returns the new folder of a control room."""
    if not words.folder:
        return Path(tempfile.mkdtemp(prefix="control_room."))
    folder = Path(words.folder).resolve()
    folder.mkdir(parents=True, exist_ok=True)
    return folder


def health(server: str) -> Dict[str, Any]:
    """Returns what a web server says of its zones, nothing where it does not answer."""
    try:
        with urllib.request.urlopen(f"{server}/health", timeout=2.0) as answer:
            zones: Dict[str, Any] = json.load(answer)["zones"]
            return zones
    except (OSError, ValueError, urllib.error.URLError):
        return {}


def has_begun(zone: Zone) -> bool:
    """Returns whether a zone's session has begun its log; a session that is refused its files writes why in its place."""
    try:
        with open(zone.kept_log, "rb") as kept:
            return kept.read(4) == b"log "
    except FileNotFoundError:
        return False


def wait_for_session(room: Room, zone: Zone) -> None:
    """Ends once the zone's session runs and has its log; raises ZoneError where it ends before."""
    until = time.monotonic() + PATIENCE
    while time.monotonic() < until:
        fault = room.look_after()
        if fault:
            kept = Path(zone.kept_log)
            said = kept.read_text(errors="replace").strip() if kept.exists() else ""
            raise ZoneError(f"{fault}{'; the program says: ' + said[:200] if said else ''}")
        if is_running(zone.kept_log) and has_begun(zone):
            return
        time.sleep(0.05)
    raise ZoneError(f"the session of {zone.name} does not begin")


def wait_for_web(server: str, zones: List[Zone], room: Room) -> None:
    """Ends once a web server has caught up with all zones; raises ZoneError."""
    until = time.monotonic() + PATIENCE
    while time.monotonic() < until:
        said = health(server)
        if len(said) == len(zones) and all(zone["caught_up"] and zone["lines"] for zone in said.values()):
            return
        fault = room.look_after()
        if fault:
            raise ZoneError(fault)
        time.sleep(0.2)
    raise ZoneError(f"the web server does not answer; see {room.folder}/said")


def start(words: argparse.Namespace, room: Room, zones: List[Zone]) -> None:
    """Starts all parts, each once what it needs is there."""
    folder = str(room.folder)
    secret, until = secret_of(room.folder), int(time.time()) + WEEK  # Drawn before two web servers ask for it.
    for zone in zones:  # First, so that a map or a fleet file that is refused is told at once.
        # A keeper that broke off is started again: its session lives, or goes on from the kept log. One that can begin none says why.
        room.start(Part(f"keeper.{zone.name}", ["keeper", folder, zone.name], (CANNOT_START,)))
        wait_for_session(room, zone)
        room.hold(zone)
        say(f"{zone.name}: the session runs, its kept log is {zone.kept_log}")
        if not zone.resume:
            say(f"{zone.name}: ride_resume is not built: a session that breaks off will not go on")
    say("the broker starts")
    streams.begin(room.broker, [stream for zone in zones for stream in zone.streams()], say)
    for zone in zones:
        room.start(Part(f"bridge.{zone.name}", ["bridge", folder, zone.name]))
    server = f"http://{words.host}:{words.port}"
    for place in range(1, words.webs + 1):
        room.start(Part(f"web.{place}", ["web", folder, "--host", words.host, "--port", str(words.port)]))
    wait_for_web(server, zones, room)
    if not words.nobody:
        for zone in zones:
            crowd = ["--seed", str(words.seed), "--riders-an-hour", str(words.riders_an_hour), "--riders", str(words.riders)]
            listens = ["--host", words.host, "--port", str(words.port)]
            room.start(Part(f"simulate.{zone.name}", ["simulate", folder, zone.name, *listens, *crowd]))
    for zone in zones:
        say(f"{zone.name}: a rider's page is {server}/telephone#token={sign(secret, Person('rider', zone.name, 'ada'), until)}")
        say(f"{zone.name}: open {server}/#zone={zone.name}&token={sign(secret, Person('office', zone.name, 'desk'), until)}")


def watch(words: argparse.Namespace, room: Room, server: str) -> int:
    """Looks after all parts until Ctrl-C, SIGTERM or the given time. Returns 0, 3 where a session broke off."""
    began, told = time.monotonic(), 0.0
    while not words.minutes or time.monotonic() < began + 60 * words.minutes:
        fault = room.look_after()
        if fault:
            say(fault)
            return 3
        if time.monotonic() > told + PROGRESS:
            told = time.monotonic()
            for name, zone in health(server).items():
                say(f"{name}: {zone['lines']} lines on the log, the last {zone['news_age']:.1f} s ago")
        time.sleep(0.2)
    return 0


def stop(room: Room, zones: List[Zone]) -> List[str]:
    """Ends all parts in order, so that the sessions end whole, and audits what they kept. Returns what the audits say."""
    say("ending: people, web servers, bridges, sessions, broker")
    room.end(room.named("simulate"), 10.0)
    room.end(room.named("web"), 10.0)
    room.let_go()
    room.end(room.named("bridge") + room.named("keeper"), 60.0)
    room.broker.stop()
    words = []
    for zone in filter(has_begun, zones):
        words.append(asyncio.run(audit(zone)).said)
        say(f"{zone.name}: audit: {words[-1]}")
        say(f"{zone.name}: the kept log is {zone.kept_log}")
    return words


def _told(*_: Any) -> None:
    raise Told


def run(words: argparse.Namespace) -> int:
    """Runs a control room until it is told to end. Returns 0 at a clean end, 2 where it cannot begin, 3 where a session broke off."""
    folder, zones = make_room(words)
    for name in (signal.SIGTERM, signal.SIGHUP):
        signal.signal(name, _told)
    room = Room(folder, Broker(folder / "broker", words.nodes), say)
    say(f"all files are in {folder}")
    status = 0
    try:
        start(words, room, zones)
        say("Ctrl-C ends all")
        status = watch(words, room, f"http://{words.host}:{words.port}")
    except (KeyboardInterrupt, Told):
        pass
    except (ZoneError, BrokerError) as cause:
        print(f"control_room: {cause}", file=sys.stderr)
        status = 2
    finally:
        for name in (signal.SIGINT, signal.SIGTERM, signal.SIGHUP):
            signal.signal(name, signal.SIG_IGN)
        stop(room, zones)
    return status
