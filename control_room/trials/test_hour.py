"""An hour of a drawn city over HTTP, while each part is ended at random moments and started again."""
import asyncio
import os
import random
import signal
import time
import unittest
from pathlib import Path
from typing import Any, Callable, Dict, List

from trial_room import made, needs_broker, needs_resumption, running

from trip_log import TripLog, read_fleet, read_log

from control_room import remnants, supervisor
from control_room.broker import Broker
from control_room.kept_log import is_running
from control_room.link import Link
from control_room.messages import Gate, is_of_message, read_message
from control_room.parts import Room
from control_room.tokens import secret_of
from control_room.zones import Zone

SEED = int(os.environ.get("CONTROL_ROOM_SEED", "1"))
RIDERS = int(os.environ.get("CONTROL_ROOM_RIDERS", "200"))
SPEED = 30
KILLS = int(os.environ.get("CONTROL_ROOM_KILLS", "8"))


def session_of(room: Room, zone: Zone) -> int:
    """Returns the process of a zone's session, 0 where none runs now."""
    path = Path(zone.path("session.pid"))
    process = int(path.read_text()) if path.exists() else 0
    return process if process and remnants.is_of(process, room.folder) else 0


def lines_of(path: str) -> int:
    """Returns how many whole lines stand on a kept log."""
    return Path(path).read_bytes().count(b"\n")


class Trouble:
    """Ends parts at random moments, looks after the room, and keeps what was ended."""

    def __init__(self, room: Room, zone: Zone, seed: int):
        self.room, self.zone = room, zone
        self.others = ["session", "session"] if zone.resume else []
        self.draw = random.Random(seed)
        self.ended: List[str] = []
        self.fault = ""

    async def run(self) -> None:
        """Goes on until cancelled; a fault that the room cannot mend is kept."""
        due = time.monotonic() + self.draw.uniform(2, 5)
        while True:
            await asyncio.sleep(0.1)
            self.fault = self.fault or self.room.look_after() or ""
            if time.monotonic() >= due:
                due = time.monotonic() + self.draw.uniform(2, 7)
                name = self.draw.choice(self.room.named("bridge") * 2 + self.room.named("web") * 2 + self.room.named("keeper")
                                        + [node.name for node in self.room.broker.nodes] + self.others)
                if name != "session":
                    self.room.end_by_force(name)
                elif not self.end_session():
                    continue
                self.ended.append(name)

    def end_session(self) -> bool:
        """Ends the session by SIGKILL. Returns whether one ran."""
        process = session_of(self.room, self.zone)
        if process:
            os.kill(process, signal.SIGKILL)
        return process != 0

    async def mend(self) -> None:
        """Looks after the room until all runs."""
        until = time.monotonic() + 20
        while time.monotonic() < until:
            self.room.look_after()
            await asyncio.sleep(0.2)


async def stream_of(broker: Broker, zone: Zone, name: str, count: int) -> List[bytes]:
    """Returns the first messages of a stream, so many and all that come at once behind them."""
    link = Link(broker.access(), zone.streams())
    link.start()
    bodies: List[bytes] = []
    reading = link.read(zone.stream(name), "first")
    try:
        while True:
            _offset, body = await asyncio.wait_for(reading.__anext__(), 15.0 if len(bodies) < count else 2.0)
            bodies.append(body)
    except asyncio.TimeoutError:
        return bodies
    finally:
        await link.close()


def lines_of_messages(zone: Zone, actor: str) -> List[str]:
    """Returns the commands of a feed's lines that come of messages, `bad` for each bad line."""
    log, said = TripLog(read_fleet(zone.fleet)), []
    with open(zone.kept_log) as lines:
        for line in lines:
            entry = log.read(line)
            if entry and entry.actor == actor and is_of_message(entry.kind, entry.numbers):
                said.append("bad" if entry.kind == "bad" else line.split(" ", 1)[1].split(" = ")[0])
    return said


def confirmed_now(zone: Zone) -> Dict[int, int]:
    """Returns the vehicle of each request that the kept log confirms at this moment, read by hand."""
    seats: Dict[int, int] = {}
    with open(zone.kept_log) as lines:
        for line in lines:
            if " commit " in line and line.endswith("\n"):
                listed = line.split(" seats", 1)[1].split(" prices", 1)[0].split()
                named = {int(seat.split(":")[0]): int(seat.split(":")[1]) for seat in listed}
                confirmed = [int(word.split(":")[0]) for word in line.split() if word.endswith(":confirmed")]
                seats.update({request: named[request] for request in confirmed})
    return seats


class Streams(unittest.TestCase):
    """What is looked at of the streams once nobody says anything more."""

    def check_stream(self, room: Room, zone: Zone, name: str, actor: str) -> None:
        """Each message of the stream has one line of the feed, in order."""
        lines = lines_of_messages(zone, actor)
        bodies = asyncio.run(stream_of(room.broker, zone, name, len(lines)))
        gate = Gate(zone.clock(), read_fleet(zone.fleet).settings["log"])
        self.assertEqual([gate.line_for(read_message(body)) or "bad" for body in bodies], lines)


@needs_broker
class Hour(Streams):
    """The hour, with everything that is looked at afterwards."""

    def test_each_command_is_played_once_whatever_is_ended(self) -> None:
        with running("--city", "12", "--vehicles", "24", "--speed", str(SPEED), "--nobody", "--seed", str(SEED)) as (room, zones, server):
            zone, trouble = zones[0], Trouble(room, zones[0], SEED)
            crowd, early = asyncio.run(self.play(room, zone, server, trouble))
            self.assertEqual(trouble.fault, "")
            self.assertEqual(early, [], "told as confirmed before the kept log had it")
            for name, actor in (("riders", "f1"), ("drivers", "f2")):
                self.check_stream(room, zone, name, actor)
            self.check_people(zone, crowd)
            print(f"ended: {', '.join(trouble.ended)}\nriders {crowd.riders}\ndrivers {crowd.drivers}")
        self.assertFalse(is_running(zone.kept_log))

    async def play(self, room: Room, zone: Zone, server: str, trouble: Trouble) -> Any:
        """Plays riders and drivers under trouble until all riders are served. Returns the crowd and what was told too early."""
        import aiohttp
        from control_room.simulate import Crowd, Simulation

        crowd, early = Crowd(an_hour=RIDERS * 60 // 45, in_all=RIDERS, seed=SEED), []

        def told(one: Dict[str, Any]) -> None:
            is_new = one["state"] == "confirmed" and one["request"] not in crowd.confirmed
            if is_new and confirmed_now(zone).get(one["request"]) != one["vehicle"]:
                early.append(one)

        async with aiohttp.ClientSession(connector=aiohttp.TCPConnector(limit=0)) as http:
            simulation = Simulation(zone, server, secret_of(room.folder), crowd, http)
            simulation.listen = told
            driving, troubling = asyncio.create_task(simulation.drive()), asyncio.create_task(trouble.run())
            await asyncio.wait_for(simulation.ask(), 900)
            await asyncio.wait_for(simulation.wait_for_riders(), 900)
            troubling.cancel()
            await trouble.mend()
            simulation.end_drivers()
            await asyncio.wait_for(driving, 60)
        return crowd, early

    def check_people(self, zone: Zone, crowd: Any) -> None:
        """What people were told stands on the kept log, once each."""
        log = read_log(zone.kept_log, read_fleet(zone.fleet))
        self.assertEqual(sorted(crowd.asked), sorted(log.requests), "each accepted request stands once, and no other")
        self.assertEqual(crowd.riders.taken + crowd.riders.refused, RIDERS)
        taken = sum(log.replies[word] for word in ("onmap", "late", "picked", "dropped", "duty"))
        self.assertEqual(crowd.drivers.taken, taken, "each accepted report stands once, and no other")
        for request, vehicle in crowd.confirmed.items():
            self.assertEqual(log.requests[request].vehicle, vehicle)
        self.assertEqual({number: one.state.value.replace("done", "dropped") for number, one in log.requests.items()}, crowd.closed)


@needs_resumption
class KilledSession(Streams):
    """A session that is killed again and again goes on from its kept log, and nobody's seat is lost."""

    def test_a_session_that_breaks_off_goes_on(self) -> None:
        draw = random.Random(SEED)
        with running("--town", "--speed", "20", "--riders-an-hour", "900") as (room, zones, _server):
            zone = zones[0]
            self.until(room, lambda: bool(confirmed_now(zone)))
            for _ in range(KILLS):
                before, seats, process = Path(zone.kept_log).read_bytes(), confirmed_now(zone), session_of(room, zone)
                os.kill(process, signal.SIGKILL)
                self.until(room, lambda: session_of(room, zone) not in (0, process) and lines_of(zone.kept_log) > before.count(b"\n") + 10)
                whole = before[:before.rfind(b"\n") + 1]
                self.assertTrue(Path(zone.kept_log).read_bytes().startswith(whole))
                self.assertEqual({ride: confirmed_now(zone).get(ride) for ride in seats}, seats)
                self.until(room, lambda: False, draw.uniform(0.0, 3.0))
            room.end(room.named("simulate") + room.named("web"), 10.0)
            self.until(room, lambda: False, 5.0)
            for name, actor in (("riders", "f1"), ("drivers", "f2")):
                self.check_stream(room, zone, name, actor)

    def test_a_room_of_which_nothing_is_left_goes_on(self) -> None:
        with running("--town", "--speed", "20", "--riders-an-hour", "900") as (room, zones, _server):
            zone = zones[0]
            self.until(room, lambda: bool(confirmed_now(zone)))
            os.kill(session_of(room, zone), signal.SIGKILL)  # First, so that its feeds do not end.
            before, seats = Path(zone.kept_log).read_bytes(), confirmed_now(zone)
            for name in [*room.parts, *(node.name for node in room.broker.nodes)]:
                room.end_by_force(name)
            assert room.broker.epmd is not None
            room.broker.epmd.kill()
            room.broker.epmd.wait()
            room.let_go()
            said, again, again_zones = made("run", "--again", str(room.folder))
            try:
                supervisor.start(said, again, again_zones)
                self.until(again, lambda: lines_of(zone.kept_log) > before.count(b"\n") + 10)
                self.assertTrue(Path(zone.kept_log).read_bytes().startswith(before[:before.rfind(b"\n") + 1]))
                self.assertEqual({ride: confirmed_now(zone).get(ride) for ride in seats}, seats)
                again.end(again.named("simulate") + again.named("web"), 10.0)
                self.until(again, lambda: False, 5.0)
                for name, actor in (("riders", "f1"), ("drivers", "f2")):
                    self.check_stream(again, zone, name, actor)
            finally:
                supervisor.stop(again, again_zones)

    def until(self, room: Room, holds: Callable[[], bool], seconds: float = 0.0) -> None:
        """Looks after the room until this holds, which has to come within a minute; or for so many seconds."""
        until = time.monotonic() + (seconds or 60.0)
        while not holds() and time.monotonic() < until:
            self.assertIsNone(room.look_after())
            time.sleep(0.05)
        self.assertTrue(seconds or holds())


if __name__ == "__main__":
    unittest.main()
