"""A room that is ended by force while it begins, and right behind that, comes up again with all that was said to it."""
import asyncio
import os
import random
import shutil
import signal
import subprocess
import tempfile
import time
import unittest
from contextlib import suppress
from pathlib import Path
from typing import Callable, Dict, List, Set

from test_hour import Streams, lines_of_messages, session_of, stream_of
from trial_room import PORT, PROGRAM, RESUME, needs_resumption

from control_room import HERE, remnants
from control_room.broker import Broker
from control_room.day_clock import unix_now
from control_room.link import Link
from control_room.messages import Message, read_message
from control_room.parts import PYTHON, Room
from control_room.zones import Zone, load_zones

SEED = int(os.environ.get("CONTROL_ROOM_SEED", "1"))
ROOMS = int(os.environ.get("CONTROL_ROOM_ROOMS", "3"))
# Seconds in which a room is up, and in which all is answered that was said to it.
PATIENCE = 120.0


class Life:
    """A room that `run` begins, as a process of its own, and that is ended by force and begun again; each time with what it says in a file."""

    def __init__(self, folder: Path):
        self.home = folder
        self.folder = folder / "room"
        self.said = folder / "said"
        self.process: "subprocess.Popen[bytes]"

    def begin(self, *words: str) -> None:
        """Begins the room, or goes on with it."""
        with open(self.said, "wb") as output:
            self.process = subprocess.Popen([PYTHON, "-B", "-m", "control_room", "run", *words, "--nobody", "--program", PROGRAM,
                                             "--resume", RESUME, "--port", str(PORT)], cwd=HERE.parent, stdin=subprocess.DEVNULL,
                                            stdout=output, stderr=output, start_new_session=True)

    def begin_again(self) -> None:
        """Goes on with the room, and ends once it is up."""
        self.begin("--again", str(self.folder))
        self.wait_for(lambda: "Ctrl-C ends all" in self.said.read_text())

    def wait_for(self, holds: Callable[[], bool]) -> None:
        """Ends once this holds; a room that ends before, or does not get there, is a fault with what it said."""
        until = time.monotonic() + PATIENCE
        while not holds():
            if self.process.poll() is not None or time.monotonic() > until:
                raise AssertionError(f"{self.folder}: {self.said.read_text()}")
            time.sleep(0.01)

    def room(self) -> Room:
        """Returns the room as another process knows it."""
        return Room(self.folder, Broker(self.folder / "broker"), print)

    def zone(self) -> Zone:
        return next(iter(load_zones(str(self.folder)).values()))

    def makes_streams(self) -> bool:
        """Returns whether the first stream is there."""
        return any(self.folder.glob("broker/node1/data/*/stream/*"))

    def end_by_force(self) -> None:
        """Ends all processes of the room by SIGKILL: the session first, so that its feeds do not end."""
        session = session_of(self.room(), self.zone())
        for process in [session, self.process.pid] if session else [self.process.pid]:
            os.kill(process, signal.SIGKILL)
        self.process.wait()
        while remnants.living(self.folder):
            for process in remnants.living(self.folder).values():
                with suppress(ProcessLookupError):
                    os.kill(process, signal.SIGKILL)
            time.sleep(0.01)


@needs_resumption
class Beginnings(Streams):
    """Rooms that are ended at drawn moments of their first seconds, each three times."""

    def test_a_room_that_is_ended_while_it_begins(self) -> None:
        draw = random.Random(SEED)
        for _ in range(ROOMS):
            self.live("1", draw)

    def test_a_room_with_a_broker_of_three_nodes(self) -> None:
        self.live("3", random.Random(SEED))

    def live(self, nodes: str, draw: random.Random) -> None:
        """Begins a room with so many nodes, and goes through its ends."""
        life = Life(Path(tempfile.mkdtemp(prefix="control_room.beginnings.")))
        life.begin("--town", "--nodes", nodes, "--folder", str(life.folder))
        try:
            self.end_and_go_on(life, draw)
        except BaseException:
            life.end_by_force()
            raise
        shutil.rmtree(life.home)

    def end_and_go_on(self, life: Life, draw: random.Random) -> None:
        """Ends a new room around the moment at which its streams are made, twice more once it was told something, and looks at all then."""
        life.wait_for(life.makes_streams)
        time.sleep(draw.uniform(0.0, 3.0))
        were_made = life.room().broker.is_made()
        life.end_by_force()
        confirmed: Dict[str, Set[str]] = {"riders": set(), "drivers": set()}
        for pause in (0.0, draw.uniform(0.0, 1.0)):
            life.begin_again()
            for name, said in confirmed.items():
                said |= asyncio.run(self.say(life, name, draw.randrange(20, 300)))
            time.sleep(pause)
            life.end_by_force()
        life.begin_again()
        self.check(life, confirmed)
        print(f"streams were made at the first end: {were_made}; {sum(map(len, confirmed.values()))} commands, each once")

    async def say(self, life: Life, name: str, count: int) -> Set[str]:
        """Publishes so many commands on one of the zone's streams. Returns their ids, all confirmed by the broker."""
        zone = life.zone()
        link = Link(life.room().broker.access(), [zone.stream(name)])
        link.start()
        messages = [self.message(name, f"{unix_now()}-{place}") for place in range(count)]
        for message in messages:
            await asyncio.wait_for(link.publish(zone.stream(name), message.text()), PATIENCE)
        await link.close()
        return {message.id for message in messages}

    @staticmethod
    def message(name: str, word: str) -> Message:
        if name == "riders":
            numbers = {"from": 1, "to": 30, "seats": 1, "by": unix_now() + 600_000, "longest": 1_800}
            return Message(word, f"rider:{word}", "request", numbers)
        return Message(word, "driver:1", "on", {"vehicle": 1})

    def check(self, life: Life, confirmed: Dict[str, Set[str]]) -> None:
        """Each confirmed command stands once in its stream, each message has its line in order, and the room ends with the audit's yes."""
        room, zone = life.room(), life.zone()
        for name, actor in (("riders", "f1"), ("drivers", "f2")):
            life.wait_for(lambda: len(lines_of_messages(zone, actor)) >= len(confirmed[name]))
            found: List[str] = [getattr(read_message(body), "id") for body in asyncio.run(stream_of(room.broker, zone, name, 0))]
            self.assertEqual(sorted(found), sorted(confirmed[name]))
            self.check_stream(room, zone, name, actor)
        life.process.send_signal(signal.SIGINT)
        self.assertEqual(life.process.wait(PATIENCE), 0, life.said.read_text())
        self.assertRegex(life.said.read_text(), "audit: yes .* finished yes")


if __name__ == "__main__":
    unittest.main()
