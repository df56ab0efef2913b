"""What the trials share: where the program is, and a control room that is started, looked after and ended."""
import argparse
import os
import shutil
import sys
import tempfile
import unittest
from contextlib import contextmanager
from pathlib import Path
from typing import Iterator, List, Tuple

sys.path.insert(0, str(Path(__file__).resolve().parents[2]))

from control_room import HERE, supervisor  # noqa: E402
from control_room.__main__ import parser  # noqa: E402
from control_room.broker import Broker, is_installed  # noqa: E402
from control_room.parts import Room  # noqa: E402
from control_room.zones import Zone  # noqa: E402

RESUME = os.environ.get("RIDE_RESUME") or str(HERE.parent / "crates/ride_resume/out/ride_resume")
PROGRAM = os.environ.get("RIDE_DISPATCH") or str(HERE.parent / "crates/ride_dispatch/out/ride_dispatch")
PORT = int(os.environ.get("CONTROL_ROOM_PORT", "8190"))


def libraries() -> bool:
    """Returns whether Debian's libraries are there."""
    try:
        import aiohttp  # noqa: F401
        import pika  # noqa: F401
    except ImportError:
        return False
    return True


def needs_broker(test: type) -> type:
    """Skips a trial by name where the broker, its libraries or the program are missing."""
    found = {"rabbitmq-server": is_installed(), "python3-aiohttp and python3-pika": libraries(),
             f"the program {PROGRAM}": shutil.which(PROGRAM)}
    missing = [name for name, there in found.items() if not there]
    return unittest.skipIf(missing, "missing: " + ", ".join(missing))(test)


def needs_resumption(test: type) -> type:
    """Skips a trial by name where ride_resume is missing."""
    return unittest.skipIf(not shutil.which(RESUME), f"missing: the program {RESUME}")(needs_broker(test))


@contextmanager
def running(*words: str) -> Iterator[Tuple[Room, List[Zone], str]]:
    """Gives a running control room, its zones and its server; ends all of it, and leaves its folder where something fails.

    The audit of each kept log has to say yes at the end, and finished yes.
    """
    folder = Path(tempfile.mkdtemp(prefix="control_room.trial."))
    said, room, zones = made("run", *words, "--folder", str(folder))
    try:
        supervisor.start(said, room, zones)
        yield room, zones, f"http://{said.host}:{said.port}"
    finally:
        audits = supervisor.stop(room, zones)
    assert len(audits) == len(zones) and all(said.startswith("yes ") and said.endswith(" finished yes") for said in audits), audits
    shutil.rmtree(folder)


def made(*words: str) -> Tuple[argparse.Namespace, Room, List[Zone]]:
    """Returns the words of a room, the room and its zones, of which nothing runs yet."""
    resume = ["--resume", RESUME] if shutil.which(RESUME) else []
    said = parser().parse_args([*words, "--program", PROGRAM, *resume, "--port", str(PORT)])
    folder, zones = supervisor.make_room(said)
    return said, Room(folder, Broker(folder / "broker", said.nodes), supervisor.say), zones
