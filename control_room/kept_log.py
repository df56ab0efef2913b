"""A zone's kept log: what stands on it, and whether a session has it."""
import fcntl
import os
import re
import time
from dataclasses import dataclass

from trip_log import State, read_log

HEAD = re.compile(rb"log [12] feeds ([12]) desks ([12])\n")
LAST_WORD = re.compile(rb"^[fd][12] (?:end|cut)$", re.MULTILINE)
OPEN_STATES = (State.WAITING, State.IN_BATCH, State.CONFIRMED, State.ABOARD)


class CannotStart(Exception):
    """Why no session can be started over a kept log, and could not at another time."""


@dataclass(frozen=True)
class Kept:
    """What stands on a kept log: the number and the bytes of its whole lines, and whether each actor has ended."""
    lines: int
    size: int
    over: bool


def whole_lines(path: str) -> bytes:
    """Returns the whole lines of a kept log; a line that is being written is left out, and so is one that is torn."""
    with open(path, "rb") as kept:
        text = kept.read()
    return text[:text.rfind(b"\n") + 1]


def read_kept(path: str) -> Kept:
    """Returns what stands on a kept log; an absent one has no lines. Raises CannotStart where it has no head."""
    try:
        text = whole_lines(path)
    except FileNotFoundError:
        text = b""
    head = HEAD.match(text)
    if text and not head:
        said = text.split(b"\n", 1)[0][:80].decode("ascii", "replace")
        raise CannotStart(f"{path} is no kept log: {said}")
    actors = sum(map(int, head.groups())) if head else 1
    return Kept(text.count(b"\n"), len(text), len(LAST_WORD.findall(text)) == actors)


def what_stands_open(path: str) -> str:
    """Returns in words what stands open on a kept log, for who has to tell people."""
    log = read_log(path)
    counts = [(state.value, sum(request.state == state for request in log.requests.values())) for state in OPEN_STATES]
    named = ", ".join(f"{count} {state}" for state, count in counts if count) or "no open request"
    moving = sum(bool(vehicle.stops) for vehicle in log.vehicles.values())
    return f"{log.lines} lines, {named}, {moving} vehicles with stops to serve"


def is_running(path: str) -> bool:
    """Returns whether a session has this kept log."""
    try:
        handle = os.open(path, os.O_RDONLY | os.O_CLOEXEC)
    except FileNotFoundError:
        return False
    try:
        fcntl.flock(handle, fcntl.LOCK_SH | fcntl.LOCK_NB)
        return False
    except BlockingIOError:
        return True
    finally:
        os.close(handle)


def lock(log: int) -> None:
    """Takes the lock of a kept log; raises BlockingIOError where a session has it. Who looks whether one runs has it for a moment."""
    for attempt in range(20, 0, -1):
        try:
            return fcntl.flock(log, fcntl.LOCK_EX | fcntl.LOCK_NB)
        except BlockingIOError:
            if attempt == 1:
                raise
            time.sleep(0.05)
