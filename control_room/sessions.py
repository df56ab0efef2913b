"""A zone's sessions: one that begins a day, and one that goes on from the kept log after another broke off.

`ride_resume` writes the whole log anew, the old lines first. So its output goes into a file beside the kept log, which becomes the kept log
once it has all the old lines: at no moment is a line missing that stood there. What the session that broke off had read and not
answered is gone, and a part of a line may wait in a pipe. So both pipes are emptied while no bridge writes, and the next bridge goes on
behind the last message that the kept log answers.
"""
import fcntl
import os
import subprocess
import time
from contextlib import contextmanager
from pathlib import Path
from typing import Iterator, List, Optional

from control_room.kept_log import CannotStart, Kept, is_running, lock, what_stands_open
from control_room.zones import Zone

# Statuses by which ride_resume says what is wrong with words, map, fleet file or log: at another time it would say the same.
REFUSALS = (2, 3, 4, 7, 8)
# Seconds between two looks at an output that grows, and bytes that are compared at once.
PAUSE = 0.02
PIECE = 1 << 20


class BrokeOff(Exception):
    """A session that ended before its output was the kept log. It may be tried again."""


@contextmanager
def undisturbed(zone: Zone, pipes: List[int]) -> Iterator[None]:
    """Waits until no bridge writes into the zone's pipes, and empties them; no bridge begins until the end."""
    with open(zone.path("bridge.lock"), "w") as held:
        fcntl.flock(held, fcntl.LOCK_EX)
        for pipe in pipes:
            empty(pipe)
        yield


def empty(pipe: int) -> None:
    """Takes out what waits in a pipe."""
    os.set_blocking(pipe, False)
    try:
        while os.read(pipe, PIECE):
            pass
    except BlockingIOError:
        pass
    finally:
        os.set_blocking(pipe, True)


def begin(zone: Zone, pipes: List[int]) -> "subprocess.Popen[bytes]":
    """Starts the session of a new day, which writes straight into the kept log; raises CannotStart."""
    with undisturbed(zone, pipes):
        return _start(zone, [zone.program, "serve", "--desks", "1"], zone.kept_log)


def go_on(zone: Zone, kept: Kept, pipes: List[int]) -> "Optional[subprocess.Popen[bytes]]":
    """Starts a session that goes on from the kept log, and ends once its output is the kept log. Returns its process; None where it is
    one that another keeper began, which died meanwhile. Raises CannotStart, and BrokeOff where the session ends before."""
    if not zone.resume:
        raise CannotStart(f"the session of {zone.name} broke off, and ride_resume is not there to go on. Open on {zone.kept_log}: "
                          f"{what_stands_open(zone.kept_log)}")
    with undisturbed(zone, pipes):
        process = None
        if not is_running(zone.resumed_log):
            process = _start(zone, [zone.resume, "--log", zone.kept_log], zone.resumed_log)
        try:
            _wait_for_old_lines(zone, kept, process)
            _take_place(zone, kept)
        except CannotStart:
            if process:
                process.kill()
                process.wait()
            raise
    return process


def _start(zone: Zone, words: List[str], path: str) -> "subprocess.Popen[bytes]":
    """Starts a program by these words and those that all sessions have. Its output is the file at this path, of which it has the lock."""
    words = [*words, "--map", zone.map, "--fleet", zone.fleet, "--riders", zone.pipe("riders"), "--drivers", zone.pipe("drivers"),
             "--workers", str(zone.workers)]
    log = os.open(path, os.O_WRONLY | os.O_CREAT | os.O_APPEND | os.O_CLOEXEC, 0o644)
    try:
        lock(log)
        os.ftruncate(log, 0)
        process = subprocess.Popen(words, stdin=subprocess.DEVNULL, stdout=log, start_new_session=True)
    except BlockingIOError as cause:
        raise CannotStart(f"{path} is another session's") from cause
    except OSError as cause:
        raise CannotStart(f"{words[0]}: {cause.strerror}") from cause
    finally:
        os.close(log)
    Path(zone.path("session.pid")).write_text(f"{process.pid}\n")
    return process


def _wait_for_old_lines(zone: Zone, kept: Kept, process: "Optional[subprocess.Popen[bytes]]") -> None:
    """Ends once the output has as many bytes as the kept log's whole lines."""
    has_ended = False
    while os.path.getsize(zone.resumed_log) < kept.size:
        if has_ended:
            raise _why_not(zone, process)
        time.sleep(PAUSE)
        has_ended = process.poll() is not None if process else not is_running(zone.resumed_log)


def _why_not(zone: Zone, process: "Optional[subprocess.Popen[bytes]]") -> Exception:
    """Returns why a session ended before it had written the old lines."""
    status = process.returncode if process else None
    if status in REFUSALS:
        said = Path(zone.resumed_log).read_text(errors="replace").strip()[:200]
        return CannotStart(f"{zone.name} cannot go on from {zone.kept_log}: ride_resume says '{said}' with status {status}")
    return BrokeOff(f"{zone.name}: ride_resume ended (status {status}) before it had gone on")


def _take_place(zone: Zone, kept: Kept) -> None:
    """Makes the output the kept log, once it is on the disk; raises CannotStart where it does not begin with the old lines."""
    with open(zone.kept_log, "rb") as old, open(zone.resumed_log, "rb") as new:
        left = kept.size
        while left:
            piece = old.read(min(PIECE, left))
            if new.read(len(piece)) != piece:
                raise CannotStart(f"{zone.resumed_log} does not begin with the lines of {zone.kept_log}")
            left -= len(piece)
        os.fdatasync(new.fileno())
    os.rename(zone.resumed_log, zone.kept_log)
    folder = os.open(zone.folder, os.O_RDONLY | os.O_CLOEXEC)
    try:
        os.fsync(folder)
    finally:
        os.close(folder)
