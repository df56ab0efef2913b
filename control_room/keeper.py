"""The keeper of a zone's session: starts it on two named pipes, holds both open, and waits for its end.

The session writes its log straight into the kept file, so that no line passes through a process that may die with it. The
keeper does nothing else than hold the pipes: a bridge may die and be started again, and the feeds go on. A session's end is known
by a lock on the kept file: the session inherits it and has it for as long as it lives, whoever started it. An empty kept log begins a
day, by `ride_dispatch serve`; where a session broke off it goes on from its kept log (sessions.py).
"""
import fcntl
import os
import signal
import subprocess
import sys
from typing import List, Optional

from control_room import sessions
from control_room.kept_log import CannotStart, is_running, read_kept
from control_room.zones import Zone

BROKE_OFF = 1  # the status of a keeper whose session broke off, and may go on
CANNOT_START = 2  # the status of a keeper that can begin no session, and would not at another time


class Keeper:
    """Holds the pipes of one zone. Each is held for reading and writing, so that a feed has a writer before a bridge comes."""

    def __init__(self, zone: Zone):
        self.zone = zone
        self.held: List[int] = []
        self.is_starting = self.is_told = False

    def hold(self) -> None:
        """Makes the pipes where they are not there, and holds them open."""
        for feed in ("riders", "drivers"):
            path = self.zone.pipe(feed)
            if not os.path.exists(path):
                os.mkfifo(path, 0o600)
            self.held.append(os.open(path, os.O_RDWR | os.O_CLOEXEC))

    def let_go(self) -> None:
        """Closes the pipes: the session ends once the bridge has let go too."""
        held, self.held = self.held, []
        for pipe in held:
            os.close(pipe)

    def run(self) -> int:
        """Runs until the session has ended. Returns its status; of one that another keeper began 0 where it is over, else BROKE_OFF.
        Raises CannotStart where none can go on, BrokeOff where one ended before it had begun."""
        signal.signal(signal.SIGTERM, lambda *_: self._end())
        signal.signal(signal.SIGINT, signal.SIG_IGN)
        self.hold()
        process = None if is_running(self.zone.kept_log) else self._start()
        if process is None:
            self._wait_for_other()
            return 0 if read_kept(self.zone.kept_log).over else BROKE_OFF
        status = process.wait()
        if not read_kept(self.zone.kept_log).lines:
            raise CannotStart(f"the session of {self.zone.name} does not begin: it {status_words(status)}")
        return status

    def _start(self) -> "Optional[subprocess.Popen[bytes]]":
        """Starts a new day, or goes on from the kept log. Where the room is told to end meanwhile the pipes are held until that has begun:
        a session that asks for a pipe without a writer would wait for ever."""
        zone, kept = self.zone, read_kept(self.zone.kept_log)
        if kept.over:
            raise CannotStart(f"the day of {zone.name} is over: each feed and desk has ended on {zone.kept_log}; a new day takes a new folder")
        self.is_starting = True
        try:
            return sessions.go_on(zone, kept, self.held) if kept.lines else sessions.begin(zone, self.held)
        finally:
            self.is_starting = False
            if self.is_told:
                self.let_go()

    def _end(self) -> None:
        """The room is told to end: lets go of the pipes, at once or as soon as a session that is starting has them."""
        self.is_told = True
        if not self.is_starting:
            self.let_go()

    def _wait_for_other(self) -> None:
        """Waits for the end of a session that is not this process's child: its lock on the kept log falls with it."""
        with open(self.zone.kept_log, "rb") as kept:
            while True:
                try:
                    fcntl.flock(kept, fcntl.LOCK_SH)
                    return
                except InterruptedError:
                    continue


def main(zone: Zone) -> int:
    """Keeps a zone's session. Returns 0 at its end, BROKE_OFF where it broke off and may go on, CANNOT_START where it cannot."""
    try:
        status = Keeper(zone).run()
        if status == 0:
            return 0
        print(f"the session of {zone.name} {status_words(status)}", file=sys.stderr)
        return BROKE_OFF
    except CannotStart as cause:
        print(cause, file=sys.stderr)
        return CANNOT_START
    except sessions.BrokeOff as cause:
        print(cause, file=sys.stderr)
        return BROKE_OFF


def status_words(status: Optional[int]) -> str:
    """Returns how a process ended, in words."""
    if status is None:
        return "runs"
    return f"was ended by signal {-status}" if status < 0 else f"ended with status {status}"
