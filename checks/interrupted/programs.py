"""The two programs as they are run: over files to their end, and as sessions on named pipes that may be killed at any moment."""
from __future__ import annotations

import errno
import os
import random
import subprocess
import threading
from collections import deque
from collections.abc import Mapping
from dataclasses import dataclass, field
from pathlib import Path

from interrupted.logs import Wrong

PATIENCE = 120.0  # seconds that a run over files may take
WHOLE = 4_096  # bytes that a pipe takes whole or not at all
FEEDS = ("riders", "drivers")
KILLED = -9  # the status of a process that SIGKILL ended


@dataclass(frozen=True)
class Programs:
    """The paths of `ride_dispatch` and `ride_resume`, and the map and the fleet file of a day."""

    dispatch: Path
    resume: Path
    map: Path
    fleet: Path

    def over(self, map_file: Path | None = None, fleet: Path | None = None) -> Programs:
        """Returns the same programs over another map or fleet file."""
        return Programs(self.dispatch, self.resume, map_file or self.map, fleet or self.fleet)

    def serving(self, workers: int, desks: int, feeds: list[Path]) -> list[str]:
        """Returns the words of a session that begins, but for its program's pipes, which stand last."""
        options: Mapping[str, object] = {"--workers": workers, "--desks": desks, **self._files(), **_named(feeds)}
        return [str(self.dispatch), "serve", *_flat(options)]

    def resuming(self, log: Path, workers: int, feeds: list[Path], draw: random.Random | None = None) -> list[str]:
        """Returns the words of a session that goes on from a log; its options stand in a drawn order."""
        options: list[tuple[str, object]] = list({"--log": log, "--workers": workers, **self._files(), **_named(feeds)}.items())
        if draw:
            draw.shuffle(options)
        return [str(self.resume), *_flat(dict(options))]

    def auditing(self, log: Path) -> list[str]:
        """Returns the words of an audit of a log."""
        return [str(self.dispatch), "audit", *_flat({**self._files(), "--log": log})]

    def replaying(self, feed: Path) -> list[str]:
        """Returns the words of a replay of a feed."""
        return [str(self.dispatch), "replay", *_flat({**self._files(), "--feed": feed})]

    def _files(self) -> Mapping[str, object]:
        return {"--map": self.map, "--fleet": self.fleet}


def _named(feeds: list[Path]) -> Mapping[str, object]:
    return {f"--{name}": path for name, path in zip(FEEDS, feeds)}


def _flat(options: Mapping[str, object]) -> list[str]:
    return [str(word) for pair in options.items() for word in pair]


def run(words: list[str], output: str | None = None) -> tuple[int, bytes]:
    """Returns the status of a run over files and what it writes; raises Wrong where it does not end."""
    try:
        with open(output or os.devnull, "wb") as sink:
            done = subprocess.run(words, stdin=subprocess.DEVNULL, stdout=sink if output else subprocess.PIPE, stderr=subprocess.DEVNULL,
                                  timeout=PATIENCE, check=False)
    except subprocess.TimeoutExpired:
        raise Wrong(f"a run does not end within {PATIENCE:.0f} s: {' '.join(words)}") from None
    return done.returncode, done.stdout or b""


@dataclass(frozen=True)
class Moment:
    """When a session is killed: some seconds after its start (`starting`, `seconds`), or at so many lines, openings of batches, or ends of
    feeds and desks behind the lines that it began with."""

    kind: str
    amount: float

    KINDS = ("starting", "seconds", "lines", "openings", "ends")


def draw_moment(draw: random.Random) -> Moment:
    """Returns a drawn moment."""
    amounts = {"starting": draw.uniform(0.0, 0.02), "seconds": draw.uniform(0.0, 0.4), "lines": draw.randint(1, 100),
               "openings": draw.randint(1, 3), "ends": draw.randint(1, 3)}
    kind, = draw.choices(Moment.KINDS, (4, 4, 4, 6, 1))
    return Moment(kind, amounts[kind])


@dataclass
class Pipe:
    """A feed's named pipe, with what was not written yet. It is opened for writing as soon as the program reads it."""

    path: Path
    handle: int | None = None
    unwritten: deque[bytes] = field(default_factory=deque)
    closing: bool = False
    closed: bool = False

    def hold(self) -> None:
        """Holds the pipe of a feed that has ended: the program may ask for it, and what stands in it is not to be read."""
        self.handle = os.open(self.path, os.O_RDWR | os.O_NONBLOCK | os.O_CLOEXEC)
        os.write(self.handle, b"clock 1\n")
        self.closed = True

    def write(self) -> None:
        """Writes what the pipe takes, and closes it where that is due."""
        if self.closed:
            return
        try:
            if self.handle is None:
                self.handle = os.open(self.path, os.O_WRONLY | os.O_NONBLOCK | os.O_CLOEXEC)
            while self.unwritten:
                os.write(self.handle, self.unwritten[0])
                self.unwritten.popleft()
        except OSError as fault:
            if fault.errno not in (errno.ENXIO, errno.EAGAIN, errno.EPIPE):
                raise
            return  # nobody reads it yet, it is full, or the session was killed
        if self.closing:
            self.close()

    def close(self) -> None:
        """Lets go of the pipe."""
        if self.handle is not None:
            os.close(self.handle)
        self.handle, self.closed = None, True


class Session:
    """A session on pipes of its own, which writes its log straight into a file. `begin` is how many bytes of the log it began with."""

    def __init__(self, words: list[str], pipes: list[Path], log: Path, begin: int, moment: Moment | None):
        self.log, self.begin, self.moment = log, begin, moment
        self.pipes = [Pipe(path) for path in pipes]
        self.place, self.met = 0, {"lines": 0, "openings": 0, "ends": 0}
        self.was_killed = False
        with open(log, "wb") as sink:
            self.process = subprocess.Popen(words, stdin=subprocess.DEVNULL, stdout=sink, stderr=subprocess.DEVNULL)
        self.reader = os.open(log, os.O_RDONLY | os.O_CLOEXEC)
        self.rest = b""
        self.timer: threading.Timer | None = None
        if moment and moment.kind in ("starting", "seconds"):
            self._kill_after(moment.amount)

    def say(self, feed: int, lines: list[str]) -> None:
        """Has lines written into a feed, in pieces that the pipe takes whole."""
        piece = b""
        for line in lines:
            text = line.encode() + b"\n"
            if len(piece) + len(text) > WHOLE:
                self.pipes[feed].unwritten.append(piece)
                piece = b""
            piece += text
        if piece:
            self.pipes[feed].unwritten.append(piece)

    def close(self, feed: int) -> None:
        """Ends a feed, once all is written."""
        self.pipes[feed].closing = True

    def turn(self) -> list[bytes]:
        """Writes what the pipes take, and returns the whole lines that have come, with their LF."""
        for pipe in self.pipes:
            pipe.write()
        *whole, self.rest = (self.rest + os.read(self.reader, 1 << 20)).split(b"\n")
        lines = [line + b"\n" for line in whole]
        for line in lines:
            self.place += len(line)
            if self.place > self.begin:
                self._count(line)
        return lines

    def _count(self, line: bytes) -> None:
        """Counts a line behind those that it began with; kills it where its moment has come."""
        self.met["lines"] += 1
        self.met["openings"] += b" open " in line
        self.met["ends"] += line.endswith(b" end\n")
        if self.moment and self.moment.kind in self.met and self.met[self.moment.kind] >= self.moment.amount:
            self.kill()

    def _kill_after(self, seconds: float) -> None:
        """Kills it after so many seconds, whatever goes on here."""
        self.timer = threading.Timer(seconds, self.kill)
        self.timer.daemon = True
        self.timer.start()

    def kill(self) -> None:
        """Kills it, as the system does where memory runs out."""
        self.was_killed = True
        self.process.kill()

    def has_ended(self) -> bool:
        """Returns whether it is no more."""
        return self.process.poll() is not None

    def bury(self) -> int:
        """Ends it where it still runs, lets go of all that it had, and returns its status."""
        if self.timer:
            self.timer.cancel()
        if not self.has_ended():
            self.process.kill()
        status = self.process.wait()
        for pipe in self.pipes:
            pipe.close()
        os.close(self.reader)
        return status
