"""The pipes of a client: where its lines come from, and the feed that they go to."""
import errno
import os
import select
import stat
from typing import List, Optional

from running.faults import BAD_OUTPUT, Fault, of_system, say
from running.kept_file import PIECE

WHOLE = 4_096  # bytes that a pipe takes whole or not at all (PIPE_BUF of Linux)
MOST_SENT = 1_000  # bytes of a line that are taken on: a longer one is bad whatever follows, and has to fit into one write


class LineSource:
    """A stream that is read line by line."""

    def __init__(self, handle: int = 0):
        self.handle, self.rest, self.over = handle, b"", False

    def wait(self, seconds: Optional[float]) -> bool:
        """Returns whether something can be read within so many seconds; waits for it without an end where they are None."""
        return bool(select.select([self.handle], [], [], seconds)[0])

    def take(self) -> List[bytes]:
        """Returns the whole lines that came, without their LF. A last line without LF may be torn, and is left out."""
        try:
            piece = os.read(self.handle, PIECE)
        except OSError as fault:
            raise of_system("standard input", fault) from fault
        *lines, self.rest = (self.rest + piece).split(b"\n")
        self.rest = self.rest[:MOST_SENT]
        self.over = not piece
        if self.over and self.rest:
            say("standard input: it ended in mid-line; that line is not taken")
        return [line[:MOST_SENT] for line in lines]


class FeedPipe:
    """The named pipe of a feed, opened for writing as soon as somebody reads it."""

    def __init__(self, path: str):
        self.path = path
        self.handle: Optional[int] = None
        try:
            if not stat.S_ISFIFO(os.stat(path).st_mode):
                raise Fault(f"{path}: no named pipe")
        except OSError as fault:
            raise of_system(path, fault) from fault

    def write(self, text: bytes) -> bool:
        """Writes at most WHOLE bytes. Returns whether the pipe took them: all or none, so that no kill leaves a torn line."""
        try:
            if self.handle is None:
                self.handle = os.open(self.path, os.O_WRONLY | os.O_NONBLOCK | os.O_CLOEXEC)
            os.write(self.handle, text)
            return True
        except BlockingIOError:
            return False
        except OSError as fault:
            if fault.errno == errno.ENXIO:
                return False
            raise of_system(self.path, fault, BAD_OUTPUT) from fault
