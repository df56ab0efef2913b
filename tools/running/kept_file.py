"""A file of whole lines that one process appends to, and that a crash of the machine leaves as it was said to be."""
import fcntl
import os
import stat
from typing import Iterator

from running.faults import BAD_OUTPUT, Fault, of_system

MOST_LINE = 131_072  # bytes of a log's line
FIRST_FREE = 3  # below are the standard streams
PIECE = 1 << 20


def write_all(handle: int, text: bytes) -> None:
    """Writes all bytes. Raises OSError."""
    rest = memoryview(text)
    while rest:
        rest = rest[os.write(handle, rest):]


class KeptFile:
    """A regular file with a lock, so that nobody else appends to it. `size` is the bytes of its whole lines."""

    def __init__(self, path: str):
        self.path = path
        try:
            self.handle = self._open()
            self.size = os.fstat(self.handle).st_size
        except OSError as fault:
            raise of_system(path, fault) from fault

    def _open(self) -> int:
        opened = os.open(self.path, os.O_RDWR | os.O_CREAT | os.O_APPEND | os.O_CLOEXEC, 0o644)
        # A standard stream that was closed must not become this file: what is said there would stand in it.
        handle = fcntl.fcntl(opened, fcntl.F_DUPFD_CLOEXEC, FIRST_FREE)
        os.close(opened)
        if not stat.S_ISREG(os.fstat(handle).st_mode):
            raise Fault(f"{self.path}: no regular file")
        try:
            fcntl.flock(handle, fcntl.LOCK_EX | fcntl.LOCK_NB)
        except BlockingIOError:
            raise Fault(f"{self.path}: another program appends to it") from None
        self._keep_name()
        return handle

    def _keep_name(self) -> None:
        """Brings the name of a new file to the disk."""
        folder = os.open(os.path.dirname(self.path) or ".", os.O_RDONLY | os.O_CLOEXEC)
        try:
            os.fsync(folder)
        finally:
            os.close(folder)

    def lines(self) -> Iterator[bytes]:
        """Yields the whole lines with their LF."""
        with open(self.path, "rb") as file:
            for line in file:
                if line.endswith(b"\n"):
                    yield line

    def torn(self) -> bytes:
        """Returns the bytes behind the last whole line. Raises Fault where more stand there than a line may have."""
        begin = max(0, self.size - MOST_LINE - 1)
        end = os.pread(self.handle, self.size - begin, begin)
        torn = end[end.rfind(b"\n") + 1:]
        if len(torn) > MOST_LINE:
            raise Fault(f"{self.path}: its last line has more than {MOST_LINE:,} bytes")
        return torn

    def cut(self, torn: bytes) -> None:
        """Cuts these bytes off the end."""
        self.size -= len(torn)
        try:
            os.ftruncate(self.handle, self.size)
            os.fsync(self.handle)
        except OSError as fault:
            raise of_system(self.path, fault, BAD_OUTPUT) from fault

    def append(self, text: bytes, synced: bool = True) -> None:
        """Appends whole lines, which are on the disk afterwards where they are synced. Where that fails none of them stays."""
        try:
            write_all(self.handle, text)
            if synced:
                os.fdatasync(self.handle)
        except OSError as fault:
            self._give_back()
            raise of_system(self.path, fault, BAD_OUTPUT) from fault
        self.size += len(text)

    def _give_back(self) -> None:
        try:
            os.ftruncate(self.handle, self.size)
        except OSError:
            pass  # the fault that led here is the one to tell

    def close(self) -> None:
        """Closes the file and gives its lock up."""
        os.close(self.handle)
