"""Follows a file that another process appends to: its whole lines, as they come."""
import asyncio
import ctypes
import os
from typing import List, Optional

IN_MODIFY = 0x2
PIECE = 1 << 20


class LogTail:
    """A file that grows. It is woken by the kernel's inotify, so that nothing is polled; the file has to exist."""

    def __init__(self, path: str):
        self.file = os.open(path, os.O_RDONLY | os.O_CLOEXEC)
        self.torn = b""
        self.grown = asyncio.Event()
        self.notes = self._watch(path)
        asyncio.get_running_loop().add_reader(self.notes, self._wake)

    @staticmethod
    def _watch(path: str) -> int:
        library = ctypes.CDLL(None, use_errno=True)
        notes: int = library.inotify_init1(os.O_NONBLOCK | os.O_CLOEXEC)
        if notes < 0 or library.inotify_add_watch(notes, os.fsencode(path), IN_MODIFY) < 0:
            raise OSError(ctypes.get_errno(), f"{path} cannot be watched")
        return notes

    def _wake(self) -> None:
        try:
            os.read(self.notes, 65_536)
        except BlockingIOError:
            pass
        self.grown.set()

    def wake(self) -> None:
        """Lets who waits for lines look again."""
        self.grown.set()

    def take(self) -> List[str]:
        """Returns the next whole lines that stand in the file, without their LF; none where it has not grown."""
        piece = os.read(self.file, PIECE)
        *whole, self.torn = (self.torn + piece).split(b"\n")
        return [line.decode("ascii", "replace") for line in whole]

    async def lines(self, seconds: Optional[float] = None) -> List[str]:
        """Returns the next whole lines, waiting for them at most so many seconds; then none."""
        while True:
            self.grown.clear()
            lines = self.take()
            if lines:
                return lines
            try:
                await asyncio.wait_for(self.grown.wait(), seconds)
            except asyncio.TimeoutError:
                return self.take()
            if seconds is not None:
                return self.take()

    def sync(self) -> None:
        """Ends once what was read of the file is on the disk."""
        os.fdatasync(self.file)

    def close(self) -> None:
        asyncio.get_running_loop().remove_reader(self.notes)
        os.close(self.notes)
        os.close(self.file)
