"""Reads the whole lines of a log's file as it grows."""
import os
import stat
from typing import List

from running.faults import Fault, of_system
from running.kept_file import PIECE


class LogTail:
    """A file that others append to. `offset` is where its next line begins: a line that has no end yet is read again from there."""

    def __init__(self, path: str):
        self.path, self.offset = path, 0
        try:
            self.handle = os.open(path, os.O_RDONLY | os.O_CLOEXEC | os.O_NONBLOCK)
        except OSError as fault:
            raise of_system(path, fault) from fault
        if not stat.S_ISREG(os.fstat(self.handle).st_mode):
            raise Fault(f"{path}: no regular file")

    def take(self) -> List[str]:
        """Returns the next whole lines without their LF; none where there are none yet."""
        try:
            piece = os.pread(self.handle, PIECE, self.offset)
        except OSError as fault:
            raise of_system(self.path, fault) from fault
        whole, end, _ = piece.rpartition(b"\n")
        if not end:
            if len(piece) == PIECE:
                raise Fault(f"{self.path}: no log: a line has more than {PIECE:,} bytes")
            return []
        self.offset += len(whole) + 1
        return whole.decode("ascii", "replace").split("\n")

    def sync(self) -> None:
        """Ends once what was read is on the disk."""
        os.fdatasync(self.handle)
