"""The chain of SHA-256 over a log's lines, as inspector/chain.py has it, and a file of its heads."""
import hashlib
import re
from dataclasses import dataclass
from typing import Iterable, Optional

from running.faults import Fault
from running.kept_file import KeptFile

BEGINNING = hashlib.sha256(b"ride_dispatch log chain 1").digest()
HEAD = re.compile(rb"ride_dispatch head 1 line ([1-9][0-9]{0,8}) chain [0-9a-f]{64}\n")


@dataclass
class Chain:
    """The chain after so many lines."""
    line: int = 0
    hash: bytes = BEGINNING

    def take(self, line: bytes) -> None:
        """Takes the next line, with its LF."""
        self.hash = hashlib.sha256(self.hash + hashlib.sha256(line).digest()).digest()
        self.line += 1

    def head(self) -> bytes:
        """Returns the head after the last line."""
        return b"ride_dispatch head 1 line %d chain %s\n" % (self.line, self.hash.hex().encode())


class HeadFile:
    """A file that grows by a head for all lines that shared a sync. It is not synced itself: a head that a crash takes can be made
    again from the log, and one that stands there speaks of lines that were on the disk before it."""

    def __init__(self, path: str):
        self.kept = KeptFile(path)
        self.chain = Chain()

    def go_on(self, path: str, lines: Iterable[bytes]) -> None:
        """Takes the lines that stand in the log at `path`. Raises Fault where the last head is none of theirs."""
        self.kept.cut(self.kept.torn())
        last = self._last()
        due = self._line_of(last) if last else 0
        for line in lines:
            self.chain.take(line)
            if self.chain.line == due and self.chain.head() != last:
                raise Fault(f"{path}: not the log of {self.kept.path}, whose head of line {due} is another")
        if self.chain.line < due:
            raise Fault(f"{path}: {self.chain.line} lines, and {self.kept.path} has a head of line {due}")
        if self.chain.line > due:
            self._append()

    def take(self, text: bytes) -> None:
        """Takes whole lines that are on the disk, and adds the head of the last."""
        for line in text.split(b"\n")[:-1]:
            self.chain.take(line + b"\n")
        self._append()

    def _append(self) -> None:
        self.kept.append(self.chain.head(), synced=False)

    def _last(self) -> Optional[bytes]:
        last = None
        for last in self.kept.lines():
            self._line_of(last)
        return last

    def _line_of(self, head: bytes) -> int:
        match = HEAD.fullmatch(head)
        if not match:
            raise Fault(f"{self.kept.path}: no file of heads")
        return int(match[1])
