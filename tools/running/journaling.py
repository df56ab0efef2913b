"""A journal: lines of a log that are on the disk before anybody hears of them."""
import fcntl
import os
from typing import Iterator, Optional

from running.faults import BAD_OUTPUT, Fault, of_system, say
from running.head_chain import HeadFile
from running.kept_file import MOST_LINE, PIECE, KeptFile, write_all


def open_log(path: str, again: bool) -> KeptFile:
    """Returns the file of a journal, of whole lines. Raises Fault where lines stand there that nobody spoke of."""
    log = KeptFile(path)
    if log.size and not again:
        raise Fault(f"{path}: not empty; --again goes on behind its last whole line")
    if torn := log.torn():
        keep_torn(path + ".torn", torn)
        log.cut(torn)
        say(f"{path}: its last line had no end; its {len(torn)} bytes stand in {path}.torn now")
    return log


def keep_torn(path: str, torn: bytes) -> None:
    """Keeps the bytes of a torn line as a line of a file of their own."""
    kept = KeptFile(path)
    kept.append(torn + b"\n")
    kept.close()


def open_heads(path: str, log: KeptFile, again: bool) -> HeadFile:
    """Returns the file of heads that goes with a log."""
    heads = HeadFile(path)
    if heads.kept.size and not again:
        raise Fault(f"{path}: not empty; --again goes on behind its last head")
    heads.go_on(log.path, log.lines())
    return heads


class Journal:
    """A log's file, with that of its heads where one is wanted; lines come from `source` and are passed on to `target`."""

    def __init__(self, log: KeptFile, heads: Optional[HeadFile], source: int = 0, target: int = 1):
        self.log, self.heads, self.source, self.target = log, heads, source, target

    def run(self) -> None:
        """Keeps what comes, line by line, until it ends, and passes on what is kept."""
        self._widen()
        goes_on = self.log.size > 0
        for text in self._whole_lines():
            if goes_on and text.startswith(b"log "):
                raise Fault(f"{self.log.path}: what comes is the head of another log")
            goes_on = False
            self.log.append(text)
            if self.heads:
                self.heads.take(text)
            self._pass_on(text)

    def _widen(self) -> None:
        """Lets more lines wait in the pipe, as those that wait together share a sync."""
        try:
            fcntl.fcntl(self.source, fcntl.F_SETPIPE_SZ, PIECE)
        except OSError:
            pass  # it is no pipe, or may not be so wide

    def _whole_lines(self) -> Iterator[bytes]:
        """Yields what waits, up to the last LF of it."""
        rest = b""
        while piece := self._read():
            whole, end, rest = (rest + piece).rpartition(b"\n")
            if end:
                yield whole + end
            if len(rest) > MOST_LINE:
                raise Fault(f"standard input: no line of a log: it has more than {MOST_LINE:,} bytes")
        if rest:
            say(f"standard input: it ended in mid-line; the {len(rest)} bytes of no whole line are not kept")

    def _read(self) -> bytes:
        try:
            return os.read(self.source, PIECE)
        except OSError as fault:
            raise of_system("standard input", fault) from fault

    def _pass_on(self, text: bytes) -> None:
        try:
            write_all(self.target, text)
        except OSError as fault:
            raise of_system("standard output", fault, BAD_OUTPUT) from fault
