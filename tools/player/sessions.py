"""A running program with its feeds, which are named pipes, and a session of `serve` that is played in step.

In step means that each group of lines is answered on the log before the next is written, and that nothing is written from the
question for a batch to its commit. So the order of the log's entries is that of the writing. What a batch seats is then the
program's answer to the same history: the same at every run, as its desk solves one price table by one method, whatever the number
of its threads.
"""
import errno
import os
import subprocess
import tempfile
import time
from typing import Callable, List, Optional, Sequence, TextIO

from player.figures import MOST_BATCHES
from player.files import InputError
from trip_log import Commit, Entry, Fleet, LogError, TripLog

CHUNK = 400  # lines that are written before their answers are read, so that neither pipe fills up
TICKS = os.sysconf("SC_CLK_TCK")

RIDERS, DRIVERS = 0, 1


class SessionError(InputError):
    """A program that cannot be run or has ended, or an answer that is not due."""


def open_feed(path: str, program: "subprocess.Popen[str]") -> int:
    """Returns the writer's end of a named pipe, once the program has opened the other. Raises SessionError where it has ended."""
    while True:
        try:
            end = os.open(path, os.O_WRONLY | os.O_NONBLOCK)
        except OSError as fault:
            if fault.errno != errno.ENXIO:
                raise
            if program.poll() is not None:
                said = program.communicate()[0].strip()
                raise SessionError(f"the program ended with status {program.returncode}" + f": {said}" * bool(said)) from fault
            time.sleep(0.005)
            continue
        os.set_blocking(end, True)
        return end


class Process:
    """A running program with its feeds, which are named pipes."""

    def __init__(self, words: Sequence[str], feeds: Sequence[str]):
        with tempfile.TemporaryDirectory() as folder:
            paths = [f"{folder}/{name}" for name in feeds]
            for path in paths:
                os.mkfifo(path)
            options = [word for name, path in zip(feeds, paths) for word in (f"--{name}", path)]
            try:
                self.process = subprocess.Popen([*words, *options], stdout=subprocess.PIPE, text=True)
            except OSError as fault:
                raise SessionError(f"{words[0]}: {fault.strerror}") from fault
            self.feeds: List[TextIO] = [os.fdopen(open_feed(path, self.process), "w") for path in paths]

    def send(self, feed: int, lines: Sequence[str]) -> None:
        """Writes lines to a feed. Raises SessionError where the program has ended."""
        try:
            self.feeds[feed].write("".join(line + "\n" for line in lines))
            self.feeds[feed].flush()
        except BrokenPipeError as fault:
            raise SessionError("the program reads no more") from fault

    def line(self) -> str:
        """Returns the next line of the program's output, empty at its end."""
        return self.process.stdout.readline()

    def close(self, feed: int) -> None:
        """Ends a feed."""
        self.feeds[feed].close()

    def end(self) -> str:
        """Ends all feeds; returns the rest of the output. Raises SessionError where the status is not 0."""
        for feed in self.feeds:
            feed.close()
        rest = self.process.stdout.read()
        self.process.stdout.close()
        if self.process.wait() != 0:
            raise SessionError(f"the program ended with status {self.process.returncode}")
        return rest

    def kill(self) -> None:
        """Gives the program up."""
        self.process.kill()
        self.process.wait()
        self.process.stdout.close()

    def processors(self) -> float:
        """Returns the seconds of processors that the program has used, in steps of 10 ms."""
        with open(f"/proc/{self.process.pid}/stat", encoding="ascii") as file:
            fields = file.read().rsplit(")", 1)[1].split()
        return (int(fields[11]) + int(fields[12])) / TICKS


Watch = Callable[[Entry], None]


class Session:
    """A session of `serve` in step: what stands by its log, and the log itself where it is to be kept.

    Each of `watchers` is told each entry after the head, when `log` has taken it.
    """

    def __init__(self, program: str, files: Sequence[str], fleet: Fleet, kept: Optional[str] = None, workers: int = 2):
        map_path, fleet_path = files
        words = [program, "serve", "--map", map_path, "--fleet", fleet_path, "--workers", str(workers), "--desks", "1"]
        self.process = Process(words, ["riders", "drivers"])
        self.log = TripLog(fleet)
        self.watchers: List[Watch] = []
        self.most_batches = MOST_BATCHES
        self.batch_seconds: List[float] = []
        self._kept = open(kept or os.devnull, "w", encoding="utf-8")
        self._read()

    def submit(self, feed: int, lines: Sequence[str]) -> List[Entry]:
        """Writes lines to a feed, waits for their answers and returns them."""
        entries = []
        for begin in range(0, len(lines), CHUNK):
            chunk = lines[begin:begin + CHUNK]
            self.process.send(feed, chunk)
            entries += [self._answer(feed) for _ in chunk]
        return entries

    def seat(self) -> Commit:
        """Asks for a batch, and returns its commit; adds the processors' seconds of both to `batch_seconds`."""
        before = self.process.processors()
        self.process.send(RIDERS, ["batch"])
        while not (entry := self._read()).commit:
            if entry.kind == "abandon":
                raise SessionError("a batch was given up for want of memory")
        self.batch_seconds.append(self.process.processors() - before)
        return entry.commit

    def end(self) -> None:
        """Ends the riders' feed, and then the drivers', and reads the log to its end."""
        for feed in (RIDERS, DRIVERS):
            self.process.close(feed)
            while self._read().actor != f"f{feed + 1}":
                pass
        for line in self.process.end().splitlines(keepends=True):
            self._take(line)
        self._kept.close()

    def kill(self) -> None:
        """Gives the session up."""
        self.process.kill()
        self._kept.close()

    def _answer(self, feed: int) -> Entry:
        entry = self._read()
        if entry.actor != f"f{feed + 1}":
            raise SessionError(f"the log has a line of {entry.actor} where an answer to a feed is due")
        return entry

    def _read(self) -> Optional[Entry]:
        line = self.process.line()
        if not line:
            raise SessionError("the program ended before its session did")
        return self._take(line)

    def _take(self, line: str) -> Optional[Entry]:
        self._kept.write(line)
        try:
            entry = self.log.read(line)
        except LogError as fault:
            raise SessionError(f"the program wrote no log: {fault}") from fault
        for watch in self.watchers if entry else ():
            watch(entry)
        return entry


def audit(program: str, map_path: str, fleet_path: str, log_path: str) -> str:
    """Returns what the program's audit says of a log."""
    words = [program, "audit", "--map", map_path, "--fleet", fleet_path, "--log", log_path]
    done = subprocess.run(words, stdout=subprocess.PIPE, stderr=subprocess.DEVNULL, text=True, check=False)
    return done.stdout.strip() or f"the audit ended with status {done.returncode}"


def is_clean(said: str, log: TripLog) -> bool:
    """Returns whether an audit says yes, with the totals of a log that was read, and all has ended whole."""
    return said == f"yes {log.totals()}" and log.finished()

