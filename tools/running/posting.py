"""A client's outbox at work: from standard input to the feed, and from the log to standard output."""
import time
from dataclasses import dataclass
from typing import Optional

from running.faults import BAD_OUTPUT, Fault, of_system
from running.kept_file import write_all
from running.log_tail import LogTail
from running.pipes import LineSource
from running.sent_commands import Outbox

MOST_WAITING = 10_000  # commands without an answer, beyond which no more are taken


@dataclass
class Posting:
    """An outbox with its client's lines, the session's log, and where answers are printed: those behind number `after`."""
    outbox: Outbox
    source: LineSource
    log: LogTail
    after: int
    pause: float
    target: int = 1

    def run(self) -> None:
        """Sends all that comes, until it has ended and is answered. Raises Fault where the feed ends before."""
        self.outbox.recall()
        self._write(f"kept {self.outbox.kept}\n")
        while self._take_answers():
            pass
        self.outbox.go_on()
        while not (self.source.over and not self.outbox.unanswered):
            self._check_feed()
            if self._wait():
                self.outbox.keep(self.source.take())
            self.outbox.send()
            self._take_answers()

    def _wait(self) -> bool:
        """Waits for the client, or for a moment. Returns whether lines can be taken."""
        seconds: Optional[float] = self.pause if self.outbox.unanswered else None
        if self.source.over or len(self.outbox.unanswered) >= MOST_WAITING:
            time.sleep(self.pause)
            return False
        return self.source.wait(seconds)

    def _take_answers(self) -> bool:
        """Reads on in the log, and prints the answers that came. Returns whether there was anything to read."""
        lines = self.log.take()
        answers = []
        for line in lines:
            answer = self.outbox.read(line)
            if answer and self.outbox.answered > self.after:
                answers.append(answer + "\n")
        if answers:
            self.log.sync()
            self._write("".join(answers))
        return bool(lines)

    def _check_feed(self) -> None:
        if self.outbox.over:
            raise Fault(f"{self.outbox.feed.path}: the feed has ended on {self.log.path} ({self.outbox.over}); "
                        f"{len(self.outbox.unanswered)} commands have no answer", BAD_OUTPUT)

    def _write(self, text: str) -> None:
        try:
            write_all(self.target, text.encode())
        except OSError as fault:
            raise of_system("standard output", fault, BAD_OUTPUT) from fault
