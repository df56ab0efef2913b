"""The commands of one client, from their keeping to their answers."""
import secrets
from collections import deque
from typing import Deque, Iterable, Optional, Set

from log_lines import head_of
from running.faults import Fault
from running.feed_lines import says_nothing, spelled
from running.kept_file import KeptFile
from running.pipes import WHOLE, FeedPipe

FIRST_MARK = 5 * 10 ** 17  # marks are drawn from here to 10^18, so that no rider's number is one
MARK = b"# mark %d\n"


class Outbox:
    """What a client has said on a feed.

    The k-th command of the kept file is answered by the k-th line of the feed's actor on the log, marks left out. What an outbox
    that was killed wrote may still wait in the pipe: so a new one first writes a mark, a cancellation of a number that was drawn and that
    nobody has. The program refuses it and nothing changes; the commands that are answered before it are all that were ever written.
    Marks are kept as comments, before they are written.
    """

    def __init__(self, kept: KeptFile, feed: FeedPipe, actor: str):
        self.kept_file, self.feed, self.actor = kept, feed, actor
        self.unanswered: Deque[bytes] = deque()
        self.unsent: Deque[bytes] = deque()
        self.marks: Set[str] = set()
        self.mark: Optional[str] = None  # whose answer is awaited before anything is sent
        self.mark_is_sent = False
        self.kept = self.answered = self.version = 0
        self.over = ""

    def recall(self) -> None:
        """Reads what earlier outboxes kept."""
        self.kept_file.cut(self.kept_file.torn())
        for line in self.kept_file.lines():
            if line.startswith(b"#"):
                self.marks.add(f"cancel {int(line.split()[-1])}")
            else:
                self.unanswered.append(line[:-1])
        self.kept = len(self.unanswered)

    def go_on(self) -> None:
        """Begins to send. Called once, after the log was read as far as it stands."""
        if self.unanswered:
            number = FIRST_MARK + secrets.randbelow(FIRST_MARK)
            self.kept_file.append(MARK % number)
            self.mark = f"cancel {number}"
            self.marks.add(self.mark)

    def keep(self, lines: Iterable[bytes]) -> None:
        """Keeps commands, which are on the disk before they are sent. Lines that say nothing are left out."""
        commands = [line for line in lines if not says_nothing(line)]
        if commands:
            self.kept_file.append(b"".join(command + b"\n" for command in commands))
            self.kept += len(commands)
            self.unanswered.extend(commands)
            if self.mark is None:
                self.unsent.extend(commands)

    def send(self) -> None:
        """Writes what the pipe takes."""
        if self.mark and not self.mark_is_sent:
            # Where the last writer was killed in mid-line the first LF ends that line.
            self.mark_is_sent = self.feed.write(f"\n{self.mark}\n".encode())
        while self.unsent:
            lines, size = [], 0
            for command in self.unsent:
                size += len(command) + 1
                if size > WHOLE:
                    break
                lines.append(command + b"\n")
            if not self.feed.write(b"".join(lines)):
                break
            for _ in lines:
                self.unsent.popleft()

    def read(self, line: str) -> Optional[str]:
        """Takes the log's next line. Returns the number, the command and the reply where it answers one. Raises Fault where another is due."""
        if not self.version:
            self._take_head(line)
            return None
        actor, _, said = line.partition(" ")
        if actor != self.actor:
            return None
        if said in ("end", "cut"):
            self.over = said
            return None
        command, _, reply = said.partition(" = ")
        if command in self.marks:
            self._see_mark(command)
            return None
        return self._answer(command, reply)

    def _take_head(self, line: str) -> None:
        try:
            self.version, feeds, _ = head_of(line.split())
        except ValueError:
            raise Fault(f"the log does not begin with the head of one: {line[:60]}") from None
        if int(self.actor[1]) > feeds:
            raise Fault(f"the log has {feeds} feed, and none of {self.actor}")

    def _see_mark(self, mark: str) -> None:
        if mark == self.mark:
            self.mark = None
            self.unsent.extend(self.unanswered)

    def _answer(self, said: str, reply: str) -> str:
        due = spelled(self.unanswered[0], self.version) if self.unanswered else ""
        if said != due and not (due is None and said.startswith("bad ")):
            raise Fault(f"{self.actor} {said}: the log has it where {due or 'a bad line' if self.unanswered else 'no command'} of "
                        f"{self.kept_file.path} is due: another writes into this feed, or it is another log")
        self.answered += 1
        command = self.unanswered.popleft().decode("ascii", "backslashreplace")
        return f"{self.answered} {command} = {reply or said}"
