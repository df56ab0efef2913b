"""Messages of the streams of riders and drivers, and the line of a feed that each is played as.

A message is played as exactly one line: the command that it says, or a bad line where its sender may not say it. So the
number of a feed's lines that come of messages is the number of its messages that were answered.
"""
import json
from collections import OrderedDict
from dataclasses import dataclass
from typing import Any, Dict, Optional

from control_room.day_clock import DayClock

# The longest message, in bytes. One that is longer is played as a bad line.
LONGEST = 2_000
# Of so many earlier messages of its stream a message is known as a repeat.
REMEMBERED = 200_000
# What is written in the place of a message that may not be said. To the program it is a bad line.
NOT_SAID = "not-said"
# Numbers from here on are the bridge's own marks, and never those of requests.
FIRST_MARK = 10 ** 17


@dataclass(frozen=True)
class Message:
    """What somebody says: `word` is request, cancel, at, done, on or off. `id` is the same where a message is sent again."""
    id: str
    who: str
    word: str
    numbers: Dict[str, int]

    def text(self) -> bytes:
        """Returns the message as it stands in its stream."""
        return json.dumps({"id": self.id, "who": self.who, "word": self.word, "numbers": self.numbers},
                          separators=(",", ":")).encode()


def read_message(body: bytes) -> Optional[Message]:
    """Returns the message of a stream's bytes, None where they are none."""
    if len(body) > LONGEST:
        return None
    try:
        said: Any = json.loads(body)
        message = Message(said["id"], said["who"], said["word"], said["numbers"])
    except (ValueError, TypeError, KeyError, RecursionError):
        return None
    texts = (message.id, message.who, message.word)
    if not all(isinstance(text, str) for text in texts) or not isinstance(message.numbers, dict):
        return None
    return message if all(is_number(number) for number in message.numbers.values()) else None


def is_number(value: Any) -> bool:
    """Returns whether a value is a whole number that a feed can spell: 0 to 18 digits of nine."""
    return isinstance(value, int) and not isinstance(value, bool) and 0 <= value < 10 ** 18


class Gate:
    """Reads the messages of one stream in order and says which line each is played as.

    A rider's client may ask, and cancel what it asked for. A driver's may report of its own vehicle. The office may do either.
    A request's number is that of its message in the stream, from 1. The same messages give the same lines in every process.
    """

    def __init__(self, clock: DayClock, log_version: int):
        self.clock = clock
        self.log_version = log_version
        self.count = 0
        self.owners: Dict[int, str] = {}
        self.seen: "OrderedDict[str, None]" = OrderedDict()

    def line_for(self, message: Optional[Message]) -> Optional[str]:
        """Takes the next message of the stream. Returns the command that it is played as, None where it is a bad line."""
        self.count += 1
        if message is None or self._is_repeat(message):
            return None
        try:
            return self._line(message)
        except KeyError:
            return None

    def _is_repeat(self, message: Message) -> bool:
        name = f"{message.who} {message.id}"
        if name in self.seen:
            return True
        self.seen[name] = None
        if len(self.seen) > REMEMBERED:
            self.seen.popitem(last=False)
        return False

    def _line(self, message: Message) -> Optional[str]:
        role, _, name = message.who.partition(":")
        numbers = message.numbers
        if message.word == "request" and role in ("rider", "office"):
            self.owners[self.count] = message.who
            return self._request(numbers)
        if message.word == "cancel" and self._may_cancel(role, message.who, numbers["id"]):
            return f"cancel {numbers['id']}"
        if message.word in ("at", "done", "on", "off") and (role == "office" or (role == "driver" and name == str(numbers["vehicle"]))):
            return self._report(message.word, numbers)
        return None

    def _may_cancel(self, role: str, who: str, request: int) -> bool:
        return (role == "office" and request < FIRST_MARK) or (role == "rider" and self.owners.get(request) == who)

    def _request(self, numbers: Dict[str, int]) -> Optional[str]:
        chairs = numbers.get("chairs", 0)
        if chairs and self.log_version == 1:
            return None
        latest = self.clock.second(numbers["by"])
        line = f"request {self.count} {numbers['from']} {numbers['to']} {numbers['seats']} {latest} {numbers['longest']}"
        return f"{line} {chairs}" if self.log_version == 2 else line

    def _report(self, word: str, numbers: Dict[str, int]) -> str:
        if word == "at":
            return f"at {numbers['vehicle']} {numbers['node']} {self.clock.second(numbers['time'])}"
        return f"{word} {numbers['vehicle']}"


def is_of_message(kind: str, numbers: Any) -> bool:
    """Returns whether a feed's line of the log comes of a message, and not of the bridge itself.

    The bridge's own are the clock, the asking for batches, and its marks.
    """
    if kind in ("clock", "batch", "end", "cut"):
        return False
    return not (kind == "cancel" and numbers and numbers[0] >= FIRST_MARK)
