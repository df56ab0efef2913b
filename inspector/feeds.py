"""Feeds: the commands that a session takes from a feed's text."""
from dataclasses import dataclass

from entries import NUMBERS
from texts import Ended, fields_of, numbers_of, read_up_to, unreadable

MOST_BYTES, MOST_LINES = 1 << 26, 1_000_000


@dataclass(frozen=True)
class Command:
    """A command in the spelling of the log, or `bad N`, with its line in the feed or in the log."""

    line: int
    text: str

    def about(self) -> str:
        """Returns what the command is about: its word, and its request or vehicle where it names one."""
        return " ".join(self.text.split()[:2])


def command_of(fields: list[bytes], version: int) -> str | None:
    """Returns the command that these fields spell, as the log of this version spells it, or None."""
    word, values = fields[0], numbers_of(fields[1:])
    if values is None or word not in NUMBERS and word != b"request":
        return None
    if word == b"request" and version == 2 and len(values) == 6:
        values.append(0)
    if len(values) != NUMBERS.get(word, 5 + version):
        return None
    return " ".join([word.decode(), *map(str, values)])


def read_feed(path: str, version: int) -> tuple[list[Command], bool]:
    """Returns the commands that a session takes from a feed, and whether the feed is too long to be read to its end."""
    data, fault = read_up_to(path, MOST_BYTES + 1)
    if fault is not None:
        raise Ended(2, "", unreadable(path, fault).message)
    lines = data[:MOST_BYTES].split(b"\n")
    if len(data) > MOST_BYTES or not lines[-1]:
        lines.pop()
    commands = []
    for number, line in enumerate(lines[:MOST_LINES], start=1):
        if fields := fields_of(line, b"#"):
            commands.append(Command(number, command_of(fields, version) or f"bad {number}"))
    return commands, len(data) > MOST_BYTES or len(lines) > MOST_LINES
