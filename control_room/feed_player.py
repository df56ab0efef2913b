"""One feed of a session: messages of a stream played into a named pipe, each exactly once, and paired with their lines."""
import asyncio
import os
import secrets
from collections import deque
from dataclasses import dataclass
from typing import Deque, List, Optional, Tuple

from control_room.messages import FIRST_MARK, NOT_SAID, Gate, is_of_message, read_message

# Bytes that a pipe takes whole or not at all (Linux's PIPE_BUF).
WHOLE = 4_096


class Misplaced(Exception):
    """A line of the kept log that is not the command of the message at its place: the stream is not that of this session."""


@dataclass(frozen=True)
class Origin:
    """Where a feed's line comes from: the message's id, who said it, and the command that it was played as, None for a bad line."""
    id: str
    who: str
    command: Optional[str]


class FeedPlayer:
    """A feed of a running session.

    The number of the feed's lines on the kept log that come of messages is the number of messages that were answered. What a
    bridge that died had written into the pipe is answered later than it died; so a new bridge first writes a mark, a command
    that the program refuses and no other writes. What stands before the mark's line is all that was ever played.
    """

    def __init__(self, actor: str, pipe: str, gate: Gate):
        self.actor = actor
        self.gate = gate
        self.pipe = os.open(pipe, os.O_RDWR | os.O_NONBLOCK | os.O_CLOEXEC)
        self.mark = FIRST_MARK + secrets.randbelow(FIRST_MARK)
        self.answered = 0
        self.played: "asyncio.Future[int]" = asyncio.get_running_loop().create_future()
        self.origins: Deque[Origin] = deque()
        self.read = 0
        self.unwritten: Deque[str] = deque()

    def see(self, kind: str, numbers: Tuple[int, ...]) -> bool:
        """Takes the feed's next line of the kept log. Returns whether it comes of a message."""
        if kind == "cancel" and numbers[0] == self.mark and not self.played.done():
            self.played.set_result(self.answered)
        if not is_of_message(kind, numbers):
            return False
        self.answered += 1
        return True

    def take(self, body: bytes, played: int) -> Optional[str]:
        """Takes the stream's next message. Returns the line to play, None where it is among the `played` first."""
        message = read_message(body)
        command = self.gate.line_for(message)
        self.origins.append(Origin(message.id if message else "", message.who if message else "", command))
        self.read += 1
        return None if self.read <= played else (command or NOT_SAID)

    def origin_of(self, said: str) -> Optional[Origin]:
        """Returns where the next line that comes of a message is from, None where the message is still to be read.

        `said` is the command of the line, or begins with `bad`. Raises Misplaced where another is due.
        """
        if not self.origins:
            return None
        origin = self.origins.popleft()
        due = origin.command or "bad"
        if (said.split(" ")[0] if due == "bad" else said) != due:
            raise Misplaced(f"{self.actor} {said} stands where {due} of message {origin.id} is due")
        return origin

    async def write(self, lines: List[str]) -> None:
        """Writes lines into the pipe in order, in pieces that it takes whole, so that a bridge that dies leaves no torn line."""
        piece = b""
        for line in lines:
            text = line.encode() + b"\n"
            if len(piece) + len(text) > WHOLE:
                await self._write_whole(piece)
                piece = b""
            piece += text
        if piece:
            await self._write_whole(piece)

    async def _write_whole(self, piece: bytes) -> None:
        loop = asyncio.get_running_loop()
        while True:
            try:
                os.write(self.pipe, piece)
                return
            except BlockingIOError:
                has_room = asyncio.Event()
                loop.add_writer(self.pipe, has_room.set)
                await has_room.wait()
                loop.remove_writer(self.pipe)

    def close(self) -> None:
        """Lets go of the pipe."""
        os.close(self.pipe)
