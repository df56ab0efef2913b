"""A link that keeps what is published in place of a broker. It needs Debian's libraries, and room_tests before it for the path."""
import json
from typing import Any, Dict, List, Tuple

from control_room.access import Access
from control_room.link import Link
from control_room.messages import Gate, read_message


class KeptLink(Link):
    """A link that plays each message at once by a gate, and has it answered as its test says."""

    def __init__(self, clock: Any):
        super().__init__(Access((), "", ""), [])
        self.gates = {"riders": Gate(clock, 1), "drivers": Gate(clock, 1)}
        self.up.set()
        self.sent: List[Tuple[str, str]] = []
        self.replies: Dict[str, str] = {}
        self.zone: Any = None

    async def publish(self, stream: str, body: bytes) -> None:
        name = stream.split(".")[1]
        message = read_message(body)
        assert message is not None  # as the server says nothing else
        line = self.gates[name].line_for(message)
        self.sent.append((name, line or "bad"))
        reply = self.replies.get((line or "bad").split()[0])
        if reply is None:
            return
        feed = "f1" if name == "riders" else "f2"
        text = f"{feed} {line} = {reply}" if line else f"{feed} bad 9"
        self.tell([text], [message.id, message.who])

    def tell(self, lines: List[str], origin: Any = None) -> None:
        first = self.zone.view.log.lines + 1
        of = {str(first): origin} if origin else {}
        for answer in self.zone.view.take(json.dumps({"first": first, "lines": lines, "of": of, "moment": 5}).encode()):
            self.zone._tell(answer)
