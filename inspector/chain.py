"""The chain of a log: after each line a hash over all lines so far, so that one of them vouches for the whole beginning.

The chain begins with the hash of a fixed text. Each line's link is its own SHA-256, LF included, and the chain goes on as
the SHA-256 of the chain so far and the link. A head is the chain after a line. To show that a line stands before a head
takes the chain before the line and the links behind it, not the other lines themselves.
"""
import hashlib
import re
from dataclasses import dataclass
from typing import Iterable, Iterator

from texts import Ended

BEGINNING = hashlib.sha256(b"ride_dispatch log chain 1").digest()
HEAD = re.compile(rb"ride_dispatch head 1 line ([1-9][0-9]{0,8}) chain ([0-9a-f]{64})\n")
HASH = re.compile(r"[0-9a-f]{64}")


@dataclass(frozen=True)
class Head:
    """The chain after a line of the log."""

    line: int
    chain: bytes

    def text(self) -> bytes:
        """Returns the head as it is signed."""
        return b"ride_dispatch head 1 line %d chain %s\n" % (self.line, self.chain.hex().encode())


def read_head(text: bytes, name: str) -> Head:
    """Returns the head that a text spells; any other text is bad input."""
    match = HEAD.fullmatch(text)
    if match is None:
        raise Ended(2, "", f"{name} is no head of a log")
    return Head(int(match[1]), bytes.fromhex(match[2].decode()))


def link(line: bytes) -> bytes:
    """Returns the link of a line, with its LF."""
    return hashlib.sha256(line).digest()


def joined(chain: bytes, links: Iterable[bytes]) -> Iterator[bytes]:
    """Yields the chain after each of the links."""
    for one in links:
        chain = hashlib.sha256(chain + one).digest()
        yield chain


def heads(lines: Iterable[bytes]) -> Iterator[Head]:
    """Yields the head after each line of a log."""
    for number, chain in enumerate(joined(BEGINNING, map(link, lines)), start=1):
        yield Head(number, chain)


@dataclass(frozen=True)
class Receipt:
    """A line of the log, the chain before it, the links behind it up to a head, and that head with its signature."""

    line: int
    text: str
    before: bytes
    links: list[bytes]
    head: Head
    signature: str

    def holds(self) -> bool:
        """Returns whether the line leads to the head."""
        *_, last = joined(self.before, [link(self.text.encode() + b"\n"), *self.links])
        return last == self.head.chain and self.line + len(self.links) == self.head.line

    def as_json(self) -> dict:
        """Returns the receipt for a JSON file."""
        return {"receipt": 1, "line": self.line, "text": self.text, "before": self.before.hex(),
                "links": [one.hex() for one in self.links], "head": self.head.text().decode(), "signature": self.signature}


def receipt_of(told: object, name: str) -> Receipt:
    """Returns the receipt of a JSON file; anything else is bad input."""
    fields = told if isinstance(told, dict) else {}
    line, told_links = fields.get("line"), fields.get("links")
    told_hashes = [fields.get("before"), *(told_links if isinstance(told_links, list) else [None])]
    hashes = [bytes.fromhex(one) for one in told_hashes if isinstance(one, str) and HASH.fullmatch(one)]
    told_texts = [fields.get("text"), fields.get("head"), fields.get("signature")]
    texts = [one for one in told_texts if isinstance(one, str) and one.isascii()]
    if type(line) is not int or len(hashes) < len(told_hashes) or len(texts) < len(told_texts):
        raise Ended(2, "", f"{name} is no receipt")
    (before, *links), (text, head, signature) = hashes, texts
    return Receipt(line, text, before, links, read_head(head.encode(), name), signature)
