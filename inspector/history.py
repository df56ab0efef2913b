"""The history: which line of a log is the first that the lines before it do not call for, and why."""
from collections import Counter
from dataclasses import dataclass, field

from board import Board
from certificate import certifies, cost_of_seats
from entries import Entry, read_entry, read_head


@dataclass
class History:
    """The log as far as it was read: its board, its actors, how those have ended that have, and counts of words."""

    board: Board
    actors: list[bytes] = field(default_factory=list)
    ended: dict[bytes, bytes] = field(default_factory=dict)
    counts: Counter[str] = field(default_factory=Counter)

    def wrong(self, line: bytes) -> str | None:
        """Takes the next line, with its LF; returns the word that says why it is wrong, or None where it is right."""
        version = self.board.settings.log
        if not self.actors:
            head = read_head(line)
            if head is None or head[0] != version:
                return "spelling"
            self.actors = [b"%s%d" % (kind, n + 1) for kind, most in zip((b"f", b"d"), head[1:]) for n in range(most)]
            return None
        entry = read_entry(line, version)
        if entry is None:
            return "spelling"
        if entry.actor not in self.actors or entry.actor in self.ended or not self._may(entry):
            return "actor"
        self.counts["entries"] += 1
        return self._wrong_content(entry)

    def _may(self, entry: Entry) -> bool:
        """Returns whether the actor may do now what the entry says; a feed that has not ended always may."""
        board, opened = self.board, [batch.number for batch in self.board.batches.values() if batch.desk == entry.actor]
        if entry.word == b"open":
            return not opened and board.opened < board.asked
        if entry.word in (b"commit", b"abandon"):
            return entry.numbers[0] in opened
        if entry.word == b"end" and entry.actor.startswith(b"d"):
            feeds_ended = all(actor in self.ended for actor in self.actors if actor.startswith(b"f"))
            return not opened and feeds_ended and board.opened == board.asked
        return entry.word != b"cut" or not opened

    def _wrong_content(self, entry: Entry) -> str | None:
        if entry.word == b"open":
            return None if self._due(entry.actor) == entry.text else "batch"
        if entry.word == b"commit":
            return self._wrong_commit(entry)
        if entry.word == b"abandon":
            self.board.abandon(entry.numbers[0])
            self.counts["abandoned"] += 1
        elif entry.word in (b"end", b"cut"):
            self.ended[entry.actor] = entry.word
        elif entry.word != b"bad":
            reply = self.board.reply(entry.word, entry.numbers)
            self.counts[reply.split()[0]] += 1
            return None if reply.encode() == entry.text else "reply"
        return None

    def _due(self, desk: bytes) -> bytes:
        """Opens the batch that is due and returns its line, with its LF."""
        batch = self.board.open_batch(desk)
        plans = [f"{copy.id}@{copy.version}" for copy in batch.copies.values()]
        head = f"{desk.decode()} open {batch.number} at {batch.market.now}"
        return " ".join([head, "requests", *map(str, batch.rides), "plans", *plans]).encode() + b"\n"

    def _wrong_commit(self, entry: Entry) -> str | None:
        batch = self.board.batches[entry.numbers[0]]
        if cost_of_seats(batch, entry.seats) != entry.numbers[1]:
            return "seating"
        if not certifies(batch, entry):
            return "prices"
        outcomes = self.board.outcomes(batch, entry.seats)
        if "".join(f" {name}:{outcome}" for name, outcome in outcomes.items()).encode() != entry.text:
            return "outcomes"
        self.board.close(batch, entry.seats, outcomes)
        self.counts.update(outcomes.values())
        return None

    def finished(self) -> bool:
        """Returns whether all ended whole, each batch that was asked for was opened, and none is open or given up."""
        whole = len(self.ended) == len(self.actors) and b"cut" not in self.ended.values()
        return whole and self.board.opened == self.board.asked and not self.counts["abandoned"]

    def summary(self) -> str:
        """Returns the answer to a log that is right to its end."""
        told = " ".join(f"{word} {self.counts[word]}" for word in ("entries", "confirmed", "away", "picked", "dropped"))
        return f"yes {told} finished {'yes' if self.finished() else 'no'}"
