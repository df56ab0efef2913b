#!/usr/bin/env python3
"""Tells why a request got what it got: each line of the log that is about it, and what each vehicle could have done.

example: python3 inspector/explain.py examples/map.gr examples/fleet.txt examples/morning.log 109

The log is checked on the way; one that is wrong, or that has no line about the request, is bad input (status 2).
Costs are in the unit of the settings `drive`, `wait` and `penalty`; times are in seconds.
"""
import json
import sys
from dataclasses import dataclass, field

from board import WAITING
from certificate import Batch
from check_log import log_lines, read_board
from command_line import parser_of, run
from entries import Entry, read_entry
from history import History
from reasons import Reason, in_words, reason_of
from texts import NUMBER, Ended, refused

REFUSALS = {
    1: "this number was given to a request before", 2: "a node is not on the map", 3: "from and to are the same",
    4: "seats or wheelchairs are out of range, or none", 5: "a time is out of range", 6: "100,000 requests were accepted",
    7: "there is no such request", 8: "the rider is aboard", 9: "the request is closed"}
OUTCOMES = {
    "confirmed": "it gets a seat, which is a promise", "gone": "it was cancelled meanwhile",
    "away": "it is turned away", "moved": "the plan of its vehicle has changed meanwhile, so that it waits again",
    "behind": "the vehicle should have left before the commit, so that it waits again"}


@dataclass
class Story:
    """What the log says about one request: events in the order of the log."""

    request: int
    events: list[dict] = field(default_factory=list)

    def tell(self, line: int, **what: object) -> None:
        """Adds an event of this line of the log."""
        self.events.append({"line": line, **what})

    def read(self, line: int, entry: Entry, history: History, batches: dict[int, Batch]) -> None:
        """Takes an entry that was found right, with the history up to it and the batches that were open before it."""
        if entry.word in (b"request", b"cancel") and entry.numbers[0] == self.request:
            self.tell(line, event=entry.word.decode(), numbers=list(entry.numbers[1:]), reply=entry.text.decode())
        elif entry.word == b"done" and entry.text in (b"picked %d" % self.request, b"dropped %d" % self.request):
            board, vehicle = history.board, entry.numbers[0]
            self.tell(line, event=entry.text.split()[0].decode(), vehicle=vehicle,
                      time=board.vehicles[vehicle].ready - board.settings.dwell)
        elif entry.word == b"at" and str(self.request).encode() in entry.text.partition(b" broken ")[2].split():
            self.tell(line, event="broken", vehicle=entry.numbers[0], seconds=int(entry.text.split()[1]))
        elif entry.word == b"open":
            self._read_opening(line, history)
        elif entry.word in (b"commit", b"abandon") and self.request in batches[entry.numbers[0]].rides:
            self._read_closing(line, entry, batches[entry.numbers[0]])

    def _read_opening(self, line: int, history: History) -> None:
        board = history.board
        if self.request in board.requests and board.requests[self.request].state == WAITING:
            self.tell(line, event="not in the batch", batch=board.opened, taken=board.settings.batch)

    def _read_closing(self, line: int, entry: Entry, batch: Batch) -> None:
        about = {"batch": batch.number, "time": batch.market.now}
        if entry.word == b"abandon":
            self.tell(line, event="given up", **about)
            return
        outcomes = {name: outcome.decode() for name, _, outcome in (item.partition(b":") for item in entry.text.split())}
        vehicles: list[Reason] = [
            {"vehicle": copy.id, "version": copy.version, **reason_of(batch, entry, self.request, copy.id)}
            for copy in batch.copies.values()]
        self.tell(line, event="commit", **about, outcome=outcomes[b"%d" % self.request],
                  price=dict(entry.prices)[self.request], vehicles=vehicles)


def story_of(map_path: str, fleet_path: str, log_path: str, request: int) -> Story:
    """Returns what a log says about a request; raises Ended where the log is wrong."""
    history, story = History(read_board(map_path, fleet_path)), Story(request)
    for number, line in enumerate(log_lines(log_path), start=1):
        batches = dict(history.board.batches)
        if why := history.wrong(line):
            raise refused(2, log_path, f"no {number} {why}")
        if entry := read_entry(line, history.board.settings.log):  # the head is none
            story.read(number, entry, history, batches)
    if not story.events:
        raise Ended(2, "", f"{log_path} has no line about request {request}")
    return story


def line_of(event: dict) -> str:
    """Returns an event, without its vehicles, in words."""
    kind = event["event"]
    if kind in ("request", "cancel"):
        return asked_in_words(event)
    if kind == "commit":
        outcome = OUTCOMES[event["outcome"].split(":")[0]]
        return f"batch {event['batch']}, priced at second {event['time']}: {event['outcome']}: {outcome}"
    if kind == "given up":
        return f"batch {event['batch']} is given up for want of memory: the request waits again"
    if kind == "not in the batch":
        return f"batch {event['batch']} takes the first {event['taken']} that wait, and this is not among them: it waits"
    if kind == "broken":
        return f"vehicle {event['vehicle']} reports {event['seconds']} s late, which breaks what was promised"
    return f"{kind} by vehicle {event['vehicle']} at second {event['time']}"


def asked_in_words(event: dict) -> str:
    """Returns a request or a cancellation with its reply in words."""
    word, *number = event["reply"].split()
    asked = event["event"]
    if asked == "request":
        origin, target, seats, latest, longest, *chairs = event["numbers"]
        places = [f"{count} {name}{'' if count == 1 else 's'}" for count, name in
                  ((seats, "seat"), (sum(chairs), "wheelchair")) if count]
        asked = (f"asks for {' and '.join(places) or 'no seat'} from {origin} to {target}, picked up by second {latest}, "
                 f"aboard for at most {longest} s")
    told = {"waiting": "it waits", "cancelled": "it is taken back", "freed": "its seat is given back"}
    return f"{asked}: " + (f"refused, as {REFUSALS[int(number[0])]}" if word == "refused" else told[word])


def words_of(story: Story) -> str:
    """Returns the story for a rider."""
    lines = [f"request {story.request}"]
    for event in story.events:
        lines.append(f"line {event['line']}: {line_of(event)}")
        lines += [f"    vehicle {vehicle['vehicle']}: {in_words(vehicle)}" for vehicle in event.get("vehicles", [])]
    return "\n".join(lines)


def main() -> int:
    """Returns the exit status."""
    parser = parser_of(__doc__, {"MAP": "the road map, a .gr file", "FLEET": "the fleet file", "LOG": "the trip log",
                                 "REQUEST": "the request's number"})
    parser.add_argument("--json", action="store_true", help="write one JSON object in place of words (default words)")
    words = parser.parse_args()
    if not NUMBER.fullmatch(words.request.encode(errors="replace")):
        raise Ended(2, "", "REQUEST is a number of at most 18 digits")
    try:
        story = story_of(words.map, words.fleet, words.log, int(words.request))
    except Ended as end:
        raise Ended(2, "", end.message) from None
    print(json.dumps({"request": story.request, "events": story.events}) if words.json else words_of(story))
    return 0


if __name__ == "__main__":
    sys.exit(run(main))
