"""What a log's bytes say: its whole lines, the commands of each feed, and what was promised and kept."""
from __future__ import annotations

from dataclasses import dataclass

import interrupted  # noqa: F401 - the tools stand on the path
from running.feed_lines import says_nothing, spelled
from trip_log import Fleet, LogError, State, TripLog


class Wrong(Exception):
    """What a program did that it should not, or did not do."""


def whole_lines(text: bytes) -> bytes:
    """Returns the whole lines of a log that breaks off anywhere."""
    return text[:text.rfind(b"\n") + 1]


@dataclass(frozen=True)
class Standing:
    """What stands at the end of a log's whole lines: for each feed its answered commands, with whether it has ended, and the open batches."""

    version: int
    answered: list[list[str]]
    ended: list[bool]
    open_batches: list[int]
    desks: int

    def lives(self) -> bool:
        """Returns whether any feed goes on."""
        return not all(self.ended)


def standing(text: bytes) -> Standing:
    """Returns what stands at the end of a log's whole lines. Raises Wrong where they are none of a log, or have no head."""
    try:
        return _standing(whole_lines(text).decode().splitlines())
    except (ValueError, IndexError) as fault:
        raise Wrong(f"what was written is no log: {text[:60]!r}") from fault


def _standing(lines: list[str]) -> Standing:
    _, version, _, feeds, _, desks = lines[0].split()
    answered: list[list[str]] = [[] for _ in range(int(feeds))]
    ended = [False] * int(feeds)
    opened: list[int] = []
    for line in lines[1:]:
        actor, word, *rest = line.split(" ")
        if actor.startswith("f"):
            feed = int(actor[1:]) - 1
            if word in ("end", "cut"):
                ended[feed] = True
            else:
                answered[feed].append(line.split(" ", 1)[1].split(" = ")[0])
        elif word == "open":
            opened.append(int(rest[0]))
        elif word in ("commit", "abandon"):
            opened.remove(int(rest[0]))
    return Standing(int(version), answered, ended, opened, int(desks))


def check_commands(meant: list[list[str]], said: Standing, is_all: bool) -> None:
    """Raises Wrong where a feed's commands on the log are not those that its client meant, each once and in order: all of them, or the first."""
    for feed, (wanted, found) in enumerate(zip(meant, said.answered), 1):
        due = [spelled(line.encode(), said.version) for line in wanted if not says_nothing(line.encode())]
        if len(found) > len(due) or (is_all and len(found) < len(due)):
            raise Wrong(f"feed {feed} has {len(found)} answers on the log, and {len(due)} commands were meant")
        for place, (text, command) in enumerate(zip(found, due), 1):
            if text != command and not (command is None and text.startswith("bad ")):
                raise Wrong(f"command {place} of feed {feed} is '{text}' on the log, and '{command or 'a bad line'}' was meant")


def check_promises(text: bytes, fleet: Fleet) -> int:
    """Returns how many rides were confirmed. Raises Wrong where one is late by the log's own words and no late report named it, or was lost."""
    log = TripLog(fleet)
    try:
        for line in text.decode().splitlines(keepends=True):
            log.read(line)
    except LogError as fault:
        raise Wrong(f"what was written is no log: {fault}") from fault
    confirmed = [request for request in log.requests.values() if request.confirmed_at is not None]
    planned = {number for vehicle in log.vehicles.values() for number in vehicle.rides}
    for ride in confirmed:
        if ride.picked_at is not None and ride.picked_at > ride.latest and not ride.broken:
            raise Wrong(f"ride {ride.id} was picked up at {ride.picked_at}, its latest second is {ride.latest}, and no report named it")
        rode = None if ride.picked_at is None or ride.dropped_at is None else ride.dropped_at - ride.picked_at
        if rode is not None and rode > ride.longest and not ride.broken:
            raise Wrong(f"ride {ride.id} took {rode} s, {ride.longest} were promised, and no report named it")
        if (ride.state in (State.CONFIRMED, State.ABOARD)) != (ride.id in planned):
            raise Wrong(f"ride {ride.id} was confirmed and is {ride.state.value} at the end, and {'a' if ride.id in planned else 'no'} plan has it")
    return len(confirmed)
