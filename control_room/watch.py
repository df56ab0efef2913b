"""What an operator has to watch: what runs out and when, who is silent, whether a desk falls behind, and how old the news are."""
from collections import deque
from dataclasses import dataclass
from typing import Any, Deque, Dict, List, Optional, Tuple

from control_room.zone_view import ZoneView

# Rates are those of the last so many seconds of life.
WINDOW = 600.0


@dataclass(frozen=True)
class Limit:
    """A limit of a session: what it counts, and its most."""
    name: str
    most: int


LIMITS = (Limit("requests", 100_000), Limit("batches", 2_000), Limit("riders' lines", 1_000_000),
          Limit("drivers' lines", 1_000_000), Limit("log lines", 2_100_000))


def used(view: ZoneView) -> Dict[str, int]:
    """Returns how much of each limit is used."""
    return {"requests": len(view.log.requests), "batches": view.log.asked, "riders' lines": view.feed_lines["f1"],
            "drivers' lines": view.feed_lines["f2"], "log lines": view.log.lines}


class Watch:
    """Remembers how much was used when, so that it can say when a limit is met at the present rate."""

    def __init__(self) -> None:
        self.marks: Deque[Tuple[float, Dict[str, int]]] = deque()

    def mark(self, view: ZoneView, now: float) -> None:
        """Notes what is used at a second of life."""
        self.marks.append((now, used(view)))
        while len(self.marks) > 2 and self.marks[1][0] < now - WINDOW:
            self.marks.popleft()

    def rooms(self, view: ZoneView) -> List[Dict[str, Any]]:
        """Returns for each limit what is used, its most, and in how many seconds of life it is met; None where nothing is used up now."""
        present = used(view)
        return [{"name": limit.name, "used": present[limit.name], "most": limit.most,
                 "seconds_left": self._left(limit, present[limit.name])} for limit in LIMITS]

    def _left(self, limit: Limit, present: int) -> Optional[int]:
        if len(self.marks) < 2:
            return None
        (began, first), (ended, last) = self.marks[0], self.marks[-1]
        grown = last[limit.name] - first[limit.name]
        if grown <= 0 or ended <= began:
            return None
        return int((limit.most - present) * (ended - began) / grown)


def alarms(view: ZoneView, news_age: float, audit: Optional[Dict[str, Any]] = None) -> List[str]:
    """Returns in words what needs a human now. `news_age` is the age of the last line of the log in seconds of life, `audit` what
    the last audit said."""
    said = []
    log = view.log
    if log.ended:
        said.append("The session has ended: " + ", ".join(f"{actor} {how}" for actor, how in sorted(log.ended.items())))
    elif news_age > 15:
        said.append(f"No line of the log for {news_age:.0f} s: session, bridge or broker are silent")
    if log.asked - log.opened > 1:
        said.append(f"The desk falls behind: {log.asked - log.opened} batches were asked for and are not opened")
    if log.asked >= 2_000:
        said.append("2,000 batches were asked for: this session seats nobody any more")
    if audit and not audit["said"].startswith("yes"):
        said.append(f"The audit says of the kept log: {audit['said'] or 'nothing, with status ' + str(audit['status'])}")
    if log.abandoned:
        said.append(f"{log.abandoned} batches were given up for want of memory")
    return said


def silent_view(view: ZoneView, most: int = 20) -> Dict[str, Any]:
    """Returns who drives and is offered nothing for want of a report, the longest silent first."""
    silent = sorted(view.silent(), key=lambda one: -one[1])
    return {"count": len(silent), "vehicles": [{"vehicle": number, "seconds": seconds} for number, seconds in silent[:most]]}
