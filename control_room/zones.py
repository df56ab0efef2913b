"""A zone: one session of its own, with its files and its streams."""
import json
import os
import re
from dataclasses import asdict, dataclass
from pathlib import Path
from typing import Any, Dict, List

from control_room.day_clock import DayClock
from control_room.whole import write_whole

ZONE_NAME = re.compile(r"[a-z][a-z0-9-]{0,30}")


class ZoneError(ValueError):
    """A folder that is no zone's, or a zone whose words are out of order."""


@dataclass(frozen=True)
class Zone:
    """A session's files and how its day goes. Times are seconds of the day where nothing else is said.

    The folder has map.gr, fleet.txt, perhaps nodes.co, and, once the session runs, the two pipes and kept.log. `began` is the
    Unix time in milliseconds of the day's second `begin`, `speed` how many seconds of the day pass in one of life. A batch is
    asked for at most each `every` seconds, and the clock is sent each `tick`. `columns` is the width of a map that is a grid
    and has no nodes.co. `audit_every` is in seconds of life. `program` is the path of ride_dispatch, `resume` that of ride_resume, empty
    where it is not there.
    """
    name: str
    folder: str
    program: str
    began: int
    begin: int = 0
    speed: int = 1
    every: int = 15
    tick: int = 5
    columns: int = 0
    audit_every: int = 30
    workers: int = 2
    resume: str = ""

    def path(self, name: str) -> str:
        """Returns the path of a file of this zone."""
        return os.path.join(self.folder, name)

    @property
    def map(self) -> str:
        return self.path("map.gr")

    @property
    def fleet(self) -> str:
        return self.path("fleet.txt")

    @property
    def kept_log(self) -> str:
        return self.path("kept.log")

    @property
    def resumed_log(self) -> str:
        """The output of a session that goes on, until it has the old lines and becomes the kept log."""
        return self.path("resumed.log")

    def pipe(self, feed: str) -> str:
        """Returns the path of the named pipe of `riders` or `drivers`."""
        return self.path(f"{feed}.pipe")

    def stream(self, what: str) -> str:
        """Returns the name of one of the zone's streams: riders, drivers, log or audit."""
        return f"{self.name}.{what}"

    def streams(self) -> List[str]:
        return [self.stream(what) for what in ("riders", "drivers", "log", "audit")]

    def clock(self) -> DayClock:
        return DayClock(self.began, self.begin, self.speed)

    def save(self) -> None:
        """Writes zone.json, by which the other parts know the zone."""
        if not ZONE_NAME.fullmatch(self.name):
            raise ZoneError(f"a zone's name has 1 to 31 small letters, digits and -, and is not {self.name!r}")
        write_whole(Path(self.path("zone.json")), json.dumps(asdict(self), indent=1) + "\n")


def load_zone(folder: str) -> Zone:
    """Returns the zone of a folder; raises ZoneError where it has no good zone.json."""
    try:
        said: Dict[str, Any] = json.loads(Path(folder, "zone.json").read_text())
        said.update(folder=str(folder))
        zone = Zone(**said)
    except (OSError, ValueError, TypeError, AttributeError) as cause:
        raise ZoneError(f"{folder} is no zone's folder: {cause}") from cause
    if zone.speed < 1 or zone.every < 1 or zone.tick < 1:
        raise ZoneError(f"{folder}/zone.json has a speed, every or tick below 1")
    return zone


def load_zones(folder: str) -> Dict[str, Zone]:
    """Returns the zones of a control room's folder by name."""
    found = sorted(path.parent for path in Path(folder, "zones").glob("*/zone.json"))
    zones = [load_zone(str(path)) for path in found]
    if not zones:
        raise ZoneError(f"{folder} has no zones")
    return {zone.name: zone for zone in zones}
