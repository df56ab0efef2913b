"""Zones to begin with: the town of examples/, and drawn cities."""
import os
import random
import re
import shutil
from dataclasses import dataclass
from pathlib import Path

from live_city import BEGIN, made_fleet
from player.files import write_fleet
from player.roads import grid_city

from control_room import HERE
from control_room.day_clock import unix_now
from control_room.zones import ZONE_NAME, Zone, ZoneError

EXAMPLES = HERE.parent / "examples"
TOWN_COLUMNS = 6
TOWN_BEGIN = 25_200


@dataclass(frozen=True)
class Plan:
    """A drawn city: so many crossings on each side of a grid, so many vehicles, and the seed that sets both."""
    side: int
    vehicles: int
    seed: int


@dataclass(frozen=True)
class OwnPlan:
    """How own zones begin and are drawn: the day's second, and the crossings in a row of a map that is a grid (0 where it is none)."""
    begin: int
    columns: int


def new_folder(folder: Path, name: str) -> Path:
    """Returns the new folder of a zone."""
    path = folder / "zones" / name
    if path.exists():
        raise ZoneError(f"{path} is there already: a new day takes a new folder")
    path.mkdir(parents=True)
    return path


def town(folder: Path, program: str, speed: int, every: int) -> Zone:
    """Returns the zone of examples/' town, its day at seven in the morning."""
    path = new_folder(folder, "millbrook")
    shutil.copy(EXAMPLES / "map.gr", path / "map.gr")
    shutil.copy(EXAMPLES / "fleet.txt", path / "fleet.txt")
    return _saved(Zone("millbrook", str(path), program, unix_now(), TOWN_BEGIN, speed, every, columns=TOWN_COLUMNS))


def drawn_city(folder: Path, program: str, speed: int, every: int, name: str, plan: Plan) -> Zone:
    """Returns the zone of a drawn city: a grid with its vehicles."""
    path = new_folder(folder, name)
    draw = random.Random(plan.seed)
    roads = grid_city(plan.side, draw)
    roads.write(str(path / "map.gr"), f"a drawn city of {roads.nodes} crossings")
    write_fleet(str(path / "fleet.txt"), made_fleet(roads, plan.vehicles, speed, draw))
    return _saved(Zone(name, str(path), program, unix_now(), BEGIN, speed, every, columns=plan.side))


def own_zone(folder: Path, program: str, speed: int, every: int, source: Path, plan: OwnPlan) -> Zone:
    """Returns the zone, named after the folder, over one's own map.gr, fleet.txt and perhaps nodes.co, which are copied."""
    name = re.sub("[^a-z0-9-]+", "-", source.resolve().name.lower())
    if not ZONE_NAME.fullmatch(name):
        raise ZoneError(f"a zone is named after its folder: a letter and up to 30 letters, digits and -; {name!r} is none")
    for needed in ("map.gr", "fleet.txt"):
        if not (source / needed).is_file():
            raise ZoneError(f"{source / needed} is not there")
    path = new_folder(folder, name)
    for file in ("map.gr", "fleet.txt", "nodes.co"):
        if (source / file).is_file():
            shutil.copy(source / file, path / file)
    return _saved(Zone(name, str(path), program, unix_now(), plan.begin, speed, every, columns=plan.columns))


def _saved(zone: Zone) -> Zone:
    if not os.access(zone.program, os.X_OK):
        raise ZoneError(f"{zone.program} is no program that can be run")
    zone.save()
    return zone
