"""Reads a trip log's file for a program: its whole lines, up to a torn last one, and only what the fleet file and the map allow."""
import sys
from dataclasses import dataclass
from typing import Dict, Iterator, Optional, TextIO, Tuple

from player.files import InputError, open_fleet
from player.insertion import PlanBook
from player.roads import Roads, read_map
from trip_log import Entry, Fleet, FleetError, LogError, TripLog, read_fleet

MOST_LINE = 131_072  # bytes of a log's line
ANY_NODE = 10 ** 18  # above every number of a node
NODES = {"request": (1, 2), "at": (1,)}  # where nodes stand among a command's numbers


@dataclass
class Reading:
    """A log's file, read entry by entry. `torn` is the number of a last line that has no end, where one stands there."""
    path: str
    log: TripLog
    roads: Optional[Roads] = None
    has_fleet: bool = False
    torn: Optional[int] = None

    def entries(self) -> Iterator[Entry]:
        """Returns the entries one after the other, each once `log` has taken it. Raises InputError at what is no line of a log."""
        known = len(self.log.vehicles)
        for line in self._lines():
            try:
                entry = self.log.read(line)
            except LogError as wrong:
                raise InputError(f"{self.path}:{wrong.line}: {wrong.what}") from wrong
            if self.has_fleet:
                self._check_fleet(entry, known)
            if entry:
                self._check_nodes(entry)
                yield entry
        if not self.log.lines:
            raise InputError(f"{self.path}: an empty file is no log" if self.torn is None else f"{self.path}: no whole line stands in it")

    def note(self) -> str:
        """Returns what is to be said of a torn line, nothing where there is none."""
        return f"{self.path}:{self.torn}: this line has no end; what stands before it is told" if self.torn else ""

    def _lines(self) -> Iterator[str]:
        try:
            with open(self.path, encoding="utf-8", errors="replace") as file:
                yield from self._whole_lines(file)
        except OSError as fault:
            raise InputError(f"{self.path}: {fault.strerror}") from fault

    def _whole_lines(self, file: TextIO) -> Iterator[str]:
        while line := file.readline(MOST_LINE + 1):
            if line.endswith("\n"):
                yield line
            elif len(line) > MOST_LINE:
                raise InputError(f"{self.path}:{self.log.lines + 1}: no line of a log: it has more than {MOST_LINE:,} bytes")
            else:
                self.torn = self.log.lines + 1

    def _check_fleet(self, entry: Optional[Entry], known: int) -> None:
        """Raises InputError where the log is of another fleet file: of another version or of other vehicles than these so many."""
        if not entry and self.log.version != self.log.settings["log"]:
            raise self._fault(f"the log is of version {self.log.version}, and the fleet file's `log` is {self.log.settings['log']}")
        if len(self.log.vehicles) > known:
            raise self._fault(f"vehicle {list(self.log.vehicles)[known]} is not in the fleet file")
        if entry and entry.batch and list(entry.batch.plans) != list(self.log.vehicles):
            raise self._fault("the batch has other vehicles than the fleet file")

    def _check_nodes(self, entry: Entry) -> None:
        if self.roads and entry.reply != "refused":
            for place in NODES.get(entry.kind, ()):
                if not 1 <= entry.numbers[place] <= self.roads.nodes:
                    raise self._fault(f"node {entry.numbers[place]} is not on the map (1 to {self.roads.nodes})")

    def _fault(self, what: str) -> InputError:
        return InputError(f"{self.path}:{self.log.lines}: {what}")


def open_reading(path: str, fleet_path: Optional[str] = None, map_path: Optional[str] = None) -> Reading:
    """Returns the reading of a log with its fleet file and its map, as far as they are given. Raises InputError where one is none."""
    roads = read_map(map_path) if map_path else None
    fleet = named_fleet(fleet_path, roads.nodes if roads else ANY_NODE) if fleet_path else None
    return Reading(path, TripLog(fleet), roads, fleet is not None)


def named_fleet(path: str, nodes: int) -> Fleet:
    """Returns the fleet file at a path, over a map of so many nodes. Raises InputError, with the line where a line is wrong."""
    try:
        read_fleet(path)
    except FleetError as wrong:
        raise InputError(f"{path}:{wrong.line}: {wrong.what}") from wrong
    return open_fleet(path, nodes)


def times_by_plan(reading: Reading) -> Dict[int, Tuple[int, ...]]:
    """Returns the times of each vehicle's stops by the plan that stands, over a fleet file and a map. Raises InputError where no way
    of the map leads along them."""
    book = PlanBook(reading.roads, reading.log)
    times = {}
    for vehicle in reading.log.vehicles.values():
        plan = book.plan(vehicle)
        if any(leg < 0 for leg in plan.legs):
            raise InputError(f"{reading.path}: no way of this map leads along the stops of vehicle {vehicle.id}")
        times[vehicle.id] = plan.times
    return times


def tell_torn(reading: Reading) -> None:
    """Says on standard error where a log's last line is torn."""
    if reading.torn:
        print(reading.note(), file=sys.stderr)
