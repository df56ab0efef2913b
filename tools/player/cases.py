"""Evenings of one city as cases: which dispatcher, under which settings, for which riders. Each is played to its figures.

The city is of Manhattan's form, or somebody's own map. Riders and stands are drawn by a seed, so that all cases of a seed have the same
ones, and what differs between two cases is what their fields say.
"""
import random
from dataclasses import dataclass, field, replace
from typing import Dict, List, Optional, Tuple

from player.board import Board, cheapest_insertion, nearest_idle
from player.drivers import Habits
from player.files import InputError, write_fleet
from player.league import League, of_both
from player.manhattan import Places, asking_times, evening_riders, manhattan
from player.riders import Rider
from player.roads import Roads, read_map
from player.runs import Outcome, Setup, fresh, play_against, play_program
from player.second_auditor import second_audit
from player.sessions import audit, is_clean
from trip_log import Fleet, Vehicle

try:
    from player.trips import Trips
except ImportError:  # scipy is not installed
    Trips = None

BEGIN = 19 * 3600
MOST_VEHICLES = 1000  # of a fleet
ASKS_AGAIN = 30  # seconds after which a rider who was turned away asks again, at least
SETTINGS = {"batch": 128, "penalty": 7200, "drive": 1, "wait": 1, "lead": 0, "dwell": 0, "log": 1}
BOARDS = {"insertion": cheapest_insertion, "idle": nearest_idle}


@dataclass(frozen=True)
class Case:
    """A row of a table: the dispatcher (program, league, insertion, idle or trips), its settings, and what is asked of it. `wait` are
    a rider's most minutes, `every` the seconds between batches, `reach` those within which idle vehicles are sent ahead. `differs` has
    a letter for each thing in which the case differs from what it is compared with."""
    name: str
    dispatcher: str = "program"
    vehicles: int = 750
    an_hour: int = 6250
    wait: int = 5
    seats: int = 4
    every: int = 30
    reach: Optional[int] = None
    settings: Dict[str, int] = field(default_factory=dict)
    habits: Habits = Habits()
    differs: str = ""


@dataclass(frozen=True)
class Extent:
    """The size of all evenings: the map's file, or the streets of the made city, the minutes in which riders ask, how many of them are
    left out at first, and the seconds that are played in one step."""
    map: Optional[str]
    streets: int
    minutes: int
    warm: int
    tick: int


def roads_of(extent: Extent) -> Roads:
    """Returns the map of all evenings, which is read or made."""
    return read_map(extent.map) if extent.map else manhattan(random.Random("city"), extent.streets)


class City:
    """The map of all evenings, and the riders and stands of each seed. Files are written into a folder of its own."""

    def __init__(self, extent: Extent, folder: str):
        self.extent, self.folder = extent, folder
        self.roads = roads_of(extent)
        self.map_path = extent.map or f"{folder}/city.gr"
        if not extent.map:
            self.roads.write(self.map_path, f"a city of Manhattan's form, {self.roads.nodes} crossings")
        self.places = Places(self.roads.nodes, None if extent.map else extent.streets)
        self._riders: Dict[Tuple[int, int], List[Rider]] = {}

    def riders(self, seed: int, an_hour: int, wait: int) -> List[Rider]:
        """Returns the riders of a seed: the same rides for every wait."""
        if (seed, an_hour) not in self._riders:
            draw = random.Random(f"{seed} riders")
            times = asking_times(BEGIN, BEGIN + 60 * self.extent.minutes, an_hour, draw)
            self._riders[seed, an_hour] = evening_riders(self.roads, self.places, times, 0, draw)
        return [replace(rider, latest=rider.latest + 60 * wait, longest=rider.longest + 60 * wait)
                for rider in self._riders[seed, an_hour]]

    def fleet(self, seed: int, case: Case) -> Fleet:
        """Returns the vehicles of a seed: the first ones are the same for every size."""
        draw = random.Random(f"{seed} stands")
        stands = [Vehicle(number, at=self.places.any(draw), ready=BEGIN, seats=case.seats) for number in range(1, case.vehicles + 1)]
        return Fleet({**SETTINGS, **case.settings}, stands)

    def setup(self, seed: int, case: Case) -> Setup:
        """Returns an evening of a case."""
        extent = self.extent
        riders = self.riders(seed, case.an_hour, case.wait)
        if not riders:
            raise InputError(f"nobody asks in {extent.minutes} minutes of {case.an_hour:,} riders an hour")
        return Setup(
            self.roads, self.map_path, self.fleet(seed, case), riders, case.habits, case.every,
            min(extent.tick, case.every), None if case.dispatcher == "trips" else max(case.every, ASKS_AGAIN), reach=case.reach, seed=seed,
            since=BEGIN + 60 * extent.warm, until=BEGIN + 60 * extent.minutes, reasons=False)


def played(city: City, program: str, seed: int, case: Case) -> Outcome:
    """Returns what comes of a case. Raises InputError where an audit does not say yes."""
    setup = city.setup(seed, case)
    if case.dispatcher == "program":
        outcome = play_program(setup, program, city.folder)
        if not outcome.clean:
            raise InputError(f"{case.name}, seed {seed}: the audit says {outcome.audit}")
        if outcome.figures.used_up:
            raise InputError(f"{case.name}, seed {seed}: a session has no more batches; play fewer --minutes")
        return outcome
    if case.dispatcher == "league":
        return played_league(city, setup, program)
    if case.dispatcher == "trips":
        board = Trips(city.roads, fresh(setup.fleet))
    else:
        board = Board(city.roads, fresh(setup.fleet), BOARDS[case.dispatcher])
    outcome = play_against(setup, board)
    outcome.batch_seconds = board.batch_seconds
    return outcome


def played_league(city: City, setup: Setup, program: str) -> Outcome:
    """Returns what comes of an evening in which every second vehicle is the other company's. Its log is audited as one fleet's, by the
    second auditor where that has more vehicles than the program takes. Raises InputError where the audit does not say yes."""
    half = len(setup.fleet.vehicles) // 2
    companies = []
    for first in (0, 1):
        stands = [replace(v, id=number) for number, v in enumerate(setup.fleet.vehicles[first::2], 1)]
        companies.append(Fleet(setup.fleet.settings, stands[:half]))
        write_fleet(f"{city.folder}/company_{first}.txt", companies[-1])
    both = of_both(*companies)
    files = (city.map_path, f"{city.folder}/company_0.txt", f"{city.folder}/company_1.txt")
    league = League(program, files, city.roads, fresh(both), f"{city.folder}/log")
    try:
        outcome = play_against(setup, league)
    except BaseException:
        league.kill()
        raise
    outcome.batch_seconds = league.batch_seconds
    write_fleet(f"{city.folder}/fleet.txt", both)
    files = (city.map_path, f"{city.folder}/fleet.txt", f"{city.folder}/log")
    is_lawful = len(both.vehicles) <= MOST_VEHICLES
    said = audit(program, *files) if is_lawful else second_audit(len(both.vehicles), *files)
    if not is_clean(said, league.log):
        raise InputError(f"the audit of the league's log as one fleet's says {said}")
    outcome.audit, outcome.clean = said if is_lawful else f"{said}, by the second auditor", True
    return outcome
