"""One evening from its files to its figures: the dispatcher is started, played against, audited and counted."""
import os
import random
import sys
from dataclasses import dataclass, field, replace
from typing import Callable, List, Optional, Sequence

from player.ahead import Advisor
from player.drivers import Drivers, Habits
from player.evening import Dispatcher, Evening, Rules
from player.figures import Collector, Figures, Scope
from player.files import write_fleet
from player.riders import Office, Rider
from player.roads import Roads
from player.sessions import Session, audit, is_clean
from trip_log import Fleet, TripLog, Vehicle


@dataclass(frozen=True)
class Setup:
    """An evening to be played. Seconds between batches and reports; `again` are the seconds after which a share of the riders who were
    turned away asks again, None where nobody does; `reach` those within which idle vehicles are sent ahead, None where none is."""
    roads: Roads
    map_path: str
    fleet: Fleet
    riders: Sequence[Rider]
    habits: Habits = Habits()
    every: int = 30
    tick: int = 1
    again: Optional[int] = None
    again_share: float = 1.0
    reach: Optional[int] = None
    seed: int = 1
    since: int = 0
    until: int = 10 ** 10
    reasons: bool = True
    progress: bool = False


@dataclass
class Outcome:
    """What came of an evening. `audit` is what the audit said, empty where nothing could be audited, `batch_seconds` the processors'
    seconds of each batch, which no seed repeats."""
    figures: Figures
    audit: str
    clean: bool
    batch_seconds: List[float] = field(default_factory=list)
    orders: int = 0
    late_orders: int = 0
    sheets: int = 0

    def mean_batch(self) -> float:
        """Returns the milliseconds of processors that a batch takes in the mean."""
        return 1000 * sum(self.batch_seconds) / max(len(self.batch_seconds), 1)


def fresh(fleet: Fleet) -> Fleet:
    """Returns a copy of a fleet as it stands at the start, which a log may change."""
    return Fleet(dict(fleet.settings), [replace(v, rides=[], stops=[]) for v in fleet.vehicles])


def play_program(setup: Setup, program: str, folder: str, workers: int = 2) -> Outcome:
    """Plays an evening against the program, whose files and log stay in a folder, and returns what comes of it with the audit."""
    fleet_path, log_path = f"{folder}/fleet.txt", f"{folder}/log"
    write_fleet(fleet_path, setup.fleet)
    session = Session(program, (setup.map_path, fleet_path), fresh(setup.fleet), log_path, workers)
    try:
        outcome = play_against(setup, session)
    except BaseException:
        session.kill()
        raise
    outcome.batch_seconds = session.batch_seconds
    outcome.audit = audit(program, setup.map_path, fleet_path, log_path)
    outcome.clean = is_clean(outcome.audit, session.log)
    return outcome


def play_against(setup: Setup, dispatcher: Dispatcher) -> Outcome:
    """Plays an evening against a dispatcher, and returns what comes of it."""
    log = dispatcher.log
    office = Office(list(setup.riders), setup.again, setup.again_share, random.Random(f"{setup.seed} riders"))
    collector = Collector(setup.roads, log, Scope(setup.since, setup.until, office.step, setup.reasons))
    advisor = Advisor(setup.roads, log, setup.reach, checks=True) if setup.reach else None
    dispatcher.watchers += [collector.take] + ([advisor.take] if advisor else [])
    drivers = Drivers(setup.roads, log, setup.habits, random.Random(f"{setup.seed} drivers"))
    drivers.plan_breaks(setup.riders[0].asks, setup.riders[-1].asks)
    Evening(dispatcher, office, drivers, Rules(setup.every, setup.tick, advisor, teller(setup))).play()
    sheets = advisor.certified if advisor else 0
    return Outcome(collector.figures(), "", False, [], drivers.orders, drivers.late_orders, sheets)


def teller(setup: Setup) -> Callable[[int, TripLog], None]:
    """Returns what prints how far an evening is, on standard error, where that is wanted and somebody sits there."""
    if not setup.progress:
        return lambda now, log: None
    begin, end = setup.riders[0].asks, setup.riders[-1].asks

    def tell(now: int, log: TripLog) -> None:
        done = min(100, 100 * (now - begin) // max(end - begin, 1))
        print(f"\r{done:3} %, {clock_text(now)}, {log.opened} batches, {log.replies['dropped']} riders there ", end="",
              file=sys.stderr, flush=True)

    return tell


def clock_text(moment: int) -> str:
    """Returns a second of the day as HH:MM."""
    return f"{moment // 3600:02}:{moment % 3600 // 60:02}"


def smaller(vehicles: Sequence[Vehicle], count: Optional[int]) -> List[Vehicle]:
    """Returns the first so many vehicles, or all."""
    return list(vehicles[:count] if count else vehicles)


def default_program() -> str:
    """Returns where `rt run` leaves the program."""
    top = os.path.dirname(os.path.dirname(os.path.dirname(os.path.abspath(__file__))))
    return os.path.join(top, "crates", "ride_dispatch", "out", "ride_dispatch")
