#!/usr/bin/env python3
"""What a division of a city's vehicles costs, played over generated days: one fleet, two zones, two companies that each have their
own riders, and the same two in a league.

  divide.py PROGRAM [--side 30] [--vehicles 60] [--requests 1800] [--days 3]

PROGRAM is the built ride_dispatch. The city is a square grid of SIDE times SIDE crossings. From six to ten o'clock in the evening
requests come, most of them in a morning and an evening peak; each 30 seconds in which somebody asked a batch or a round is made. A
rider wants to be picked up within 10 minutes and to ride no longer than twice the way and 5 minutes. A second driven and a second
waited cost 1 each, a rider who is turned away 1,800. Cities, vehicles and riders are drawn, the same for the same day of every way.

Drivers follow their plans and report each crossing in time; one who is idle outside the zone drives back until it is reached. The same
words give the same figures. Each log is audited, that of the league as one fleet's.
"""
import argparse
import os
import random
import statistics
import sys
import tempfile
from dataclasses import dataclass, field
from typing import Callable, Dict, List, Optional, Sequence, Tuple

sys.path.insert(0, os.path.join(os.path.dirname(os.path.abspath(__file__)), "..", "tools"))
from player.drivers import Drivers, Habits  # noqa: E402
from player.evening import Dispatcher, Evening, Rules  # noqa: E402
from player.figures import Collector, Scope  # noqa: E402
from player.files import Parser, run_main, whole, write_fleet  # noqa: E402
from player.league import League, of_both  # noqa: E402
from player.riders import Office, Rider  # noqa: E402
from player.roads import grid_city  # noqa: E402
from player.runs import fresh  # noqa: E402
from player.sessions import Session, SessionError, audit, is_clean  # noqa: E402
from trip_log import Fleet, Vehicle  # noqa: E402

BEGIN, END = 21_600, 79_200  # six in the morning and ten in the evening, in seconds of the day
PEAKS = ((23_400, 34_200), (57_600, 70_200))  # two of five requests each fall into the peaks
EVERY = 30
SEATS = 4
LATEST = 600
SETTINGS = {"batch": 128, "penalty": 1800, "drive": 1, "wait": 1, "lead": 0, "dwell": 15, "log": 1}

Inside = Callable[[int], bool]


@dataclass
class Sums:
    """What riders and vehicles of some sessions came to."""
    seated: int = 0
    cost: int = 0
    waits: List[int] = field(default_factory=list)
    driven: int = 0

    def __add__(self, other: "Sums") -> "Sums":
        return Sums(self.seated + other.seated, self.cost + other.cost, self.waits + other.waits, self.driven + other.driven)


class Day:
    """A city, its vehicles, and the riders of a day in order of time."""

    def __init__(self, folder: str, wishes: argparse.Namespace, seed: int):
        self.folder, self.program, self.side = folder, wishes.program, wishes.side
        draw = random.Random(seed)
        self.roads = grid_city(wishes.side, draw)
        self.map_path = f"{folder}/city.gr"
        self.roads.write(self.map_path, f"a made city of {self.roads.nodes} crossings")
        self.nodes = [draw.randint(1, self.roads.nodes) for _ in range(wishes.vehicles)]
        times = sorted(asking_time(draw) for _ in range(wishes.requests))
        self.riders = [self._rider(draw, number, time) for number, time in enumerate(times, 1)]

    def _rider(self, draw: random.Random, number: int, time: int) -> Rider:
        origin, destination = draw.sample(range(1, self.roads.nodes + 1), 2)
        way = self.roads.seconds(origin, destination)
        assert way is not None  # as each street of a grid is there both ways
        return Rider(number, time, origin, destination, draw.choice((1, 1, 1, 2)), 0, time + LATEST, 2 * way + 300)

    def is_north(self, node: int) -> bool:
        """Returns whether a node is in the northern zone."""
        return (node - 1) // self.side < self.side // 2

    def is_south(self, node: int) -> bool:
        """Returns whether a node is in the southern zone."""
        return not self.is_north(node)

    def fleet(self, name: str, nodes: Sequence[int]) -> Tuple[Fleet, str]:
        """Returns a fleet with a vehicle at each of these nodes, and its file."""
        fleet = Fleet(dict(SETTINGS), [Vehicle(number, at=node, seats=SEATS) for number, node in enumerate(nodes, 1)])
        path = f"{self.folder}/{name}.txt"
        write_fleet(path, fleet)
        return fleet, path

    def service(self, name: str, nodes: Sequence[int], riders: Sequence[Rider], is_inside: Optional[Inside] = None) -> Sums:
        """Returns what a fleet comes to that is served by itself for a day. Vehicles that are idle drive back inside."""
        fleet, path = self.fleet(name, nodes)
        log_path = f"{self.folder}/{name}.log"
        return self.play(Session(self.program, (self.map_path, path), fresh(fleet), log_path), riders, (path, log_path), is_inside)

    def zone(self, name: str, is_inside: Inside) -> Sums:
        """Returns what a session of the vehicles and riders of a zone comes to in a day."""
        riders = [rider for rider in self.riders if is_inside(rider.origin)]
        return self.service(name, [node for node in self.nodes if is_inside(node)], riders, is_inside)

    def league(self, first: Sequence[int], second: Sequence[int]) -> Sums:
        """Returns what two companies in a league come to in a day."""
        fleets = [self.fleet(name, nodes) for name, nodes in (("one", first), ("two", second))]
        both = of_both(fleets[0][0], fleets[1][0])
        write_fleet(f"{self.folder}/both.txt", both)
        files = (f"{self.folder}/both.txt", f"{self.folder}/league.log")
        paths = (self.map_path, fleets[0][1], fleets[1][1])
        return self.play(League(self.program, paths, self.roads, fresh(both), files[1]), self.riders, files)

    def play(self, dispatcher: Dispatcher, riders: Sequence[Rider], files: Tuple[str, str], is_inside: Optional[Inside] = None) -> Sums:
        """Plays a day, audits its log over the fleet file, and returns its sums."""
        collector = Collector(self.roads, dispatcher.log, Scope(reasons=False))
        dispatcher.watchers.append(collector.take)
        drivers = Drivers(self.roads, dispatcher.log, Habits(), random.Random(0), homes(dispatcher, is_inside))
        office = Office(list(riders), None, 0, random.Random(0))
        Evening(dispatcher, office, drivers, Rules(EVERY, EVERY)).play()
        said = audit(self.program, self.map_path, *files)
        if not is_clean(said, dispatcher.log):
            raise SessionError(f"the audit of {files[1]} says: {said}")
        figures = collector.figures()
        return Sums(figures.riders["served"], sum(note.cost for note in figures.batches), [wait for _, wait in figures.waits],
                    figures.seconds["driven"])


def homes(dispatcher: Dispatcher, is_inside: Optional[Inside]) -> Callable[[Vehicle], Optional[int]]:
    """Returns where an idle vehicle goes: to its stand until it is inside, or nowhere."""
    stands = {vehicle.id: vehicle.at for vehicle in dispatcher.log.vehicles.values()}
    return lambda vehicle: None if is_inside is None or vehicle.at is None or is_inside(vehicle.at) else stands[vehicle.id]


def asking_time(draw: random.Random) -> int:
    """Returns when a rider asks."""
    kind = draw.randrange(5)
    begin, end = PEAKS[kind // 2] if kind < 4 else (BEGIN, END)
    return int(draw.triangular(begin, end)) if kind < 4 else draw.randint(begin, end)


WAYS: Dict[str, Callable[[Day], List[Sums]]] = {
    "one fleet": lambda day: [day.service("all", day.nodes, day.riders)],
    # A rider belongs to the zone of the pickup, a vehicle to that of its stand.
    "two zones": lambda day: [day.zone("north", day.is_north), day.zone("south", day.is_south)],
    # Every second vehicle, and every second rider, is the other company's.
    "two companies, each by itself": lambda day: [
        day.service(name, day.nodes[first::2], day.riders[first::2]) for name, first in (("one", 0), ("two", 1))],
    "the same two in a league": lambda day: [day.league(day.nodes[::2], day.nodes[1::2])],
}


def main(words: Sequence[str]) -> int:
    """Prints the table; returns 0."""
    parser = Parser(description="What a division of a city's vehicles costs, played over generated days.")
    parser.add_argument("program", help="the built ride_dispatch")
    for name, value, range_of, meaning in (
            ("side", 30, whole(2, 700), "crossings of a side of the city"), ("vehicles", 60, whole(2, 1000), "vehicles of all companies"),
            ("requests", 1800, whole(2, 100_000), "requests of a day"), ("days", 3, whole(1, 1000), "days that are played")):
        parser.add_argument(f"--{name}", type=range_of, default=value, help=f"{meaning} ({value})")
    wishes = parser.parse_args(words)
    totals = {name: Sums() for name in WAYS}
    for seed in range(1, wishes.days + 1):
        with tempfile.TemporaryDirectory() as folder:
            day = Day(folder, wishes, seed)
            for name, way in WAYS.items():
                totals[name] = sum(way(day), totals[name])
    print(f"{wishes.side ** 2} crossings, {wishes.vehicles} vehicles, {wishes.requests} requests a day, {wishes.days} days")
    print(f"{'':32}seated  cost of a day  waiting: mean, 9 of 10 within  driven a rider")
    for name, sums in totals.items():
        waits = sorted(sums.waits) or [0]
        print(f"{name:32}{sums.seated / (wishes.days * wishes.requests):6.1%} {sums.cost / wishes.days:13,.0f} "
              f"{statistics.mean(waits):10.0f} s {waits[len(waits) * 9 // 10]:16} s {sums.driven / max(sums.seated, 1):13.0f} s")
    return 0


if __name__ == "__main__":
    run_main(main)
