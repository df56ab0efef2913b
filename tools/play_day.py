#!/usr/bin/env python3
"""Plays a day of one's own against the program, and prints its figures: what would come of it under other settings, with another
fleet, or asked more often?

    play_day.py MAP FLEET REQUESTS [--set NAME=VALUE ..] [options]

REQUESTS is a feed, whose `clock` lines are the times of the requests behind them, or a table with times; drivers' lines of a feed
are left out, as simulated drivers follow the plans that come of it. The same words give the same figures. An audit of the session's
log ends it, and the status is 0 where that says yes.

    play_day.py examples/map.gr examples/fleet.txt examples/morning.txt --set penalty=300 --every 60

A table has a line of column names first: time, from, to, and where wanted id, seats, chairs, latest, longest, cancel; columns are
parted by commas, tabs or blanks, and a time is seconds of the day or HH:MM[:SS].
"""
import argparse
import json
import os
import sys
import tempfile
from typing import List, Sequence, Tuple

sys.path.insert(0, os.path.dirname(os.path.abspath(__file__)))
from player.drivers import Habits  # noqa: E402
from player.files import InputError, Parser, check_setting, open_fleet, part, run_main, whole  # noqa: E402
from player.page import page_path, table_text, write_page  # noqa: E402
from player.riders import Limits, read_riders  # noqa: E402
from player.roads import read_map  # noqa: E402
from player.runs import Outcome, Setup, default_program, play_program, smaller  # noqa: E402
from trip_log import Fleet  # noqa: E402


def wishes_of(words: Sequence[str]) -> argparse.Namespace:
    """Returns the command line."""
    parser = Parser(description=__doc__.split("\n\n")[0], epilog=__doc__.split("\n\n", 2)[2])
    add = parser.add_argument
    add("map", help="the road map, a .gr file")
    add("fleet", help="the fleet file")
    add("requests", help="a feed, or a table with times")
    add("--set", metavar="NAME=VALUE", action="append", default=[], help="a setting in place of the fleet file's; may be repeated")
    add("--vehicles", type=whole(1, 1000), metavar="N", help="only the first N vehicles of the fleet file")
    add("--every", type=whole(1, 3600), default=30, metavar="S", help="seconds between batches (30)")
    add("--tick", type=whole(1, 60), default=1, metavar="S", help="seconds that are played in one step (1)")
    add("--report", choices=("crossing", "stop"), default="crossing", help="drivers report the next crossing, or the next stop (crossing)")
    add("--again", type=whole(1, 3600), metavar="S", help="a rider who is turned away asks again after S seconds, until LATEST (nobody does)")
    add("--again-share", type=part, default=1.0, metavar="X", help="the part of the riders, 0 to 1, who ask again (1)")
    add("--hold-ups", type=part, default=0.0, metavar="X", help="the part of the crossings at which a driver is held up, by 30 to 180 s (0)")
    add("--breaks", type=part, default=0.0, metavar="X", help="the part of the drivers who take a break of ten minutes when idle (0)")
    add("--ahead", type=whole(1, 10 ** 6), metavar="R", help="idle vehicles are sent ahead within R seconds, and obey (none is)")
    add("--wait", type=whole(0, 10 ** 6), default=600, metavar="S", help="of a table without `latest`: most seconds until the pickup (600)")
    add("--detour", type=whole(0, 10 ** 6), default=600, metavar="S",
        help="of a table without `longest`: most seconds beyond the fastest way (600)")
    add("--seed", type=int, default=1, help="of hold-ups, breaks and who asks again (1)")
    add("--program", default=default_program(), help="the built ride_dispatch (crates/ride_dispatch/out/ride_dispatch)")
    add("--workers", type=whole(1, 16), default=2, help="threads that price a batch (2)")
    add("--keep", metavar="FOLDER", help="the fleet file, the log, figures.json and the page figures.html stay there")
    add("--page", type=page_path, metavar="FILE", help="writes the figures as a page, .html or .svg")
    add("--json", action="store_true", help="prints the figures as JSON in place of the table")
    add("--quiet", action="store_true", help="no progress on standard error")
    return parser.parse_args(words)


def overridden(fleet: Fleet, words: Sequence[str]) -> Fleet:
    """Returns the fleet with settings NAME=VALUE in place of its own. Raises InputError where one is none."""
    settings = dict(fleet.settings)
    for word in words:
        name, _, value = word.partition("=")
        if not value.isdecimal():
            raise InputError(f"--set {word}: no NAME=VALUE with a whole number")
        check_setting(name, int(value))
        settings[name] = int(value)
    return Fleet(settings, fleet.vehicles)


def setup_of(wishes: argparse.Namespace) -> Tuple[Setup, int]:
    """Returns the evening that the words ask for, and how many of the feed's lines are left out."""
    roads = read_map(wishes.map)
    fleet = overridden(open_fleet(wishes.fleet, roads.nodes), wishes.set)
    riders, left_out = read_riders(wishes.requests, roads, Limits(wishes.wait, wishes.detour))
    if any(rider.chairs for rider in riders):
        fleet.settings["log"] = 2
    fleet = Fleet(fleet.settings, smaller(fleet.vehicles, wishes.vehicles))
    setup = Setup(
        roads, wishes.map, fleet, riders, Habits(wishes.report, wishes.hold_ups, breaks=wishes.breaks), wishes.every, wishes.tick,
        wishes.again, wishes.again_share, wishes.ahead, wishes.seed,
        progress=not wishes.quiet and sys.stderr.isatty())
    return setup, left_out


def notes_of(outcome: Outcome, left_out: int) -> List[str]:
    """Returns what is printed below the figures."""
    notes = [f"audit: {outcome.audit}"]
    if outcome.sheets:
        notes.append(f"ahead: {outcome.sheets} sheets, each certified; {outcome.orders} orders obeyed, {outcome.late_orders} late")
    if outcome.figures.used_up:
        notes.append("all batches of a session were asked for, and who waits got no answer: ask more seldom, or play a shorter day")
    if left_out:
        notes.append(f"{left_out} lines of the feed are left out: drivers' reports, refused or faulty ones")
    return notes


def keep_figures(folder: str, name: str, outcome: Outcome, notes: Sequence[str]) -> None:
    """Leaves the figures in a folder, as JSON and as a page."""
    with open(f"{folder}/figures.json", "w", encoding="utf-8") as file:
        json.dump({**outcome.figures.values(), "batch": outcome.figures.batch_rows()}, file, indent=1)
    write_page(f"{folder}/figures.html", [(name, outcome.figures)], notes)


def main(words: Sequence[str]) -> int:
    """Plays a day; returns 0 where the audit says yes."""
    wishes = wishes_of(words)
    setup, left_out = setup_of(wishes)
    name = os.path.basename(wishes.requests)
    with tempfile.TemporaryDirectory() as scratch:
        folder = wishes.keep or scratch
        os.makedirs(folder, exist_ok=True)
        outcome = play_program(setup, wishes.program, folder, wishes.workers)
        if setup.progress:
            print(file=sys.stderr)
        notes = notes_of(outcome, left_out)
        if wishes.keep:
            keep_figures(folder, name, outcome, notes)
    if wishes.page:
        write_page(wishes.page, [(name, outcome.figures)], notes)
    print(json.dumps(outcome.figures.values(), indent=1) if wishes.json else table_text([(name, outcome.figures)]))
    print("\n".join(notes), file=sys.stderr if wishes.json else sys.stdout)
    return 0 if outcome.clean else 1


if __name__ == "__main__":
    run_main(main)
