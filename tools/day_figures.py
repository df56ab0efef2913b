#!/usr/bin/env python3
"""Prints the figures of a trip log: riders, waiting, detours, driving, batches and prices; of several logs side by side.

    day_figures.py LOG FLEET MAP [LOG2 ..] [options]

LOG2 and further logs are of the same map, and of the same fleet file where no --fleet2 is given.

    day_figures.py examples/morning.log examples/fleet.txt examples/map.gr --page morning.html --batches

A rider's wait is from asking to pickup. The delay aboard is what a ride takes beyond the fastest way, stops included. Pooled is a ride
during which somebody else is aboard. Driven are a vehicle's seconds between reports while it has a plan, and of an idle one those of
the fastest way between them; empty are those with nobody aboard. Busy is a vehicle with a plan, of its seconds on duty from the first
request to the log's last clock. Why a request was turned away is found by asking each vehicle that was open again: 'no vehicle' was open,
all were 'too far' from the pickup, 'no place' kept everybody's limits, the seat was 'too dear' for the penalty, or the request was
'outbid', since the vehicles were worth more to others of its batch.
"""
import argparse
import json
import os
import sys
from typing import List, Sequence, Tuple

sys.path.insert(0, os.path.dirname(os.path.abspath(__file__)))
from player.figures import Collector, Figures, Scope  # noqa: E402
from player.files import InputError, Parser, entries_of, open_fleet, reading_log, run_main, whole  # noqa: E402
from player.page import batch_text, page_path, table_text, write_page  # noqa: E402
from player.roads import Roads, read_map  # noqa: E402
from trip_log import Fleet, TripLog  # noqa: E402


def figures_of(path: str, roads: Roads, fleet: Fleet, scope: Scope) -> Figures:
    """Returns the figures of a log. Raises InputError where it is none, or none of this fleet and map."""
    log = TripLog(fleet)
    collector = Collector(roads, log, scope)
    with reading_log(path, log), open(path, encoding="utf-8") as lines:
        for entry in entries_of(path, lines, log):
            collector.take(entry)
    if not log.lines:
        raise InputError(f"{path}: an empty file is no log")
    return collector.figures()


def wishes_of(words: Sequence[str]) -> argparse.Namespace:
    """Returns the command line."""
    parser = Parser(description=__doc__.split("\n\n")[0], epilog=__doc__.split("\n\n", 2)[2])
    add = parser.add_argument
    add("log", help="the trip log")
    add("fleet", help="its fleet file")
    add("map", help="its map, a .gr file")
    add("others", nargs="*", metavar="LOG2", help="further logs")
    add("--fleet2", metavar="FLEET", help="the fleet file of the further logs (that of the first)")
    add("--json", action="store_true", help="prints JSON, an object for each log, with each batch")
    add("--batches", action="store_true", help="prints a line for each batch below the table")
    add("--page", type=page_path, metavar="FILE", help="writes a page with plots, .html or .svg")
    add("--since", type=whole(0, 10 ** 9), default=0, metavar="T", help="only riders who asked, and driving, from this second on (0)")
    add("--until", type=whole(0, 10 ** 9), default=10 ** 10, metavar="T", help="only those before this second (all)")
    add("--again", type=whole(1, 10 ** 17), metavar="STEP",
        help="request numbers that differ by multiples of STEP are one rider who asks again (none)")
    add("--no-reasons", action="store_true", help="does not look for why requests were turned away, which takes longest")
    return parser.parse_args(words)


def main(words: Sequence[str]) -> int:
    """Prints the figures; returns 0."""
    wishes = wishes_of(words)
    roads = read_map(wishes.map)
    scope = Scope(wishes.since, wishes.until, wishes.again, not wishes.no_reasons)
    columns: List[Tuple[str, Figures]] = []
    for path in [wishes.log, *wishes.others]:
        fleet = wishes.fleet2 if columns and wishes.fleet2 else wishes.fleet
        columns.append((os.path.basename(path), figures_of(path, roads, open_fleet(fleet, roads.nodes), scope)))
    if wishes.json:
        print(json.dumps([{"log": name, **figures.values(), "batch": figures.batch_rows()} for name, figures in columns], indent=1))
    else:
        print(table_text(columns) + (f"\n\n{batch_text(columns)}" if wishes.batches else ""))
    if wishes.page:
        write_page(wishes.page, columns, [f"{name}: {figures.totals}" for name, figures in columns])
    return 0


if __name__ == "__main__":
    run_main(main)
