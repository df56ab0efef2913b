#!/usr/bin/env python3
"""Follows the log of a running session, and prints after each commit which idle vehicles are best sent ahead.

    advise.py LOG FLEET MAP --reach SECONDS [--check]

LOG is the log's file, which is read on as it grows until the session has ended, or - for standard input. The lines are those of
`ride_dispatch ahead`: a head, a line `moves ..` for each commit, and `end` where the session has ended. An order names the version of the
vehicle's plan: where the log has another one since, the order is late, and is not to be carried out.

    ride_dispatch serve .. | tee log | advise.py - fleet.txt map.gr --reach 600

With --check each sheet is certified: its prices prove that no pairing costs less.
"""
import os
import sys
import time
from typing import Iterator, Sequence

sys.path.insert(0, os.path.dirname(os.path.abspath(__file__)))
from player.ahead import Advisor  # noqa: E402
from player.files import Parser, entries_of, open_fleet, reading_log, run_main, seconds, whole  # noqa: E402
from player.roads import read_map  # noqa: E402
from trip_log import TripLog  # noqa: E402


def has_ended(log: TripLog) -> bool:
    """Returns whether all feeds and desks of the log have ended."""
    return log.lines > 0 and len(log.ended) == log.feeds + log.desks


def followed(path: str, log: TripLog, pause: float) -> Iterator[str]:
    """Yields the whole lines of a log, as it grows, until it has ended; of standard input until that ends."""
    if path == "-":
        yield from sys.stdin
        return
    rest = ""
    with open(path, encoding="utf-8") as file:
        while not has_ended(log):
            rest += file.readline()
            if rest.endswith("\n"):
                yield rest
                rest = ""
            else:
                time.sleep(pause)


def main(words: Sequence[str]) -> int:
    """Prints the sheets; returns 0."""
    parser = Parser(description=__doc__.split("\n\n")[0], epilog=__doc__.split("\n\n", 2)[2])
    parser.add_argument("log", help="the log of a session, or - for standard input")
    parser.add_argument("fleet", help="the session's fleet file")
    parser.add_argument("map", help="its map, a .gr file")
    parser.add_argument("--reach", type=whole(1, 10 ** 6), required=True, metavar="SECONDS",
                        help="vehicles within so many seconds of a pickup are sent")
    parser.add_argument("--check", action="store_true", help="certifies each sheet (no)")
    parser.add_argument("--pause", type=seconds, default=0.2, metavar="S", help="seconds between looks at a file that has not grown (0.2)")
    wishes = parser.parse_args(words)
    roads = read_map(wishes.map)
    log = TripLog(open_fleet(wishes.fleet, roads.nodes))
    advisor = Advisor(roads, log, wishes.reach, checks=wishes.check)
    print(f"ahead 1 reach {wishes.reach}", flush=True)
    with reading_log(wishes.log, log):
        for entry in entries_of(wishes.log, followed(wishes.log, log, wishes.pause), log):
            if sheet := advisor.take(entry):
                print(sheet.line(), flush=True)
    if has_ended(log):
        print("cut" if "cut" in log.ended.values() else "end", flush=True)
    return 0


if __name__ == "__main__":
    run_main(main)
