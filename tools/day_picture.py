#!/usr/bin/env python3
"""Draws a trip log on one page, as SVG and PNG.

    day_picture.py LOG OUT [FLEET [MAP]]        writes OUT.svg and OUT.png

A lane for each vehicle with its rides from confirmation to drop-off, the last second of each pickup (LATEST), late reports, broken
promises and times off duty; the requests that wait, over time; each batch's cost, and what became of its requests; and the spread of
prices. Above stand the day's figures: riders served and how long they waited, and with the fleet file and the map also the delay
aboard, the share of pooled rides and the empty seconds.

    /usr/bin/python3 tools/day_picture.py examples/morning.log morning examples/fleet.txt examples/map.gr

Times are those of the log's clock, and of pickups and drop-offs those that the drivers reported. A log whose last line is torn is drawn
up to the line before it, and a line on standard error says so. The status is 0, or 2 where a file is none of what it should be.

It takes matplotlib (Debian's python3-matplotlib, which the system's own /usr/bin/python3 finds).
"""
import os
import sys
from typing import Sequence

sys.path.insert(0, os.path.dirname(os.path.abspath(__file__)))
from day_reading import read_day  # noqa: E402
from log_reading import open_reading, tell_torn  # noqa: E402
from player.files import InputError, Parser, run_main  # noqa: E402


def main(words: Sequence[str]) -> int:
    """Writes the page; returns 0. Raises InputError."""
    parser = Parser(description=__doc__.split("\n\n")[0], epilog=__doc__.split("\n\n", 2)[2])
    parser.add_argument("log", help="the trip log")
    parser.add_argument("out", help="where the page is written, without .svg and .png")
    parser.add_argument("fleet", nargs="?", help="the log's fleet file (none)")
    parser.add_argument("map", nargs="?", help="its map, a .gr file (none)")
    wishes = parser.parse_args(words)
    reading = open_reading(wishes.log, wishes.fleet, wishes.map)
    day = read_day(reading)
    try:
        import day_drawing
    except ImportError as missing:
        raise InputError(f"it takes matplotlib (Debian's python3-matplotlib, which /usr/bin/python3 finds): {missing}") from missing
    day_drawing.save(day, wishes.log, wishes.out)
    tell_torn(reading)
    return 0


if __name__ == "__main__":
    run_main(main)
