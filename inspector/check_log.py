#!/usr/bin/env python3
"""Checks a trip log beside its map and fleet file, as `ride_dispatch audit` does, in a program of its own.

example: python3 inspector/check_log.py examples/map.gr examples/fleet.txt examples/morning.log

Writes one line: `yes entries E confirmed C away A picked P dropped D finished yes` (or `finished no`) with status 0;
`no LINE WHY` with status 7; why the map (3) or the fleet file (4) is refused; nothing where a file cannot be read (5)
or is longer than its limit (8), or the words are not in order (2). Standard error has one line wherever the status is
not 0.
"""

import sys
from typing import BinaryIO, Iterator

from board import Board
from command_line import parser_of, run
from fleet_file import read_fleet
from history import History
from road_map import read_map
from texts import Ended, refused, unreadable
from travel_times import TravelTimes

MOST_BYTES, MOST_LINES, MOST_LINE = 1 << 30, 2_100_000, 131_072  # of a log; a line is counted without its LF


def log_lines(path: str) -> Iterator[bytes]:
    """Yields the lines of a log's file, within the limits of a log."""
    try:
        with open(path, "rb") as log:
            yield from lines_of(path, log)
    except OSError as fault:
        raise unreadable(path, fault) from None


def lines_of(path: str, log: BinaryIO) -> Iterator[bytes]:
    """Yields the lines of a log, with their LF. Of an over-long line it yields a part without one, of an empty log one
    empty line."""
    taken = number = 0
    while (line := log.readline(MOST_LINE + 1)) or not number:
        taken, number = taken + len(line), number + 1
        if taken > MOST_BYTES or number > MOST_LINES:
            raise Ended(8, "", f"{path} has more than {MOST_BYTES:,} bytes or {MOST_LINES:,} lines")
        yield line


def read_board(map_path: str, fleet_path: str) -> Board:
    """Returns the board with which a session over these files starts."""
    road_map = read_map(map_path)
    settings, fleet = read_fleet(fleet_path, road_map.nodes)
    return Board(settings, TravelTimes(road_map), road_map.nodes, fleet)


def check(map_path: str, fleet_path: str, log_path: str) -> str:
    """Returns the answer to a log that is right; every other end is raised."""
    history = History(read_board(map_path, fleet_path))
    for number, line in enumerate(log_lines(log_path), start=1):
        if why := history.wrong(line):
            raise refused(7, log_path, f"no {number} {why}")
    return history.summary()


def main() -> int:
    """Returns the exit status."""
    meanings = {"MAP": "the road map, a .gr file", "FLEET": "the fleet file", "LOG": "the trip log"}
    words = parser_of(__doc__, meanings).parse_args()
    print(check(words.map, words.fleet, words.log))
    return 0


if __name__ == "__main__":
    sys.exit(run(main))
