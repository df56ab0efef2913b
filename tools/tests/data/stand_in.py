#!/usr/bin/env python3
"""A stand-in for the built program in tests: `serve` and `audit` by the board of tools/player, which seats each request where it costs
least. Its audit says yes to a log of which a reader can make sense."""
import os
import selectors
import sys

sys.path.insert(0, os.path.join(os.path.dirname(os.path.abspath(__file__)), "..", ".."))

from player.board import Board, cheapest_insertion  # noqa: E402
from player.files import open_fleet  # noqa: E402
from player.roads import read_map  # noqa: E402
from trip_log import read_fleet, read_log  # noqa: E402


class Printing(Board):
    """A board that prints its log."""

    def _take(self, line):
        print(line, flush=True)
        return super()._take(line)


def serve(options):
    roads = read_map(options["--map"])
    fleet = open_fleet(options["--fleet"], roads.nodes)
    feeds = [open(options["--riders"], encoding="ascii"), open(options["--drivers"], encoding="ascii")]
    print(f"log {fleet.settings['log']} feeds 2 desks 1", flush=True)
    board = Printing(roads, fleet, cheapest_insertion)
    waiting = selectors.DefaultSelector()
    for number, feed in enumerate(feeds):
        os.set_blocking(feed.fileno(), False)
        waiting.register(feed, selectors.EVENT_READ, number)
    while waiting.get_map():
        for key, _ in waiting.select():
            piece = os.read(key.fd, 1 << 20).decode()
            for line in piece.splitlines():
                board.seat() if line == "batch" else board.submit(key.data, [line])
            if not piece:
                waiting.unregister(key.fileobj)
                board._take(f"f{key.data + 1} end")
    board._take("d1 end")


def main(words):
    options = dict(zip(words[1::2], words[2::2]))
    if words[0] == "serve":
        serve(options)
        return 0
    log = read_log(options["--log"], read_fleet(options["--fleet"]))
    print(f"yes {log.totals()}")
    return 0


if __name__ == "__main__":
    sys.exit(main(sys.argv[1:]))
