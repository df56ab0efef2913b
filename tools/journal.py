#!/usr/bin/env python3
"""Keeps a session's log: each line is on the disk before it is passed on.

Reads standard input line by line, appends to LOG, waits until the disk has it, and only then writes the lines to standard output.
What waits in the pipe shares one wait. Whoever acts on what comes out acts on lines that a crash of the machine does not take away.

    ride_dispatch serve .. | journal.py day.log --chain day.heads | CLIENT

A LOG with lines is refused, as is a file of heads. With --again what comes goes on behind the last whole line: bytes behind it are
moved into LOG.torn first. With --chain FILE a head of a SHA-256 chain is added to FILE for all lines that shared a wait; each speaks
of all lines before it, so that heads that were sent elsewhere show that the log is still the same. Their form is that of
inspector/seal.py. With --again the last head of FILE has to be one of LOG.

Ctrl-C is for the session before it: the journal ends when its input does. Status 0; 2 where a word or a file is bad, or standard
input cannot be read; 6 where LOG, FILE or standard output takes no more.
"""
import os
import signal
import sys
from typing import Sequence

sys.path.insert(0, os.path.dirname(os.path.abspath(__file__)))
from player.files import Parser  # noqa: E402
from running.faults import check_streams, run  # noqa: E402
from running.journaling import Journal, open_heads, open_log  # noqa: E402


def main(words: Sequence[str]) -> int:
    """Keeps a log; returns 0."""
    parser = Parser(description=__doc__.split("\n\n")[0], epilog=__doc__.split("\n\n", 1)[1])
    parser.add_argument("log", metavar="LOG", help="the file of the log; it is made where there is none")
    parser.add_argument("--again", action="store_true", help="goes on behind the last whole line of LOG (no: LOG has to be empty)")
    parser.add_argument("--chain", metavar="FILE", help="adds heads of a SHA-256 chain to this file (none)")
    wishes = parser.parse_args(words)
    check_streams()
    signal.signal(signal.SIGINT, signal.SIG_IGN)
    log = open_log(wishes.log, wishes.again)
    heads = open_heads(wishes.chain, log, wishes.again) if wishes.chain else None
    Journal(log, heads).run()
    return 0


if __name__ == "__main__":
    run(main)
