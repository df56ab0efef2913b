#!/usr/bin/env python3
"""Sends a client's commands into a feed of a session, each exactly once and in order, whatever becomes of this program.

Takes commands on standard input. Each is kept in FILE, on the disk, before it is written into the named pipe FEED; LOG, which the
session or a journal writes, tells by its lines `fN ..` which are answered. An outbox that is started again after a kill goes on with
the next command that has no answer. Whoever writes into the feed but this has the count wrong, which is found out and said.

The first line of standard output is `kept K`: so many commands of FILE stand there, and the client goes on with its next. Then comes a
line for each answer, once it is on the disk: the command's number, the command as it was kept, ` = ` and the reply.

    outbox.py riders day.log --feed 1 --kept riders.kept < commands

prints `1 request 101 1 6 1 25500 900 = waiting`. Blank lines and comments have no answer and are left out. A bad line is a command, answered
by `bad`; of more than 1,000 bytes the first 1,000 are taken.

The program ends when its input has ended and all is answered. Status 0; 2 where a word or a file is bad, or the log is not that of FILE;
6 where the feed has ended before, or an output takes no more.
"""
import os
import sys
from typing import Sequence

sys.path.insert(0, os.path.dirname(os.path.abspath(__file__)))
from player.files import Parser, seconds, whole  # noqa: E402
from running.faults import check_streams, run  # noqa: E402
from running.kept_file import KeptFile  # noqa: E402
from running.log_tail import LogTail  # noqa: E402
from running.pipes import FeedPipe, LineSource  # noqa: E402
from running.posting import Posting  # noqa: E402
from running.sent_commands import Outbox  # noqa: E402

MOST_LINES = 1_000_000  # of a feed


def main(words: Sequence[str]) -> int:
    """Sends what comes; returns 0."""
    parser = Parser(description=__doc__.split("\n\n")[0], epilog=__doc__.split("\n\n", 1)[1])
    parser.add_argument("feed", metavar="FEED", help="the named pipe of the feed; another holds it open")
    parser.add_argument("log", metavar="LOG", help="the file of the session's log")
    parser.add_argument("--feed", dest="number", type=whole(1, 2), required=True, metavar="N", help="1 for riders, 2 for drivers")
    parser.add_argument("--kept", required=True, metavar="FILE", help="the file of what was sent; it is made where there is none")
    parser.add_argument("--after", type=whole(0, MOST_LINES), default=0, metavar="K", help="answers up to number K are not printed again (0)")
    parser.add_argument("--pause", type=seconds, default=0.02, metavar="S", help="seconds between looks at a log that has not grown (0.02)")
    wishes = parser.parse_args(words)
    check_streams()
    log, feed = LogTail(wishes.log), FeedPipe(wishes.feed)
    outbox = Outbox(KeptFile(wishes.kept), feed, f"f{wishes.number}")
    Posting(outbox, LineSource(), log, wishes.after, wishes.pause).run()
    return 0


if __name__ == "__main__":
    run(main)
