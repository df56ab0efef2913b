#!/usr/bin/env python3
"""Lets a second session take each vehicle over from a first one, as it becomes idle there.

Started at the hour of the change, over the logs of two running sessions of one map and one fleet file. The second has been asked for no batch yet. It
takes all vehicles off duty in the second and then in the first, which serves out its plans. As soon as one has no stop there, it tells the
second where the vehicle is and that it is on duty, and prints `over V NODE SECOND`: from then on its driver reports to the second. Riders'
requests, and `batch`, go to the second from the hour on; their client sees to that.

    relay.py first.log second.log fleet.txt --first first/drivers --second second/drivers

PIPEs are feeds, or pipes that are the standard inputs of their outboxes; each line is written whole, beside other writers. A relay that was killed is
started again with the same words: it goes on by what the logs say. It ends when all vehicles have gone over.

Status 0; 2 where a word, a file or a line of a log is bad, or a session refuses what it is told; 6 where an output takes no more.
"""
import os
import sys
import time
from typing import List, Sequence

sys.path.insert(0, os.path.dirname(os.path.abspath(__file__)))
from log_reading import ANY_NODE, named_fleet  # noqa: E402
from player.files import Parser, seconds, whole  # noqa: E402
from running.faults import BAD_OUTPUT, Fault, check_streams, of_system, run  # noqa: E402
from running.handover import FIRST, Handover  # noqa: E402
from running.kept_file import write_all  # noqa: E402
from running.log_tail import LogTail  # noqa: E402
from running.pipes import FeedPipe  # noqa: E402
from trip_log import LogError, TripLog  # noqa: E402


def take_lines(handover: Handover, session: int, tail: LogTail) -> None:
    """Takes the lines that have come on the log of a session. Raises LogError at one that is no line of a log."""
    while lines := tail.take():
        for line in lines:
            handover.take(session, line)


def read_on(handover: Handover, tails: Sequence[LogTail]) -> None:
    """Takes the lines that have come on both logs. Raises Fault at one that is no line of a log."""
    for session, tail in enumerate(tails):
        try:
            take_lines(handover, session, tail)
        except LogError as wrong:
            raise Fault(f"{tail.path}:{wrong.line}: {wrong.what}") from wrong


def say(handover: Handover, pipes: Sequence[FeedPipe]) -> None:
    """Says what is due, as far as the pipes take it."""
    for session, line in handover.due():
        if pipes[session].write(f"{line}\n".encode()):
            handover.sent.add((session, line))


def tell(handover: Handover, told: List[int]) -> None:
    """Prints the vehicles that have gone over since."""
    for number in sorted(handover.over - set(told)):
        told.append(number)
        vehicle = handover.logs[FIRST].vehicles[number]
        try:
            write_all(1, f"over {number} {vehicle.at} {vehicle.ready}\n".encode())
        except OSError as fault:
            raise of_system("standard output", fault, BAD_OUTPUT) from fault


def main(words: Sequence[str]) -> int:
    """Hands all vehicles over; returns 0."""
    parser = Parser(description=__doc__.split("\n\n")[0], epilog=__doc__.split("\n\n", 1)[1])
    parser.add_argument("first_log", metavar="FIRST", help="the log of the session that serves out its plans")
    parser.add_argument("second_log", metavar="SECOND", help="the log of the session that takes the vehicles over")
    parser.add_argument("fleet", metavar="FLEET", help="the fleet file of both")
    parser.add_argument("--first", required=True, metavar="PIPE", help="a feed of the first session, or the pipe of its outbox")
    parser.add_argument("--second", required=True, metavar="PIPE", help="a feed of the second")
    parser.add_argument("--resting", type=whole(0, 10 ** 18 - 1), nargs="+", default=[], metavar="V",
                        help="vehicles that stay off duty in the second, as their drivers rest (none)")
    parser.add_argument("--pause", type=seconds, default=0.05, metavar="S", help="seconds between looks at logs that have not grown (0.05)")
    wishes = parser.parse_args(words)
    check_streams()
    tails = [LogTail(wishes.first_log), LogTail(wishes.second_log)]
    pipes = [FeedPipe(wishes.first), FeedPipe(wishes.second)]
    first, second = (TripLog(named_fleet(wishes.fleet, ANY_NODE)) for _ in tails)
    handover, told = Handover(first, second, wishes.resting), []
    while True:
        read_on(handover, tails)
        say(handover, pipes)
        tell(handover, told)
        if handover.is_over():
            return 0
        time.sleep(wishes.pause)


if __name__ == "__main__":
    run(main)
