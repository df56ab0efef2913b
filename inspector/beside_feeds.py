#!/usr/bin/env python3
"""Puts a log beside the feeds that were sent: does it hold each command of theirs, once, in order, and no other?

example: python3 inspector/beside_feeds.py examples/morning.log examples/morning.txt

Takes one feed of a `replay`; of a `serve` the riders' feed and then the drivers'. A feed that the log calls `cut` was not
read to its end, and the commands behind the cut are counted, not held against the log. Whether the replies are right is
what check_log.py tells. Status 0 where log and feeds agree, 1 where they differ, 2 where a file is no log or no feed.
"""
import sys
from collections import Counter, defaultdict
from dataclasses import dataclass, field

from check_log import log_lines
from command_line import parser_of, run
from entries import read_entry, read_head
from feeds import Command, read_feed
from texts import Ended


@dataclass
class Told:
    """What the log says of one feed: its commands, and its ending (empty where the log has none)."""

    commands: list[Command] = field(default_factory=list)
    ending: str = ""


def read_log(path: str) -> tuple[int, list[Told]]:
    """Returns the log's version and what it tells of each feed."""
    version, told = 0, []
    for number, line in enumerate(log_lines(path), start=1):
        head = read_head(line) if number == 1 else None
        entry = read_entry(line, version) if number > 1 else None
        if head is not None:
            version, told = head[0], [Told() for _ in range(head[1])]
        elif entry is None or entry.actor.startswith(b"f") and int(entry.actor[1:]) > len(told):
            raise Ended(2, "", f"{path} is no log: line {number} is no {'entry' if number > 1 else 'head'}")
        elif entry.actor.startswith(b"f"):
            feed, word = told[int(entry.actor[1:]) - 1], entry.word.decode()
            if word in ("end", "cut"):
                feed.ending = word
            else:
                feed.commands.append(Command(number, " ".join([word, *map(str, entry.numbers)])))
    return version, told


def differences(sent: list[Command], told: list[Command]) -> list[str]:
    """Returns where the commands of a feed and those that the log tells of it differ, a line each."""
    sent, told = differing_parts(sent, told)
    extra = without(told, Counter(command.text for command in sent))
    absent = without(sent, Counter(command.text for command in told))
    lines, by_name = [], defaultdict(list)
    for command in reversed(extra):
        by_name[command.about()].append(command)
    unheard = []
    for command in absent:
        if by_name[command.about()]:
            other = by_name[command.about()].pop()
            lines.append(f"log line {other.line} says `{other.text}`, feed line {command.line} `{command.text}`")
        else:
            unheard.append(f"feed line {command.line}, `{command.text}`, stands in no line of the log")
    unsent = sorted((command for rest in by_name.values() for command in rest), key=lambda command: command.line)
    lines += unheard + [f"log line {command.line}, `{command.text}`, stands in no line of the feed" for command in unsent]
    same = [[command for command in side if command not in odd] for side, odd in ((sent, set(absent)), (told, set(extra)))]
    moved = [pair for pair in zip(*same) if pair[0].text != pair[1].text]
    if moved:
        lines.append(f"the order differs from feed line {moved[0][0].line} and log line {moved[0][1].line} on")
    return lines


def differing_parts(sent: list[Command], told: list[Command]) -> tuple[list[Command], list[Command]]:
    """Returns both lists without what they have in common at their beginning and at their end."""
    first = next((place for place, pair in enumerate(zip(sent, told)) if pair[0].text != pair[1].text),
                 min(len(sent), len(told)))
    sent, told = sent[first:], told[first:]
    last = next((place for place, pair in enumerate(zip(sent[::-1], told[::-1])) if pair[0].text != pair[1].text),
                min(len(sent), len(told)))
    return sent[:len(sent) - last], told[:len(told) - last]


def without(commands: list[Command], others: Counter[str]) -> list[Command]:
    """Returns the commands that are more than the others have of the same text, the later ones of equal ones."""
    left, rest = Counter(others), []
    for command in commands:
        if left[command.text]:
            left[command.text] -= 1
        else:
            rest.append(command)
    return rest


def beside(name: str, told: Told, sent: list[Command], too_long: bool) -> tuple[str, list[str]]:
    """Returns what is to be said of one feed in a line, and its differences."""
    behind = max(0, len(sent) - len(told.commands)) if told.ending != "end" else 0
    cause = "the log breaks off" if not told.ending else "the feed is too long" if too_long else "its reading was stopped"
    lines = differences(sent[:len(sent) - behind], told.commands)
    if told.ending == "end" and too_long:
        lines.append("the feed is too long to be read to its end, and the log does not say `cut`")
    rest = f"; {cause}, and {behind} commands behind that are not in the log" if told.ending != "end" else ""
    return f"{name}: {len(sent)} commands in the feed, {len(told.commands)} in the log{rest}", lines


def main() -> int:
    """Returns the exit status."""
    parser = parser_of(__doc__, {"LOG": "the trip log", "FEED": "the feed, or the riders' feed"})
    parser.add_argument("second", metavar="FEED", nargs="?", help="the drivers' feed, of a log of two feeds")
    words = parser.parse_args()
    paths = [words.feed] + ([words.second] if words.second is not None else [])
    try:
        version, told = read_log(words.log)
    except Ended as end:
        raise Ended(2, "", end.message) from None
    if len(told) != len(paths):
        raise Ended(2, "", f"{words.log} is of {len(told)} feeds, and {len(paths)} are given")
    differ = False
    for number, (path, feed) in enumerate(zip(paths, told), start=1):
        summary, lines = beside(f"f{number}", feed, *read_feed(path, version))
        print("\n    ".join([summary, *lines]))
        differ = differ or bool(lines)
    print("log and feeds differ" if differ else "log and feeds agree")
    return 1 if differ else 0


if __name__ == "__main__":
    sys.exit(run(main))
