"""What the inspector's commands share: words, one line on standard error, quiet ends."""

import argparse
import os
import sys
from typing import Callable, NoReturn

from texts import Ended


class OneLineParser(argparse.ArgumentParser):
    """A parser that says in one line what is wrong with the words."""

    def error(self, message: str) -> NoReturn:
        """Ends with status 2."""
        raise Ended(2, "", message)


def parser_of(description: str, words: dict[str, str]) -> OneLineParser:
    """Returns a parser of these positional words, each with its meaning."""
    parser = OneLineParser(description=description, formatter_class=argparse.RawDescriptionHelpFormatter)
    for word, meaning in words.items():
        parser.add_argument(word.lower(), metavar=word, help=meaning)
    return parser


def run(main: Callable[[], int]) -> int:
    """Runs a command and returns its exit status; an interrupt and a closed output end it quietly."""
    try:
        return status_of(main)
    except KeyboardInterrupt:
        return 130
    except BrokenPipeError:
        os.dup2(os.open(os.devnull, os.O_WRONLY), sys.stdout.fileno())
        return 0


def status_of(main: Callable[[], int]) -> int:
    """Runs a command and returns its exit status; what ends it early is told in one line on standard error."""
    try:
        status = main()
        sys.stdout.flush()
        return status
    except Ended as end:
        print(f"{os.path.basename(sys.argv[0])}: {end.message}", file=sys.stderr)
        print(end.answer, end="\n" if end.answer else "", flush=True)
        return end.status
