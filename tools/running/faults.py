"""What ends a program that runs beside a session: one line on standard error, and a status."""
import os
import sys
from typing import Callable, Sequence

from player.files import InputError

BAD_INPUT, BAD_OUTPUT, INTERRUPTED = 2, 6, 130  # statuses; the first two are those of ride_dispatch


class Fault(Exception):
    """Why a program cannot go on, in one line, and its status."""

    def __init__(self, what: str, status: int = BAD_INPUT):
        super().__init__(what)
        self.status = status


def of_system(name: str, fault: OSError, status: int = BAD_INPUT) -> Fault:
    """Returns the fault of a file by what the system says of it."""
    return Fault(f"{name}: {fault.strerror or fault}", status)


def check_streams() -> None:
    """Raises Fault where standard input or output is closed: the next file that is opened would take its place."""
    for stream, name, status in ((0, "standard input", BAD_INPUT), (1, "standard output", BAD_OUTPUT)):
        try:
            os.fstat(stream)
        except OSError as fault:
            raise of_system(name, fault, status) from fault


def say(what: object) -> None:
    """Says one line on standard error, where there is one."""
    if sys.stderr:
        print(f"{os.path.basename(sys.argv[0])}: {what}", file=sys.stderr, flush=True)


def run(main: Callable[[Sequence[str]], int]) -> None:
    """Ends the program with the status of its main function. What went wrong is one line, and an interrupt ends it quietly."""
    try:
        status = main(sys.argv[1:])
    except InputError as fault:
        say(fault)
        status = BAD_INPUT
    except Fault as fault:
        say(fault)
        status = fault.status
    except KeyboardInterrupt:
        status = INTERRUPTED
    sys.exit(status)
