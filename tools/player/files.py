"""Files that somebody hands in: each fault is one line, which the programs print before they end with status 2."""
import argparse
import contextlib
import os
import signal
import sys
from collections import Counter
from typing import Any, Callable, Iterable, Iterator, List, NoReturn, Sequence

from trip_log import Entry, Fleet, TripLog, Vehicle, read_fleet

RANGES = {"batch": (1, 128), "penalty": (0, 10 ** 12), "drive": (0, 1000), "wait": (0, 1000), "lead": (0, 3600), "dwell": (0, 3600),
          "log": (1, 2)}


MOST_SEATS, MOST_CHAIRS = 16, 4
MOST_TIME = 10 ** 9


class InputError(ValueError):
    """A file, an option or a program that cannot be used, in one line."""


def read_lines(path: str) -> List[str]:
    """Returns the lines of a text. Raises InputError where it cannot be read or is no text."""
    try:
        with open(path, encoding="utf-8") as file:
            return file.read().splitlines()
    except OSError as fault:
        raise InputError(f"{path}: {fault.strerror}") from fault
    except UnicodeDecodeError as fault:
        raise InputError(f"{path}: no text, but bytes that are no UTF-8") from fault


def open_fleet(path: str, nodes: int) -> Fleet:
    """Returns the fleet file at a path, over a map of so many nodes. Raises InputError where it is none."""
    read_lines(path)
    try:
        fleet = read_fleet(path)
    except (ValueError, IndexError, KeyError) as fault:
        raise InputError(f"{path}: no fleet file") from fault
    for name, value in fleet.settings.items():
        check_setting(name, value)
    if not fleet.vehicles:
        raise InputError(f"{path}: no vehicle stands in it")
    for vehicle in fleet.vehicles:
        if fault := fault_of_vehicle(vehicle, nodes):
            raise InputError(f"{path}: vehicle {vehicle.id} {fault}")
    counts = Counter(vehicle.id for vehicle in fleet.vehicles)
    if twice := [number for number, count in counts.items() if count > 1]:
        raise InputError(f"{path}: vehicle {twice[0]} stands twice")
    return fleet


def fault_of_vehicle(vehicle: Vehicle, nodes: int) -> str:
    """Returns what is wrong with a vehicle over a map of so many nodes, empty where nothing is."""
    if not 1 <= vehicle.at <= nodes:
        return f"stands at node {vehicle.at}, and the map has 1 to {nodes}"
    if not (1 <= vehicle.seats <= MOST_SEATS and 0 <= vehicle.chairs <= MOST_CHAIRS):
        return (f"has {vehicle.seats} seats and {vehicle.chairs} places for wheelchairs, and may have 1 to {MOST_SEATS} and 0 to "
                f"{MOST_CHAIRS}")
    return "" if 0 <= vehicle.ready <= MOST_TIME else f"is ready at {vehicle.ready}, and may be from 0 to {MOST_TIME}"


def check_setting(name: str, value: int) -> None:
    """Raises InputError where a setting is unknown or out of its range."""
    if name not in RANGES:
        raise InputError(f"no such setting: {name} (there are {', '.join(RANGES)})")
    least, most = RANGES[name]
    if not least <= value <= most:
        raise InputError(f"{name} {value} is out of its range of {least} to {most}")


def write_fleet(path: str, fleet: Fleet) -> None:
    """Writes settings and vehicles as a fleet file."""
    with open(path, "w", encoding="utf-8") as file:
        file.writelines(f"set {name} {value}\n" for name, value in fleet.settings.items())
        for vehicle in fleet.vehicles:
            chairs = f" {vehicle.chairs}" if vehicle.chairs else ""
            file.write(f"vehicle {vehicle.id} {vehicle.seats} {vehicle.at} {vehicle.ready}{chairs}\n")


@contextlib.contextmanager
def reading_log(path: str, log: TripLog) -> Iterator[None]:
    """Makes an InputError of each fault of a log's file, or of one of its lines, while it is read."""
    try:
        yield
    except InputError:
        raise
    except OSError as fault:
        raise InputError(f"{path}: {fault.strerror}") from fault
    except UnicodeDecodeError as fault:
        raise InputError(f"{path}: no text, but bytes that are no UTF-8") from fault
    except (ValueError, IndexError, KeyError) as fault:
        raise InputError(f"{path}: line {log.lines} is no line of a log of this fleet and map ({fault})") from fault


def entries_of(path: str, lines: Iterable[str], log: TripLog) -> Iterator[Entry]:
    """Reads a log's lines, and yields their entries. Raises InputError where one has a vehicle that the fleet file has not."""
    known = len(log.vehicles)
    for line in lines:
        entry = log.read(line)
        if len(log.vehicles) != known:
            raise InputError(f"{path}: line {log.lines} has a vehicle that the fleet file has not")
        if entry:
            yield entry


class Parser(argparse.ArgumentParser):
    """A reader of command lines whose faults are one line. `epilog` and description stand as they are written."""

    def __init__(self, **words: Any):
        super().__init__(formatter_class=argparse.RawDescriptionHelpFormatter, **words)

    def error(self, message: str) -> NoReturn:
        raise InputError(f"{message} (--help says more)")


def program(path: str) -> str:
    """Returns the full path of a program. Raises InputError where there is none that can be run."""
    if not os.path.isfile(path) or not os.access(path, os.X_OK):
        raise InputError(f"{path} is no program that can be run")
    return os.path.realpath(path)


def whole(least: int, most: int) -> Callable[[str], int]:
    """Returns a reader of options that are whole numbers in a range."""
    def read(text: str) -> int:
        value = int(text) if text.isdecimal() else None
        if value is None or not least <= value <= most:
            raise argparse.ArgumentTypeError(f"{text} is no whole number from {least:,} to {most:,}")
        return value
    return read


def part(text: str) -> float:
    """Returns the number from 0 to 1 that an option names."""
    try:
        value = float(text)
    except ValueError:
        value = -1.0
    if not 0 <= value <= 1:
        raise argparse.ArgumentTypeError(f"{text} is no number from 0 to 1")
    return value


def seconds(text: str) -> float:
    """Returns the seconds, above 0 and at most an hour, that an option names."""
    try:
        value = float(text)
    except ValueError:
        value = 0.0
    if not 0 < value <= 3600:
        raise argparse.ArgumentTypeError(f"{text} is no number of seconds above 0 and up to 3,600")
    return value


def run_main(main: Callable[[Sequence[str]], int]) -> None:
    """Ends the program with the status of its main function. Bad input is one line and status 2; Ctrl-C and a closed output pipe
    end it quietly; a call to terminate does what Ctrl-C does, so that sessions and scratch files go too."""
    signal.signal(signal.SIGTERM, signal.default_int_handler)
    try:
        status = main(sys.argv[1:])
        sys.stdout.flush()
    except InputError as fault:
        print(f"{os.path.basename(sys.argv[0])}: {fault}", file=sys.stderr)
        status = 2
    except KeyboardInterrupt:
        status = 130
    except BrokenPipeError:
        os.dup2(os.open(os.devnull, os.O_WRONLY), sys.stdout.fileno())
        status = 141
    except OSError as fault:
        print(f"{os.path.basename(sys.argv[0])}: {fault.filename}: {fault.strerror}", file=sys.stderr)
        status = 2
    sys.exit(status)
