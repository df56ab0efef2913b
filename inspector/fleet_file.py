"""The fleet file: settings and vehicles, and what is refused in it."""

from dataclasses import dataclass

from plans import Vehicle
from texts import fields_of, numbered_lines, numbers_of, refused

MOST_BYTES, MOST_VEHICLES, MOST_SEATS, MOST_CHAIRS, MOST_STAMP = 1 << 20, 1_000, 16, 4, 10**9
RANGES = {b"batch": (1, 128), b"penalty": (0, 10**12), b"drive": (0, 1_000), b"wait": (0, 1_000),
          b"lead": (0, 3_600), b"dwell": (0, 3_600), b"log": (1, 2)}


@dataclass
class Settings:
    """The session's settings; times are in seconds, `drive` and `wait` are costs of a second."""

    batch: int = 32
    penalty: int = 3600
    drive: int = 1
    wait: int = 0
    lead: int = 0
    dwell: int = 0
    log: int = 1


def fault_of_setting(name: bytes, value: int, given: set[bytes]) -> int:
    """Returns the code that refuses a setting, or 0."""
    least, most = RANGES[name]
    return 2 if name in given else 0 if least <= value <= most else 4


def fault_of_vehicle(numbers: list[int], fleet: dict[int, Vehicle], nodes: int) -> int:
    """Returns the code that refuses a vehicle of these numbers, or 0."""
    name, seats, node, ready, *chairs = numbers
    if name in fleet:
        return 2
    if not 1 <= node <= nodes:
        return 3
    if not 1 <= seats <= MOST_SEATS or sum(chairs) > MOST_CHAIRS or ready > MOST_STAMP:
        return 4
    return 5 if len(fleet) == MOST_VEHICLES else 0


def read_fleet(path: str, nodes: int) -> tuple[Settings, dict[int, Vehicle]]:
    """Returns the settings and the vehicles by id in fleet order; the first faulty line ends the inspection."""
    settings = Settings()
    given: set[bytes] = set()
    fleet: dict[int, Vehicle] = {}
    for number, line in numbered_lines(path, MOST_BYTES):
        fields, code = fields_of(line, b"#"), 1
        if not fields:
            continue
        if fields[0] == b"set" and len(fields) == 3 and fields[1] in RANGES and (value := numbers_of(fields[2:])):
            code = fault_of_setting(fields[1], value[0], given)
            given.add(fields[1])
            setattr(settings, fields[1].decode(), value[0])
        elif fields[0] == b"vehicle" and len(fields) in (5, 6) and (values := numbers_of(fields[1:])):
            code = fault_of_vehicle(values, fleet, nodes)
            fleet.setdefault(values[0], Vehicle(values[0], values[1], sum(values[4:]), values[2], values[3]))
        if code:
            raise refused(4, path, f"fleet refused {code} line {number}")
    return settings, fleet
