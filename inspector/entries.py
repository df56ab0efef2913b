"""The spelling of the log: its head and its entries, to the byte."""
import re
from dataclasses import dataclass
from typing import Sequence

MOST_PLACE, MOST_CODE = (1 << 32) - 1, 255  # the greatest place of a seat and code of a refusal that can be spelled


def form(pattern: bytes) -> re.Pattern[bytes]:
    """Returns the pattern of a line, with its LF, in which each `N` stands for a number without leading zeros."""
    return re.compile(pattern.replace(b"N", rb"(?:0|[1-9][0-9]{0,17})") + b"\n")


HEAD = form(rb"log ([12]) feeds ([12]) desks ([12])")
END = form(rb"([fd][12]) (end|cut)")
BAD = form(rb"(f[12]) (bad) (N)")
FED = form(rb"(f[12]) (request|cancel|at|done|on|off|clock|batch)((?: N)*) = "
           rb"(waiting|cancelled|freed N|onmap|late N(?: broken(?: N){1,16})?|picked N|dropped N|duty|now N|asked N|"
           rb"refused (N))")
OPEN = form(rb"(d[12]) (open) N at N requests(?: N)* plans(?: N@N)*")
COMMIT = form(rb"(d[12]) (commit) (N) cost (N) seats((?: N:N:N:N)*) prices((?: N:N)*) pays((?: N:N)*) outcomes"
              rb"((?: N:(?:confirmed|away|gone|moved:N:N|behind:N:N))*)")
ABANDON = form(rb"(d[12]) (abandon) (N)")
NUMBERS = {b"cancel": 1, b"at": 3, b"done": 1, b"on": 1, b"off": 1, b"clock": 1, b"batch": 0}  # of each command
Seats = Sequence[tuple[int, int, int, int]]
Amounts = Sequence[tuple[int, int]]


@dataclass
class Entry:
    """One entry: who made it, its word (`end`, `cut`, `bad`, a command's, `open`, `commit`, `abandon`) and its numbers.

    `text` is a command's reply, the whole line of an opening, or a commit's outcomes. A commit's numbers are its batch
    and its cost, its seats (request, vehicle, i, j), its prices (request, amount) and its pays (vehicle, amount).
    """

    actor: bytes
    word: bytes
    numbers: tuple[int, ...] = ()
    text: bytes = b""
    seats: Seats = ()
    prices: Amounts = ()
    pays: Amounts = ()


def read_head(line: bytes) -> tuple[int, ...] | None:
    """Returns the log's version and the numbers of feeds and desks, or None where the line, with its LF, is no head."""
    match = HEAD.fullmatch(line)
    return tuple(map(int, match.groups())) if match else None


def read_entry(line: bytes, version: int) -> Entry | None:
    """Returns the entry that the line, with its LF, spells in a log of this version, or None."""
    if match := FED.fullmatch(line):
        return fed_entry(match, version)
    if match := COMMIT.fullmatch(line):
        actor, word, batch, cost, seated, priced, paid, outcomes = match.groups()
        seats = [(request, vehicle, i, j) for request, vehicle, i, j in items_of(seated)]
        prices = [(request, amount) for request, amount in items_of(priced)]
        pays = [(vehicle, amount) for vehicle, amount in items_of(paid)]
        fits = all(max(seat[2:]) <= MOST_PLACE for seat in seats)
        return Entry(actor, word, (int(batch), int(cost)), outcomes, seats, prices, pays) if fits else None
    if match := OPEN.fullmatch(line):
        return Entry(match[1], match[2], text=line)
    if match := END.fullmatch(line) or BAD.fullmatch(line) or ABANDON.fullmatch(line):
        actor, word, *number = match.groups()
        return Entry(actor, word, tuple(map(int, number)))
    return None


def items_of(text: bytes) -> list[list[int]]:
    """Returns the numbers of each item of a commit's list."""
    return [[int(number) for number in item.split(b":")] for item in text.split()]


def fed_entry(match: re.Match[bytes], version: int) -> Entry | None:
    """Returns the entry of a command and its reply, or None where the count of its numbers is another."""
    actor, word, numbers, reply, code = match.groups()
    values = tuple(map(int, numbers.split()))
    if len(values) != NUMBERS.get(word, 5 + version) or code and int(code) > MOST_CODE:
        return None
    return Entry(actor, word, values, reply)
