"""Texts: how the bytes of a file become lines, fields and numbers, and how an inspection ends early."""

import re
from typing import Iterator

LONG_LINE = 200  # bytes without the LF; a longer line is a comment by its first byte, or else faulty
PIECE = 1 << 20  # bytes read at once
NUMBER = re.compile(rb"[0-9]{1,18}")


class Ended(Exception):
    """An inspection that is over: its exit status, its answer line (or an empty one), a line for people."""

    def __init__(self, status: int, answer: str, message: str) -> None:
        super().__init__(message)
        self.status, self.answer, self.message = status, answer, message


def refused(status: int, path: str, answer: str) -> Ended:
    """Returns the end of an inspection whose file is not in order, as the answer says."""
    return Ended(status, answer, f"{path}: {answer}")


def unreadable(path: str, fault: OSError) -> Ended:
    """Returns the end, with status 5, of an inspection whose file cannot be read."""
    return Ended(5, "", f"{path} cannot be read: {fault.strerror or fault}")


def read_up_to(path: str, most: int) -> tuple[bytes, OSError | None]:
    """Returns at most `most` bytes of the file, and the fault that ended the reading before."""
    pieces: list[bytes] = []
    try:
        with open(path, "rb", buffering=0) as source:
            while most > 0 and (piece := source.read(min(most, PIECE))):
                pieces.append(piece)
                most -= len(piece)
    except OSError as fault:
        return b"".join(pieces), fault
    return b"".join(pieces), None


def numbered_lines(path: str, limit: int) -> Iterator[tuple[int, bytes]]:
    """Yields the lines of a map or fleet file, numbered from 1 and without their LF.

    A file that cannot be read further, or has more than `limit` bytes, ends the inspection, but only after the lines
    that end before: a faulty line among them decides first.
    """
    data, fault = read_up_to(path, limit + 1)
    *lines, unfinished = data[:limit].split(b"\n")
    yield from enumerate(lines, start=1)
    if fault is not None:
        raise unreadable(path, fault)
    if len(data) > limit:
        raise Ended(8, "", f"{path} has more than {limit:,} bytes")
    if unfinished:
        yield len(lines) + 1, unfinished


def fields_of(line: bytes, comment: bytes) -> list[bytes]:
    """Returns the fields of a line: none of a blank line or comment, one that fits no form of an over-long line."""
    if len(line) > LONG_LINE:
        return [] if line.startswith(comment) else [line]
    fields = [field for field in line.rstrip(b"\r \t").replace(b"\t", b" ").split(b" ") if field]
    return [] if fields and fields[0].startswith(comment) else fields


def numbers_of(fields: list[bytes]) -> list[int] | None:
    """Returns the fields as numbers, or None where one is not 1 to 18 decimal digits."""
    return [int(field) for field in fields] if all(map(NUMBER.fullmatch, fields)) else None
