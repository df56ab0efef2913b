"""The lines of a feed as the program reads them: which have no answer, and how the log spells the others."""
from typing import Optional

from log_lines import COMMANDS, number_of

MOST_BYTES = 200  # of a line; a longer one is a bad line, or a comment where its first byte says so
BLANKS = b" \t"


def says_nothing(line: bytes) -> bool:
    """Returns whether a line, without its LF, is blank or a comment, so that it has no answer."""
    if len(line) > MOST_BYTES:
        return line.startswith(b"#")
    text = line.rstrip(b"\r" + BLANKS).lstrip(BLANKS)
    return not text or text.startswith(b"#")


def spelled(line: bytes, version: int) -> Optional[str]:
    """Returns a command as a log of this version spells it, None for a bad line. The line says something."""
    if len(line) > MOST_BYTES or not line.isascii():
        return None
    text = line.rstrip(b"\r" + BLANKS).decode("ascii")
    word, *fields = [field for field in text.replace("\t", " ").split(" ") if field]
    try:
        numbers = [number_of(field) for field in fields]
    except ValueError:
        return None
    counts = COMMANDS.get(word, ())
    if word == "request":
        without_chairs, with_chairs = counts
        if version == 2 and len(numbers) == without_chairs:
            numbers.append(0)
        counts = (with_chairs if version == 2 else without_chairs,)
    return " ".join([word, *map(str, numbers)]) if len(numbers) in counts else None
