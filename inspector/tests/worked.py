"""A small worked day, texts that tests change, and the auditor's answer over texts."""
import io
import sys
import tempfile
from contextlib import redirect_stderr, redirect_stdout
from pathlib import Path
from typing import Callable
from unittest.mock import patch

sys.path.insert(0, str(Path(__file__).resolve().parents[1]))

from check_log import check  # noqa: E402
from command_line import run  # noqa: E402
from texts import Ended  # noqa: E402

# four crossings in a row, a minute between neighbours
MAP = "p sp 4 6\na 1 2 60\na 2 1 60\na 2 3 60\na 3 2 60\na 3 4 60\na 4 3 60\n"
FLEET = "vehicle 1 2 1 0\n"
LOG = """log 1 feeds 1 desks 1
f1 request 7 2 4 1 600 300 = waiting
f1 batch = asked 1
d1 open 1 at 0 requests 7 plans 1@0
d1 commit 1 cost 180 seats 7:1:0:0 prices 7:180 pays outcomes 7:confirmed
f1 end
d1 end
"""
BEGUN = LOG.removesuffix("f1 end\nd1 end\n")  # request 7 is seated, and the day goes on


def answer(log: str | bytes, fleet: str | bytes = FLEET, road_map: str | bytes = MAP) -> tuple[str, int]:
    """Returns the auditor's answer line and status over these texts."""
    with tempfile.TemporaryDirectory() as folder:
        paths = [write(folder, name, text) for name, text in (("map", road_map), ("fleet", fleet), ("log", log))]
        try:
            return check(*paths), 0
        except Ended as end:
            return end.answer, end.status


def write(folder: str, name: str, text: str | bytes) -> str:
    """Writes a file and returns its path."""
    path = Path(folder) / name
    path.write_bytes(text.encode() if isinstance(text, str) else text)
    return str(path)


def verdict(log: str | bytes, fleet: str | bytes = FLEET, road_map: str | bytes = MAP) -> str:
    """Returns `yes` for a log that is right, or the answer line otherwise."""
    line, status = answer(log, fleet, road_map)
    return "yes" if status == 0 else line


def call(main: Callable[[], int], *words: str, text: bytes = b"") -> tuple[str, int]:
    """Runs a command within this process on these words, with a text on standard input; returns what it writes and its
    status. Where that is not 0 standard error has to have one line, and for a check that says what differs at most one."""
    out, errors, stdin = io.StringIO(), io.StringIO(), io.TextIOWrapper(io.BytesIO(text))
    with patch.object(sys, "argv", ["command", *words]), patch.object(sys, "stdin", stdin):
        with redirect_stdout(out), redirect_stderr(errors):
            status = run(main)
    lines = errors.getvalue().count("\n")
    if lines != (1 if status > 1 else 0) and not (status == 1 and lines == 1):
        raise AssertionError(f"status {status}, standard error: {errors.getvalue()}")
    return out.getvalue(), status
