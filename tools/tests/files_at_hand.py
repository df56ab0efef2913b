"""Files that tests of several tools read: a row of four crossings a minute apart, one vehicle, and what it did by hand."""
import contextlib
import io
import os
import sys
from typing import Callable, Dict, Sequence, Tuple
from unittest import mock

HERE = os.path.dirname(os.path.abspath(__file__))
ROOT = os.path.dirname(os.path.dirname(HERE))
EXAMPLES = os.path.join(ROOT, "examples")
sys.path.insert(0, os.path.dirname(HERE))

from player.files import run_main  # noqa: E402

ROW_MAP = "p sp 4 6\na 1 2 60\na 2 1 60\na 2 3 60\na 3 2 60\na 3 4 60\na 4 3 60\n"
ONE_VEHICLE = "vehicle 1 2 1 0\n"
# Request 7 is aboard from second 60 and to be dropped at 180. Request 9, from 4 to 3, comes behind it: it costs 180 + 60 - 180.
ABOARD = """\
log 1 feeds 1 desks 1
f1 request 7 2 4 1 600 300 = waiting
f1 batch = asked 1
d1 open 1 at 0 requests 7 plans 1@0
d1 commit 1 cost 180 seats 7:1:0:0 prices 7:180 pays outcomes 7:confirmed
f1 at 1 2 60 = onmap
f1 done 1 = picked 7
f1 request 9 4 3 1 600 300 = waiting
f1 batch = asked 2
d1 open 2 at 0 requests 9 plans 1@3
d1 commit 2 cost 60 seats 9:1:1:1 prices 9:60 pays outcomes 9:confirmed
"""


def run(main: Callable[[Sequence[str]], int], words: Sequence[str]) -> Tuple[int, str, str]:
    """Returns the status of a program, what it prints, and what it says on standard error."""
    out, said = io.StringIO(), io.StringIO()
    with mock.patch.object(sys, "argv", ["tool", *words]), contextlib.redirect_stdout(out), contextlib.redirect_stderr(said):
        try:
            run_main(main)
            status = 0
        except SystemExit as ended:
            status = ended.code
    return status, out.getvalue(), said.getvalue()


def written(folder: str, name: str, text: str) -> str:
    """Returns the path of a file that is written."""
    path = os.path.join(folder, name)
    with open(path, "w", encoding="utf-8") as file:
        file.write(text)
    return path


def bad_files(folder: str) -> Dict[str, str]:
    """Returns the paths of what no tool takes for a file of its own: none, a folder, an empty file, and bytes of all kinds."""
    binary = os.path.join(folder, "binary")
    with open(binary, "wb") as file:
        file.write(bytes(range(256)) * 20)
    return {"missing": os.path.join(folder, "nowhere"), "directory": folder, "empty": written(folder, "empty", ""), "binary": binary}
