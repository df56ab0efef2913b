"""What the tests share: the package on the path, and small zones of known maps."""
import shutil
import sys
import tempfile
import unittest
from pathlib import Path
from typing import List, Optional

ROOT = Path(__file__).resolve().parents[2]
sys.path.insert(0, str(ROOT))

from control_room.zones import Zone  # noqa: E402

# Four crossings in a row, a minute between neighbours, both ways.
ROW_MAP = "p sp 4 6\na 1 2 60\na 2 1 60\na 2 3 60\na 3 2 60\na 3 4 60\na 4 3 60\n"
ROW_FLEET = "set dwell 20\nset penalty 900\nvehicle 1 4 1 0\nvehicle 2 4 4 0\n"
# A batch at the second 100 confirms request 1, from 2 to 3, in vehicle 1; request 2 is away.
ROW_LOG = """log 1 feeds 2 desks 1
f1 cancel 100000000000000001 = refused 7
f1 clock 100 = now 100
f1 request 1 2 3 1 400 300 = waiting
f1 request 2 4 1 1 101 300 = waiting
f1 batch = asked 1
d1 open 1 at 100 requests 1 2 plans 1@0 2@0
d1 commit 1 cost 1040 seats 1:1:0:0 prices 1:140 2:900 pays outcomes 1:confirmed 2:away
""".splitlines()


def has_libraries() -> Optional[str]:
    """Returns which of Debian's libraries is missing, None where all are there."""
    for name in ("aiohttp", "pika"):
        try:
            __import__(name)
        except ImportError:
            return f"missing: python3-{name}"
    return None


class WithFolder(unittest.TestCase):
    """A test with a folder of its own."""

    def setUp(self) -> None:
        self.folder = Path(tempfile.mkdtemp(prefix="control_room.test."))
        self.addCleanup(shutil.rmtree, self.folder)

    def row_zone(self, lines: Optional[List[str]] = None) -> Zone:
        """Returns a zone of four crossings in a row, with these lines on its kept log."""
        (self.folder / "map.gr").write_text(ROW_MAP)
        (self.folder / "fleet.txt").write_text(ROW_FLEET)
        if lines is not None:
            (self.folder / "kept.log").write_text("".join(line + "\n" for line in lines))
        zone = Zone("row", str(self.folder), "/bin/true", began=1_000_000, begin=100, speed=10)
        zone.save()
        return zone
