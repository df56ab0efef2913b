"""Sessions that are ended by force and go on from their logs: played, cut, and looked at afterwards."""
import pathlib
import sys

TOP = pathlib.Path(__file__).resolve().parents[2]
for folder in ("inspector", "tools"):
    if str(TOP / folder) not in sys.path:
        sys.path.insert(0, str(TOP / folder))
