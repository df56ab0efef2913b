"""The second auditor, inspector/check_log.py, over the log of two companies together, which may have more vehicles than a fleet file.

It is a program of its own, so that it is run as one; only its limit of vehicles is another.
"""
import pathlib
import subprocess
import sys

INSPECTOR = pathlib.Path(__file__).resolve().parents[2] / "inspector"
SCRIPT = """
import sys
sys.path.insert(0, sys.argv[1])
import check_log
import fleet_file
from texts import Ended
fleet_file.MOST_VEHICLES = int(sys.argv[2])
try:
    print(check_log.check(*sys.argv[3:]))
except Ended as end:
    print(end.answer or end)
"""


def second_audit(most_vehicles: int, map_path: str, fleet_path: str, log_path: str) -> str:
    """Returns what the second auditor says of a log whose fleet has at most so many vehicles."""
    words = [sys.executable, "-B", "-c", SCRIPT, str(INSPECTOR), str(most_vehicles), map_path, fleet_path, log_path]
    done = subprocess.run(words, stdout=subprocess.PIPE, stderr=subprocess.DEVNULL, text=True, check=False)
    return done.stdout.strip() or f"the second auditor ended with status {done.returncode}"
