"""The control room: riders, drivers and the office over HTTP, in front of running sessions of `ride_dispatch`."""
import pathlib
import sys

HERE = pathlib.Path(__file__).resolve().parent
TOOLS = HERE.parent / "tools"

# What is known of a log is known by tools/trip_log.py, and cities are drawn by tools/live_city.py.
if str(TOOLS) not in sys.path:
    sys.path.insert(0, str(TOOLS))
