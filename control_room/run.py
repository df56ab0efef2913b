#!/usr/bin/python3
"""Starts a whole control room: `python3 control_room/run.py` is `python3 -m control_room run`."""
import os
import sys

if __name__ == "__main__":
    here = os.path.dirname(os.path.abspath(__file__))
    # The folder of this file comes first on the path; the package's own parent has to be there in its place.
    sys.path[0] = os.path.dirname(here)
    from control_room.__main__ import main

    sys.exit(main(["run", *sys.argv[1:]]))
