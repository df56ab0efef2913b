"""The rows of the tables of evening.py: which cases stand in each, and how large their evenings are."""
import os
import sys
from dataclasses import replace
from typing import List

sys.path.insert(0, os.path.join(os.path.dirname(os.path.abspath(__file__)), "..", "tools"))
from player.cases import Case  # noqa: E402
from player.drivers import Habits  # noqa: E402

# What the abstract of Alonso-Mora et al. 2017 says, from memory. Both fleets have the same figures there.
PAPER = {"served, %": 98, "wait, mean s": 168, "delay in all, mean s": 210}
PAPER_FLEETS = ("3,000 vehicles of 4 seats", "2,000 vehicles of 10 seats")
# The letters stand for what docs/quality.md lists: city and riders, a part of the demand, seats that stand, two limits, nobody sent ahead.
DIFFERS, DIFFERS_AHEAD = "a b c d e", "a b c d"
CHANGES = (("batch", 8), ("penalty", 600), ("penalty", 1200), ("drive", 0), ("wait", 0), ("wait", 3), ("lead", 30), ("dwell", 20))


def paper_rows(base: Case) -> List[Case]:
    """Returns the rows of waits, seats and fleets."""
    base = replace(base, differs=DIFFERS)
    at_five = [replace(base, name=f"{base.vehicles} vehicles of {seats} seats, wait 5 min", seats=seats) for seats in (4, 10)]
    others = [replace(base, name=f"{base.vehicles} of 4, wait {wait} min", wait=wait) for wait in (2, 7)]
    fewer = [replace(base, name=f"{base.vehicles * 2 // 3} of {seats}, wait 5 min", vehicles=base.vehicles * 2 // 3, seats=seats)
             for seats in (4, 10)]
    ahead = [replace(base, name=f"{base.vehicles} of 4, wait 5 min, sent ahead within 10 min", reach=600, differs=DIFFERS_AHEAD)]
    return at_five + others + fewer + ahead


def beside_rows(base: Case) -> List[Case]:
    """Returns the rows of what one would take in the program's place, and of its own batches."""
    rows = [replace(base, name="nearest idle vehicle, nobody shares", dispatcher="idle", every=1),
            replace(base, name="first come, first served, cheapest insertion", dispatcher="insertion", every=1)]
    for every in (1, 10, 30):
        rows.append(replace(base, name=f"the program, a batch each {every} s", every=every))
    rows.append(replace(base, name="the program, 30 s, sent ahead within 10 min", reach=600))
    rows.append(replace(base, name="trips by an exact solver, each 30 s", dispatcher="trips"))
    return rows


def settings_rows(base: Case) -> List[Case]:
    """Returns the rows that change one thing at a time."""
    rows = [replace(base, name="as the table's other rows, but for one thing")]
    for name, value in CHANGES:
        rows.append(replace(base, name=f"`{name}` {value}", settings={name: value}))
    rows += [replace(base, name=f"a batch each {every} s", every=every) for every in (10, 60)]
    rows.append(replace(base, name="drivers report each stop", habits=Habits("stop")))
    rows.append(replace(base, name="one crossing of 50 holds a driver up", habits=replace(base.habits, hold_ups=0.02)))
    return rows


def league_rows(base: Case) -> List[Case]:
    """Returns the row of half of the demand, and that of the largest league whose log can be audited as one fleet's."""
    rows = []
    for vehicles in (2 * base.vehicles, 4 * base.vehicles // 3):
        name = f"two companies of {vehicles // 2} vehicles of {base.seats}, wait {base.wait} min"
        rows.append(replace(base, name=name, dispatcher="league", vehicles=vehicles, an_hour=base.an_hour * vehicles // base.vehicles,
                            differs=DIFFERS))
    return rows


TABLES = {"papers": paper_rows, "league": league_rows, "beside": beside_rows, "settings": settings_rows,
          "one": lambda base: [base]}
# Vehicles, riders who ask in the first hour, and minutes. A batch each second comes to the 2,000 of a session in less than an hour.
SIZES = {"papers": (750, 6250, 60), "league": (750, 6250, 60), "beside": (188, 1562, 45), "settings": (188, 1562, 60),
         "one": (188, 1562, 60)}
