#!/usr/bin/env python3
"""An evening of Manhattan's form, played against the program and against what one would take in its place. Prints a table:

  evening.py papers     fleets, seats and waits of Alonso-Mora et al. 2017, for a quarter of the taxis' demand, below that paper's figures
  evening.py league     half of that demand, as a league of two companies; and the most vehicles of a league that can be audited
  evening.py beside     first come, first served; nobody shares; trips by an exact solver (Debian's python3-scipy, which /usr/bin/python3
                        finds); the program by batches of 1, 10 and 30 seconds; vehicles sent ahead
  evening.py settings   what each setting does
  evening.py one        the evening that the options say

Riders ask from seven in the evening on; those of the first minutes (--warm), in which all vehicles are idle at first, are left out. A rider
who is turned away asks again half a minute later, until the wait is over. Each cell has a figure for each seed. Figures are the same at
every run, save the processors' time of a batch; each log of the program is audited, and the table ends where an audit does not say yes.

  python3 bench/evening.py papers --program crates/ride_dispatch/out/ride_dispatch --minutes 60
"""
import argparse
import itertools
import json
import os
import sys
import tempfile
from typing import Iterator, List, Sequence, Tuple

sys.path.insert(0, os.path.join(os.path.dirname(os.path.abspath(__file__)), "..", "tools"))
from evening_rows import PAPER, PAPER_FLEETS, SIZES, TABLES  # noqa: E402
from player.cases import Case, Extent, Trips, roads_of  # noqa: E402
from player.drivers import Habits  # noqa: E402
from player.files import InputError, Parser, read_lines, run_main, whole  # noqa: E402
from player.manhattan import STREETS  # noqa: E402
from player.roads import Roads  # noqa: E402
from player.rooms import Done, Task, outcomes  # noqa: E402
from player.runs import Outcome, default_program  # noqa: E402

COLUMNS = (
    ("served, %", "Served, %"), ("wait, mean s", "Waiting, s"), ("wait, 9 of 10 within s", "9 of 10 within, s"),
    ("delay aboard, mean s", "Delay aboard, s"), ("delay in all, mean s", "Delay in all, s"),
    ("driven a served rider, s", "Driven a rider, s"), ("riders aboard a driven second", "Aboard a driven second"),
    ("empty, % of driven", "Empty, %"))

# Tables.


def paper_lines() -> Iterator[str]:
    """Yields the rows of the paper's own figures."""
    for fleet in PAPER_FLEETS:
        figures = [str(PAPER.get(name, "-")) for name, _ in COLUMNS]
        yield "| " + " | ".join([f"Alonso-Mora et al. 2017: {fleet}", *figures, "-", ""]) + " |"


def cells(done: Sequence[Done]) -> List[str]:
    """Returns the cells of a row, a figure for each seed."""
    values = [each.outcome.figures.values() for each in done]
    row = ["; ".join(str(value[name]) for value in values) for name, _ in COLUMNS]
    return row + ["; ".join(f"{each.outcome.mean_batch():.0f}" for each in done)]


def note_of(task: Task, done: Done) -> str:
    """Returns what is said of an evening on standard error."""
    outcome = done.outcome
    said = f"; {outcome.sheets} sheets certified, {outcome.orders} orders, {outcome.late_orders} late" if outcome.sheets else ""
    return f"{task.case.name}, seed {task.seed}: {done.seconds:.0f} s by the clock; audit: {outcome.audit or 'none'}{said}"


def head_lines(extent: Extent, roads: Roads, seeds: Sequence[int], first: Case) -> Iterator[str]:
    """Yields what stands above the rows: the evening's size, and the names of the columns."""
    yield (f"{roads.nodes:,} crossings, {len(roads.arcs):,} arcs; {first.vehicles:,} vehicles, {first.an_hour:,} riders in the first hour; "
           f"{extent.minutes} minutes, of which the first {extent.warm} are left out; seeds {' '.join(map(str, seeds))}:")
    yield ""
    titles = ["", *(title for _, title in COLUMNS), "A batch, ms"] + ["Differs"] * bool(first.differs)
    yield "| " + " | ".join(titles) + " |"
    yield "|---" * len(titles) + "|"
    if first.differs:
        yield from paper_lines()


def table_lines(wishes: argparse.Namespace, cases: Sequence[Case], done: Iterator[Done]) -> Iterator[str]:
    """Yields the table's rows, each when all its evenings are played, and says on standard error what each evening came to."""
    for case in cases:
        row = []
        for seed in wishes.seeds:
            task = Task(case, seed)
            row.append(next(done))
            print(note_of(task, row[-1]), file=sys.stderr, flush=True)
            if wishes.json:
                keep(wishes.json, wishes.table, task, row[-1].outcome)
        yield "| " + " | ".join([case.name, *cells(row)] + [case.differs] * bool(case.differs)) + " |"


def keep(path: str, table: str, task: Task, outcome: Outcome) -> None:
    """Adds the figures of an evening to a file."""
    figures = {"table": table, "case": task.case.name, "seed": task.seed, "audit": outcome.audit, "sheets": outcome.sheets,
               "orders": outcome.orders, "late orders": outcome.late_orders, **outcome.figures.values()}
    with open(path, "a", encoding="utf-8") as file:
        file.write(json.dumps(figures) + "\n")


def place_in(path: str, name: str) -> Tuple[List[str], List[str]]:
    """Returns the lines of a page before and after a table: up to `<!-- NAME -->`, and from `<!-- end of NAME -->` on. Raises InputError
    where these are missing."""
    lines, begin, end = read_lines(path), f"<!-- {name} -->", f"<!-- end of {name} -->"
    if begin not in lines or end not in lines[lines.index(begin):]:
        raise InputError(f"{path}: no lines {begin} and {end}")
    return lines[:lines.index(begin) + 1], lines[lines.index(end):]


def put_into(path: str, name: str, table: Sequence[str]) -> None:
    """Puts a table into a page. Raises InputError where the page has no place for it."""
    before, after = place_in(path, name)
    with open(path, "w", encoding="utf-8") as file:
        file.writelines(line + "\n" for line in [*before, *table, *after])


# The command line.


def wishes_of(words: Sequence[str]) -> argparse.Namespace:
    """Returns the command line."""
    parser = Parser(description=__doc__)
    add = parser.add_argument
    add("table", choices=TABLES, help="which table is printed")
    add("--program", default=default_program(), help="the built ride_dispatch (crates/ride_dispatch/out/ride_dispatch)")
    add("--vehicles", type=whole(1, 1000), help="vehicles (750, or 188 where the table is long)")
    add("--requests", type=whole(1, 100_000), help="riders who ask in the first hour (6,250, or 1,562)")
    add("--minutes", type=whole(1, 240), help="minutes in which riders ask (60, or 45 beside others)")
    add("--warm", type=whole(0, 240), default=20, help="minutes at first whose riders do not count (20)")
    add("--report", choices=("crossing", "stop"), default="crossing", help="what drivers report (crossing)")
    add("--wait", type=whole(1, 60), default=5, help="most minutes until the pickup, and beyond the fastest way (5)")
    add("--seats", type=whole(1, 16), default=4, help="seats of a vehicle (4)")
    add("--every", type=whole(1, 600), default=30, help="seconds between batches (30)")
    add("--ahead", type=whole(1, 10 ** 6), metavar="R", help="idle vehicles are sent ahead within R seconds (none is)")
    add("--tick", type=whole(1, 60), default=5, help="seconds that are played in one step (5)")
    add("--streets", type=whole(10, 2000), default=STREETS, help="streets of the city, each of 22 crossings (186)")
    add("--map", metavar="FILE", help="a road map in place of the made city; all its nodes are alike")
    add("--seeds", type=whole(0, 10 ** 9), nargs="+", default=[1, 2], help="seeds of riders and stands (1 2)")
    add("--rows", type=whole(1, 100), nargs="+", metavar="N", help="only these rows of the table, from 1 (all)")
    add("--jobs", type=whole(1, 64), default=1, metavar="N", help="evenings that are played at once, each by a process (1)")
    add("--json", metavar="FILE", help="adds each evening's figures to a file, a line each")
    add("--into", metavar="PAGE", help="puts the table into a page as well, between its lines <!-- NAME --> and <!-- end of NAME -->")
    add("--name", help="what the table is called in the page (papers, league ..)")
    return parser.parse_args(words)


def cases_of(wishes: argparse.Namespace) -> List[Case]:
    """Returns the rows that are wanted. Raises InputError where there is no such row, or no solver for it."""
    vehicles, an_hour, _ = SIZES[wishes.table]
    base = Case("the evening", "program", wishes.vehicles or vehicles, wishes.requests or an_hour, wishes.wait, wishes.seats, wishes.every,
                wishes.ahead, habits=Habits(wishes.report))
    cases = TABLES[wishes.table](base)
    if wishes.rows and max(wishes.rows) > len(cases):
        raise InputError(f"--rows {max(wishes.rows)}: the table has {len(cases)} rows")
    cases = [cases[row - 1] for row in wishes.rows] if wishes.rows else cases
    if any(case.dispatcher == "trips" for case in cases) and Trips is None:
        raise InputError("the exact solver takes scipy: Debian's python3-scipy, run by /usr/bin/python3")
    return cases


def main(words: Sequence[str]) -> int:
    """Prints a table; returns 0."""
    wishes = wishes_of(words)
    extent = Extent(wishes.map, wishes.streets, wishes.minutes or SIZES[wishes.table][2], wishes.warm, wishes.tick)
    if extent.warm >= extent.minutes:
        raise InputError(f"--warm {extent.warm} leaves nothing of {extent.minutes} minutes")
    cases, roads = cases_of(wishes), roads_of(extent)
    if wishes.into:
        place_in(wishes.into, wishes.name or wishes.table)
    if wishes.json:
        open(wishes.json, "a", encoding="utf-8").close()  # where it cannot be written nothing is played
    tasks = [Task(case, seed) for case in cases for seed in wishes.seeds]
    lines = []
    with tempfile.TemporaryDirectory() as folder, outcomes(tasks, (extent, folder, wishes.program), wishes.jobs) as done:
        for line in itertools.chain(head_lines(extent, roads, wishes.seeds, cases[0]), table_lines(wishes, cases, iter(done))):
            print(line, flush=True)
            lines.append(line)
    if wishes.into:
        put_into(wishes.into, wishes.name or wishes.table, lines)
    return 0


if __name__ == "__main__":
    run_main(main)
