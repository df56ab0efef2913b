#!/usr/bin/env python3
"""Ends sessions by force at random moments, cuts logs, goes on from them by `ride_resume`, and looks at what came of it.

    python3 checks/interruptions.py [--kills 200] [--bytes 1000] [--seed 1] [--only kills|cuts|hostile|edges]

kills    Days of a drawn city are played on two named pipes, with two desks and drivers who follow their plans. Each session is ended by
         SIGKILL at a drawn moment: while it starts and writes the lines that it goes on from, after some time, behind some lines, at the
         opening of a batch, or as its feeds end. The clients keep what they mean to say, and go on behind as many commands as their feed
         has answers on the log.
cuts     A finished log is cut at each of its last bytes, and gone on with.
hostile  Logs that are none, or of another map or fleet, or cannot be finished, or have no end; words, files and outputs that are wrong.
edges    Logs whose reads fail or end anywhere, outputs that take no more, few open files, and memory in steps.

Of each resumed log is seen that it begins with the whole lines of the one that broke off, that no batch was given up, and that a desk with
an open batch waited for news; at the end that each feed's commands stand once and in order beside those that the clients meant, that no
ride is later than it was promised or lost where no late report names it, and that an audit says `yes .. finished yes`. With --second
the auditor of inspector/ says so too.

Status 0 where all is well, 1 where something is not, 2 where a word or a program is not in order. Where something is not as it should be
--keep leaves its files in a folder.
"""
from __future__ import annotations

import random
import shutil
import sys
import tempfile
import time
from collections.abc import Callable, Sequence
from pathlib import Path

sys.path.insert(0, str(Path(__file__).resolve().parent))

from interrupted import TOP  # noqa: E402
from interrupted.cuts import try_cuts  # noqa: E402
from interrupted.days import City, Count, Day, Sizes, check_yes, draw_city  # noqa: E402
from interrupted.edges import EDGES  # noqa: E402
from interrupted.hostile import CASES, Place, try_case  # noqa: E402
from interrupted.logs import Wrong  # noqa: E402
from interrupted.programs import Programs  # noqa: E402
from player.files import Parser, program, run_main, whole  # noqa: E402

DISPATCH = TOP / "crates" / "ride_dispatch" / "out" / "ride_dispatch"
RESUME = TOP / "crates" / "ride_resume" / "out" / "ride_resume"
PARTS = ("kills", "cuts", "hostile", "edges")
KILLS_OF_DAY = (4, 14)
# Days in turn: in a larger city a batch takes longer, so that it is open more often when a session is killed.
DAYS = (Sizes(), Sizes(side=40, vehicles=50, requests=150, minutes=10))
# A day that breaks off while riders ask, so that batches stand among the last lines of its log.
SHORT = Sizes(side=8, vehicles=8, requests=80, minutes=8, last_drive=-200)


class Trial:
    """What is tried, with the programs, and where files of a fault stay."""

    def __init__(self, programs: tuple[Path, Path], seed: int, keep: Path | None, is_second: bool):
        self.programs, self.seed, self.keep, self.is_second = programs, seed, keep, is_second
        self.wrong = 0

    def in_folder(self, what: str, work: Callable[[Path], str]) -> str | None:
        """Returns what some work in a new folder says, None where something is wrong, which is told; its files are kept where that is wanted."""
        folder = Path(tempfile.mkdtemp(prefix="interruptions."))
        try:
            said = work(folder)
        except Wrong as fault:
            self.wrong += 1
            kept = f" (files in {self._kept(folder, what)})" if self.keep else ""
            print(f"{what}: WRONG: {fault}{kept}", flush=True)
            return None
        finally:
            shutil.rmtree(folder)
        return said

    def _kept(self, folder: Path, what: str) -> Path:
        assert self.keep is not None
        target = self.keep / what.replace(" ", "_")
        shutil.rmtree(target, ignore_errors=True)
        target.mkdir(parents=True)
        for path in folder.iterdir():
            if path.is_file():
                shutil.copy(path, target)
        return target

    def kills(self, wanted: int) -> None:
        """Plays days until sessions were killed so often."""
        count, draw, day = Count(), random.Random(self.seed), 0
        begun = time.monotonic()
        while count.kills < wanted and not self.wrong:
            day += 1
            kills = min(draw.randint(*KILLS_OF_DAY), wanted - count.kills)

            def work(folder: Path) -> str:
                city = draw_city(folder, self.programs, DAYS[day % len(DAYS)], 1_000 * self.seed + day)
                Day(city, folder, day, count).play(kills)
                self._second(city, folder / "finished.log")
                return ""

            self.in_folder(f"day {day}", work)
        print(f"kills: {count.text()} ({time.monotonic() - begun:.0f} s)", flush=True)

    def cuts(self, most: int) -> None:
        """Cuts a finished log at each of its last bytes."""
        begun = time.monotonic()

        def work(folder: Path) -> str:
            city = draw_city(folder, self.programs, SHORT, self.seed)
            day = Day(city, folder, self.seed, Count())
            log = day.play(3)
            found = try_cuts(city, folder, log, day.clients.meant, most)
            return ", ".join(f"{number} with {name}" for name, number in sorted(found.items()))

        said = self.in_folder("cuts", work)
        if said is not None:
            print(f"cuts: a log at each of its last {most:,} bytes: {said} ({time.monotonic() - begun:.0f} s)", flush=True)

    def cases(self, cases: list[Callable[[Place], None]]) -> None:
        """Tries each of some cases."""
        for case in cases:
            name = case.__name__.replace("_", " ")

            def work(folder: Path) -> str:
                try_case(case, Programs(*self.programs, folder, folder), folder)
                return "so it is"

            said = self.in_folder(name, work)
            if said:
                print(f"{name}: {said}", flush=True)

    def _second(self, city: City, log: Path) -> None:
        if self.is_second:
            files = [str(path) for path in (city.programs.map, city.programs.fleet, log)]
            check_yes("the auditor of inspector/", [sys.executable, "-B", str(TOP / "inspector" / "check_log.py"), *files])


def main(words: Sequence[str]) -> int:
    """Tries what is wanted; returns 0 where nothing is wrong."""
    parser = Parser(description=__doc__.split("\n\n")[0], epilog=__doc__.split("\n\n", 1)[1])
    parser.add_argument("--program", default=str(DISPATCH), metavar="PATH", help="ride_dispatch (crates/ride_dispatch/out/ride_dispatch)")
    parser.add_argument("--resume", default=str(RESUME), metavar="PATH", help="ride_resume (crates/ride_resume/out/ride_resume)")
    parser.add_argument("--kills", type=whole(1, 1_000_000), default=200, metavar="N", help="how often a session is killed (200)")
    parser.add_argument("--bytes", type=whole(1, 1_000_000), default=1_000, metavar="N", help="at how many last bytes a log is cut (1000)")
    parser.add_argument("--seed", type=whole(0, 10 ** 9), default=1, metavar="N", help="of cities, days and moments (1)")
    parser.add_argument("--only", choices=PARTS, help="one part alone (all)")
    parser.add_argument("--second", action="store_true", help="the auditor of inspector/ looks at each finished day too (no)")
    parser.add_argument("--keep", metavar="FOLDER", help="files of what is wrong stay there (they do not)")
    wishes = parser.parse_args(words)
    trial = Trial((Path(program(wishes.program)), Path(program(wishes.resume))), wishes.seed, Path(wishes.keep) if wishes.keep else None, wishes.second)
    for part in [wishes.only] if wishes.only else PARTS:
        {"kills": lambda: trial.kills(wishes.kills), "cuts": lambda: trial.cuts(wishes.bytes), "hostile": lambda: trial.cases(CASES),
         "edges": lambda: trial.cases(EDGES)}[part]()
    print("so it is" if not trial.wrong else f"{trial.wrong} WRONG", flush=True)
    return 1 if trial.wrong else 0


if __name__ == "__main__":
    run_main(main)
