#!/usr/bin/env python3
"""The status with which the built programs end: each of 0 to 8, for each word that can end so, with all its options, and for ride_resume,
which takes no word.

    python3 checks/statuses.py [PROGRAM] [--resume PATH] [--only WORD]

PROGRAM is crates/ride_dispatch/out/ride_dispatch where none is given; `rt run` in crates/ride_dispatch builds it. ride_resume is left out
where it is not built. Options are given in the order of docs/formats.md and in the reverse order. A run that does not end in a minute is
wrong. Bad input is one line and status 2.
"""
import pathlib
import resource
import subprocess
import sys
import tempfile
from collections.abc import Mapping, Sequence

TOP = pathlib.Path(__file__).resolve().parent.parent
sys.path.insert(0, str(TOP / "tools"))

from player.files import Parser, program, run_main  # noqa: E402

PROGRAM = TOP / "crates" / "ride_dispatch" / "out" / "ride_dispatch"
RESUME = TOP / "crates" / "ride_resume" / "out" / "ride_resume"

MAP = "p sp 4 6\na 1 2 60\na 2 1 60\na 2 3 60\na 3 2 60\na 3 4 60\na 4 3 60\n"
FLEET = "vehicle 1 2 1 0\n"
FEED = "request 7 2 4 1 600 300\nbatch\n"
LOG = ("log 1 feeds 1 desks 1\nf1 request 7 2 4 1 600 300 = waiting\nf1 batch = asked 1\n"
       "d1 open 1 at 0 requests 7 plans 1@0\n"
       "d1 commit 1 cost 180 seats 7:1:0:0 prices 7:180 pays outcomes 7:confirmed\nf1 end\nd1 end\n")
# A log that breaks off in its last line, while the second desk has a batch open.
TORN = ("log 1 feeds 2 desks 2\nf1 request 7 2 4 1 600 300 = waiting\nf1 batch = asked 1\n"
        "d2 open 1 at 0 requests 7 plans 1@0\nf2 at 1 1 0 = onm")
WHOLE = TORN[:TORN.rindex("\n") + 1]
TEXTS = {
    "map": MAP, "fleet": FLEET, "feed": FEED, "log": LOG,
    "no_map": "p sp 0 0\n", "no_fleet": "vehicle\n", "wrong_log": LOG.replace("cost 180", "cost 181"),
    # A map whose network alone takes more memory than a run of status 1 is given.
    "large_map": "p sp 500000 0\n", "long_fleet": "#" * (2**20 + 1), "long_feed": "\n" * 1_000_001,
    "long_log": "log 1 feeds 1 desks 1\n" + "f1 clock 0 = now 0\n" * 2_100_000,
    "torn_log": TORN, "torn_head": TORN[:9], "cut_feed": WHOLE + "f1 cut\n", "cut_desk": WHOLE + "d1 cut\n", "given_up": WHOLE + "d2 abandon 1\n",
    "torn_wrong": WHOLE.replace("= waiting", "= refused 2") + "f1 clo", "empty": "",
}

# The options of each word, and the file or the value of each.
WORDS = {
    "replay": {"--map": "map", "--fleet": "fleet", "--feed": "feed"},
    "serve": {"--map": "map", "--fleet": "fleet", "--riders": "feed", "--drivers": "feed", "--workers": "2", "--desks": "2"},
    "audit": {"--map": "map", "--fleet": "fleet", "--log": "log"},
    "drill": {"--side": "3", "--vehicles": "2", "--requests": "8", "--seed": "1"},
    "book": {"--feed": "feed"},
    "ahead": {"--map": "map", "--fleet": "fleet", "--feed": "feed", "--reach": "600"},
    "league": {"--map": "map", "--fleet": "fleet", "--second": "fleet", "--feed": "feed"},
}

# The options of ride_resume.
GOING_ON = {"--map": "map", "--fleet": "fleet", "--log": "torn_log", "--riders": "feed", "--drivers": "feed", "--workers": "2"}

# What a run is given in place of an option's file or value, and the status with which it ends then.
INSTEAD: dict[str, dict[str, int]] = {
    "--map": {"no_map": 3, "missing": 5, "map": 0}, "--fleet": {"no_fleet": 4, "missing": 5, "long_fleet": 8, "map": 4},
    "--second": {"no_fleet": 4, "missing": 5, "long_fleet": 8}, "--feed": {"missing": 5, "long_feed": 8},
    "--riders": {"missing": 5, "long_feed": 8}, "--drivers": {"missing": 5, "long_feed": 8},
    "--log": {"missing": 5, "wrong_log": 7, "long_log": 8}, "--workers": {"0": 2, "17": 2, "x": 2, "+2": 2}, "--desks": {"0": 2, "3": 2},
    "--side": {"1": 2, "101": 2}, "--vehicles": {"1001": 2}, "--requests": {"16001": 2}, "--seed": {"2147483648": 2},
    "--reach": {"0": 2, "1000001": 2},
}

# The same of ride_resume: whole lines of a log may be wrong, what is torn is dropped, and what was broken off cannot be finished.
OF_GOING_ON: dict[str, dict[str, int]] = {
    **INSTEAD, "--map": {**INSTEAD["--map"], "folder": 5}, "--fleet": {**INSTEAD["--fleet"], "folder": 5},
    "--log": {"log": 0, "missing": 5, "folder": 5, "wrong_log": 7, "torn_wrong": 7, "torn_head": 7, "empty": 7, "feed": 7, "long_log": 8,
              "cut_feed": 1, "cut_desk": 1, "given_up": 1},
    "--riders": {"missing": 5, "folder": 5, "long_feed": 8, "empty": 0}, "--drivers": {"missing": 5, "folder": 5, "long_feed": 8, "empty": 0},
    "--workers": {"0": 2, "17": 2, "x": 2, "+2": 2, "1": 0, "16": 0},
}

# Several faults at once, in the order in which they are met: the first decides.
MET_IN_TURN: list[tuple[int, dict[str, str]]] = [
    (2, {"--workers": "0"}), (3, {"--map": "no_map"}), (4, {"--fleet": "no_fleet"}), (7, {"--log": "wrong_log"}), (5, {"--riders": "missing"})]
# The same of a log that is too long, and of one that cannot be finished: before the first no feed is asked for, with the other they are.
OTHERS_IN_TURN = [(8, {"--log": "long_log", "--riders": "missing"}), (5, {"--log": "cut_feed", "--drivers": "missing"}),
                  (1, {"--log": "cut_desk", "--riders": "long_feed"}), (5, {"--riders": "long_feed", "--drivers": "folder"})]

# Enough to start a program, and too little for the large map.
LITTLE_MEMORY = 40 * 2**20
NAMES = ("missing", "folder")  # what is no text and stands for a path too


class Runs:
    """Runs of programs over files of a folder, and how many ended wrongly."""

    def __init__(self, folder: pathlib.Path) -> None:
        self.folder, self.count, self.wrong = folder, 0, 0
        for name, text in TEXTS.items():
            (folder / name).write_text(text)
        (folder / "folder").mkdir()

    def expect(self, status: int, called: list[str], options: Mapping[str, str], output: str = "/dev/null", memory: int | None = None) -> None:
        """Runs what is called with options in both orders; either run has to end with this status."""
        for order in (list(options), list(options)[::-1]):
            words = list(called)
            for option in order:
                value = options[option]
                words += [option, str(self.folder / value) if value in TEXTS or value in NAMES else value]
            self.run(status, words, output, memory)

    def run(self, status: int, words: list[str], output: str = "/dev/null", memory: int | None = None) -> None:
        """Runs these words, of which the first is a program; it has to end with this status."""
        def limit() -> None:
            if memory is not None:
                resource.setrlimit(resource.RLIMIT_AS, (memory, memory))

        with open(output, "wb") as sink:
            try:
                ended: int | str = subprocess.run(words, stdin=subprocess.DEVNULL, stdout=sink, preexec_fn=limit,
                                                  stderr=subprocess.DEVNULL, timeout=60).returncode
            except subprocess.TimeoutExpired:
                ended = "none within a minute"
        self.count += 1
        if ended != status:
            self.wrong += 1
            print(f"{' '.join([pathlib.Path(words[0]).name, *words[1:]])} > {output}: status {ended}, and not {status}")


def try_options(runs: Runs, called: list[str], options: Mapping[str, str], instead: Mapping[str, Mapping[str, int]]) -> None:
    """Tries a call with what it wants, with each option missing, twice or given something else, and into a full output."""
    runs.expect(0, called, options)
    runs.expect(6, called, options, output="/dev/full")
    for option in options:
        runs.expect(2, called, {other: value for other, value in options.items() if other != option})
        runs.run(2, [*called, *[part for other in options for part in (other, "1")], option, "1"])
        for value, status in instead[option].items():
            runs.expect(status, called, {**options, option: value})
    if "--map" in options:
        runs.expect(1, called, {**options, "--map": "large_map"}, memory=LITTLE_MEMORY)


def try_faults_in_turn(runs: Runs, resume: str) -> None:
    """Tries sessions that go on with several faults at once."""
    for place, (status, _) in enumerate(MET_IN_TURN):
        faults = {option: value for _, fault in MET_IN_TURN[place:] for option, value in fault.items()}
        runs.expect(status, [resume], {**GOING_ON, **faults})
    for status, faults in OTHERS_IN_TURN:
        runs.expect(status, [resume], {**GOING_ON, **faults})


def try_resume(runs: Runs, resume: str) -> None:
    """Tries ride_resume, which takes no word."""
    try_options(runs, [resume], GOING_ON, OF_GOING_ON)
    try_faults_in_turn(runs, resume)
    runs.expect(2, [resume, "serve"], GOING_ON)
    runs.expect(2, [resume], {**GOING_ON, "--desks": "2"})
    for words in ("", "resume", "--help", "--log log"):
        runs.run(2, [resume, *words.split()])


def main(words: Sequence[str]) -> int:
    """Runs what is wanted; returns 0 where every run ended as it should."""
    parser = Parser(description=__doc__)
    parser.add_argument("program", nargs="?", default=str(PROGRAM), help="ride_dispatch")
    parser.add_argument("--resume", default="", metavar="PATH", help="ride_resume (crates/ride_resume/out/ride_resume)")
    parser.add_argument("--only", choices=[*WORDS, "resume"], help="only the runs of this word, or of ride_resume")
    given = parser.parse_args(words)
    dispatch, resume = program(given.program), program(given.resume) if given.resume else str(RESUME)
    with tempfile.TemporaryDirectory() as name:
        runs = Runs(pathlib.Path(name))
        for word, options in WORDS.items():
            if given.only in (None, word):
                try_options(runs, [dispatch, word], options, INSTEAD)
        for some in ("", "plan", "--map map", "help"):
            runs.run(2, [dispatch, *some.split()])
        if not pathlib.Path(resume).exists():
            print(f"ride_resume is left out: {RESUME.relative_to(TOP)} is not built")
        elif given.only in (None, "resume"):
            try_resume(runs, resume)
    print(f"{runs.count} runs, {runs.wrong} wrong")
    return 1 if runs.wrong else 0


if __name__ == "__main__":
    run_main(main)
