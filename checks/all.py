#!/usr/bin/env python3
"""Runs the repository's own checks over the program that `rt ci` has built, and counts them.

    python3 checks/all.py [--passed N] [--only WORD]

Each check is a command that ends with status 0 where all is well. What it prints is shown where it fails. A check whose tool is not
installed is left out, and a line says so, as it does of a part that a check leaves out itself. None depends on how fast the machine is. The
last line is `N passed, M failed`, to which --passed adds what passed before; the status is 1 where a check failed.
"""
import argparse
import pathlib
import shutil
import subprocess
import sys
import time
from dataclasses import dataclass

TOP = pathlib.Path(__file__).resolve().parent.parent
PROGRAM = TOP / "crates" / "ride_dispatch" / "out" / "ride_dispatch"
RESUME = "crates/ride_resume/out/ride_resume"
DEBIANS = "/usr/bin/python3"  # the interpreter that finds Debian's libraries
LIMIT = 300.0  # seconds that a check may take


@dataclass(frozen=True)
class Check:
    """A command, what it shows, and what has to be there for it."""

    name: str
    command: tuple[str, ...]
    needs: tuple[str, ...] = ()  # commands on the path, or files of the repository

    def missing(self) -> list[str]:
        """Returns what the check needs and does not find."""
        return [need for need in self.needs if not (TOP / need).exists() and shutil.which(need) is None]


def unit_tests(folder: str, interpreter: str = sys.executable) -> Check:
    """Returns the check that runs the unit tests of a folder."""
    return Check(f"unit tests of {folder}", (interpreter, "-B", "-m", "unittest", "discover", "-s", f"{folder}/tests"),
                 (interpreter, f"{folder}/tests"))


def type_hints(folder: str) -> Check:
    """Returns the check that the type hints of a folder are true."""
    return Check(f"type hints of {folder}", ("mypy", "--config-file", "checks/mypy.ini", folder), ("mypy",))


CHECKS = [
    unit_tests("tools", DEBIANS),
    unit_tests("inspector"),
    unit_tests("control_room", DEBIANS),
    unit_tests("checks"),
    type_hints("inspector"),
    type_hints("control_room"),
    type_hints("checks"),
    type_hints("bench"),
    Check("words that are not in order", ("checks/words.sh",), ("bash",)),
    Check("lines on standard error", ("checks/messages.sh",), ("bash",)),
    Check("statuses of each word", (sys.executable, "-B", "checks/statuses.py")),
    Check("what is written before a pipe is waited for, and who sleeps", (sys.executable, "-B", "checks/waiting.py")),
    Check("the edge of the system", ("checks/edges.sh",), ("bash",)),
    Check("each allocation refused in turn", (sys.executable, "-B", "checks/allocations.py"), ("gcc",)),
    Check("sessions that are killed and go on from their logs",
          (sys.executable, "-B", "checks/interruptions.py", "--kills", "12", "--bytes", "60"), (RESUME,)),
    Check("certified sheets", (sys.executable, "-B", "checks/sheets.py"), ("checks/sheets.py",)),
    Check("the page of the headline beside the sources", (sys.executable, "-B", "checks/headline.py", "--check")),
    Check("the width of clauses", (sys.executable, "-B", "checks/figures.py", "--check")),
]


def run(check: Check) -> bool:
    """Returns whether a check passed."""
    begun = time.monotonic()
    try:
        done = subprocess.run(check.command, cwd=TOP, stdin=subprocess.DEVNULL, stdout=subprocess.PIPE, stderr=subprocess.STDOUT,
                              timeout=LIMIT, errors="replace")
        good, said = done.returncode == 0, done.stdout
    except subprocess.TimeoutExpired as stopped:
        good, said = False, f"{(stopped.stdout or b'').decode(errors='replace')}\nstopped after {LIMIT:.0f} s"
    except OSError as fault:
        good, said = False, str(fault)
    print(f"check: {check.name}: {'passed' if good else 'FAILED'} ({time.monotonic() - begun:.0f} s)", flush=True)
    if not good:
        print(said, flush=True)
        return False
    for line in said.splitlines():
        if " is left out: " in line:
            print(f"check: {check.name}: {line}", flush=True)
    return True


def main() -> None:
    parser = argparse.ArgumentParser(description=__doc__, formatter_class=argparse.RawDescriptionHelpFormatter)
    parser.add_argument("--passed", type=int, default=0, help="how many passed before (0)")
    parser.add_argument("--only", default="", help="only the checks whose name has this word")
    given = parser.parse_args()
    passed, failed = given.passed, 0
    if not PROGRAM.exists():
        print(f"check: {PROGRAM.relative_to(TOP)} is not built: rt ci builds it, or rt run in crates/ride_dispatch")
        print(f"{passed} passed, 1 failed")
        raise SystemExit(1)
    for check in CHECKS:
        if given.only not in check.name:
            continue
        missing = check.missing()
        if missing:
            print(f"check: {check.name}: left out, {' and '.join(missing)} not found", flush=True)
        elif run(check):
            passed += 1
        else:
            failed += 1
    print(f"{passed} passed, {failed} failed")
    raise SystemExit(1 if failed else 0)


if __name__ == "__main__":
    main()
