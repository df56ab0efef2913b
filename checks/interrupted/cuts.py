"""A finished log that is cut at each of its last bytes, and gone on with from there."""
from __future__ import annotations

from collections import Counter
from pathlib import Path

from interrupted.days import City, check_audit
from interrupted.logs import Wrong, check_commands, check_promises, standing, whole_lines
from interrupted.programs import run
from trip_log import read_fleet


def try_cut(city: City, folder: Path, log: bytes, meant: list[list[str]]) -> str:
    """Goes on from a log that breaks off; what the clients meant and has no answer stands in files. Returns in words what stood open."""
    kept, resumed = folder / "cut.log", folder / "resumed.log"
    kept.write_bytes(log)
    whole = whole_lines(log)
    stands = standing(whole)
    feeds = [folder / "rest.riders", folder / "rest.drivers"]
    for path, lines, answered in zip(feeds, meant, stands.answered):
        path.write_text("".join(line + "\n" for line in lines[len(answered):]))
    status, said = run(city.programs.resuming(kept, 2, feeds))
    resumed.write_bytes(said)
    if status != 0 or not said.startswith(whole):
        raise Wrong(f"status {status}, and the output {'begins' if said.startswith(whole) else 'does not begin'} with the whole lines")
    check_commands(meant, standing(said), True)
    check_promises(said, read_fleet(str(city.programs.fleet)))
    check_audit(city.programs, resumed)
    return f"{len(stands.open_batches)} open batches"


def try_cuts(city: City, folder: Path, log: bytes, meant: list[list[str]], most: int) -> Counter[str]:
    """Goes on from each cut of a finished log in its last bytes; returns what stood open. Raises Wrong at the first that goes wrong."""
    head = log.index(b"\n") + 1
    found: Counter[str] = Counter()
    for place in range(max(head, len(log) - most), len(log) + 1):
        try:
            found[try_cut(city, folder, log[:place], meant)] += 1
        except Wrong as fault:
            raise Wrong(f"cut at byte {place:,} of {len(log):,}: {fault}") from fault
    return found
