#!/usr/bin/env python3
"""Prints what the sources' form is measured by: lines of code, contracts, definitions and proofs, and what is carried by hand.

    python3 checks/figures.py [--list WORD | --check]

A clause is a `requires` or an `ensures` of a function; its lines go to the next clause or to the body. Crates of trials and the bench count apart from the
product's. --list prints the places behind a figure: `start`, `faults`, `scratches`, `wide`, `parameters`, `long` or `clauses`.
--check ends with status 1, and the places, where a clause has a line of more than 100 columns.
"""
import argparse
import pathlib
import re
from collections.abc import Iterator
from dataclasses import dataclass, field

TOP = pathlib.Path(__file__).resolve().parent.parent
CLAUSE = re.compile(r"^\s*(?:requires|ensures)\b")
GHOST_USE = re.compile(r"^\s*ghost use ")
FUNCTION = re.compile(r"^\s*(?:pub(?:\([^)]*\))?\s+)?(?:const\s+)?fn (\w+)")
WIDEST = 100
MOST_PARAMETERS = 8
MOST_CLAUSES = 20
MOST_LINES = 40

# What a clause says that is carried by hand from storey to storey.
CARRIED = {
    "start": re.compile(r"\bMayStart\b|requires (?:settings|\w*lawful|\w*idle|\w*versions) \{.*\b(?:settings|fleet|first|second)\b"),
    "faults": re.compile(r"\bRose\b|\bKeepsCount\b|faults \w+\.new ≡|faults \w+\.old ≤"),
    "scratches": re.compile(r"(?:requires|ensures) (?:own_|some_)?scratch"),
}


@dataclass
class Function:
    """A function with its clauses, each as one line, and the lines of its body."""

    place: str
    name: str
    parameters: int = 0
    clauses: list[str] = field(default_factory=list)
    clause_lines: int = 0
    wide: int = 0
    body: int = 0


def crates() -> list[str]:
    """Returns the crates in the order of crates.txt."""
    lines = (TOP / "crates.txt").read_text(encoding="utf-8").split("\n")
    return [line.split(":")[0].split()[0] for line in lines if ":" in line and not line.startswith("#")]


def is_trial(crate: str) -> bool:
    """Returns whether a crate has tests or the bench, and nothing of the product."""
    return crate.endswith("_trials") or crate == "ride_bench"


def parameters_of(head: str) -> int:
    """Returns how many parameters a function's head has, `self` among them."""
    start = head.find("(", head.index("fn "))
    depth, count, seen = 0, 0, False
    for letter in head[start:]:
        if letter in "([{<":
            depth += 1
        elif letter in ")]}" or letter == ">":
            depth -= 1
            if depth == 0:
                break
        elif letter == "," and depth == 1:
            count, seen = count + 1, False
        elif not letter.isspace():
            seen = True
    return count + seen


def head_of(lines: list[str], start: int) -> tuple[str, int]:
    """Returns a function's head up to its clauses or body, and the line behind it."""
    end = start
    while end < len(lines) and not CLAUSE.match(lines[end]) and lines[end].strip() != "{" and not lines[end].rstrip().endswith(("{", ";", "}")):
        end += 1
    if end < len(lines) and not CLAUSE.match(lines[end]) and lines[end].strip() != "{":
        end += 1
    return " ".join(lines[start:end]).replace("->", "  "), end


def functions_of(path: pathlib.Path) -> Iterator[Function]:
    """Yields the functions of a file."""
    lines = path.read_text(encoding="utf-8").split("\n")
    for start, line in enumerate(lines):
        match = FUNCTION.match(line)
        if match is None:
            continue
        head, at = head_of(lines, start)
        made = Function(f"{path.relative_to(TOP)}:{start + 1}", match[1], parameters_of(head))
        while at < len(lines) and lines[at].strip() not in ("{", "}") and not FUNCTION.match(lines[at]):
            text = lines[at]
            if CLAUSE.match(text):
                made.clauses.append(text.strip())
            elif made.clauses and text.strip() and not text.strip().startswith("//"):
                made.clauses[-1] += " " + text.strip()
            made.clause_lines += bool(made.clauses and text.strip() and not text.strip().startswith("//"))
            made.wide += bool(made.clauses) and len(text) > WIDEST and not text.strip().startswith("//")
            at += 1
        if at < len(lines) and lines[at].strip() == "{":
            indent = len(lines[at]) - len(lines[at].lstrip())
            end = next((i for i in range(at + 1, len(lines)) if lines[i] == " " * indent + "}"), at)
            made.body = end - at - 1
        yield made


def lines_in(crate: str, folder: str, ending: str) -> int:
    """Returns how many lines a crate's files have."""
    return sum(path.read_text(encoding="utf-8").count("\n") for path in (TOP / "crates" / crate / folder).rglob(f"*{ending}"))


def code_lines(crate: str, functions: list[Function]) -> int:
    """Returns how many lines of a crate's sources are neither blank nor comments, imports of contracts or clauses."""
    lines = [line.strip() for path in (TOP / "crates" / crate / "src").rglob("*.rt") for line in path.read_text(encoding="utf-8").split("\n")]
    plain = sum(bool(line) and not line.startswith("//") and not GHOST_USE.match(line) for line in lines)
    return plain - sum(function.clause_lines for function in functions)


def sizes(names: list[str], functions: dict[str, list[Function]]) -> str:
    """Returns the lines of code, contracts, definitions and proofs of some crates."""
    code = sum(code_lines(name, functions[name]) for name in names)
    contracts = sum(function.clause_lines for name in names for function in functions[name])
    specs = sum(lines_in(name, "specs", ".antt") for name in names)
    proofs = sum(lines_in(name, "proofs", ".antt") for name in names)
    return f"{code:,} lines of code, {contracts:,} of contracts, {specs:,} of definitions, {proofs:,} of proofs: proof to code {proofs / max(1, code):.2f}"


def edges() -> int:
    """Returns how many uses of one crate by another crates.txt lists."""
    known = set(crates())
    lines = (TOP / "crates.txt").read_text(encoding="utf-8").split("\n")
    return sum(word in known for line in lines if ":" in line and not line.startswith("#") for word in line.split(":", 1)[1].split())


def main() -> None:
    parser = argparse.ArgumentParser(description=__doc__, formatter_class=argparse.RawDescriptionHelpFormatter)
    parser.add_argument("--list", default="", help="print the places behind a figure")
    parser.add_argument("--check", action="store_true", help="fail where a clause line is too wide")
    given = parser.parse_args()
    names = crates()
    functions = {name: [function for path in sorted((TOP / "crates" / name / "src").rglob("*.rt")) for function in functions_of(path)] for name in names}
    product = [name for name in names if not is_trial(name)]
    ours = [function for name in product for function in functions[name]]
    everything = [function for name in names for function in functions[name]]
    places = {word: [f"{f.place} {f.name}: {clause[:120]}" for f in everything for clause in f.clauses if form.search(clause)] for word, form in CARRIED.items()}
    places["wide"] = [f"{f.place} {f.name}: {f.wide}" for f in everything for _ in range(f.wide)]
    places["parameters"] = [f"{f.place} {f.name}: {f.parameters}" for f in ours if f.parameters > MOST_PARAMETERS]
    places["clauses"] = [f"{f.place} {f.name}: {len(f.clauses)}" for f in ours if len(f.clauses) > MOST_CLAUSES]
    places["long"] = [f"{f.place} {f.name}: {f.body}" for f in everything if f.body > MOST_LINES]
    if given.list:
        print("\n".join(places.get(given.list, [])))
        return
    if given.check:
        print("\n".join(places["wide"]) or f"no clause line has more than {WIDEST} columns")
        raise SystemExit(1 if places["wide"] else 0)
    print(f"crates: {len(names)}, of which {len(names) - len(product)} of trials and the bench; uses listed: {edges()}")
    print(f"product: {sizes(product, functions)}")
    print(f"all: {sizes(names, functions)}")
    print(f"clauses: {sum(len(f.clauses) for f in everything):,}, of which {len(places['start'])} on the start of a fleet, {len(places['faults'])} on counts of faults, "
          f"{len(places['scratches'])} on scratches")
    print(f"clause lines over {WIDEST} columns: {len(places['wide']):,}")
    print(f"functions of the product with more than {MOST_PARAMETERS} parameters: {len(places['parameters'])}; contracts of more than {MOST_CLAUSES} clauses: {len(places['clauses'])}; "
          f"bodies over {MOST_LINES} lines: {len(places['long'])}")


if __name__ == "__main__":
    main()
