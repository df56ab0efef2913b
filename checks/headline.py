#!/usr/bin/env python3
"""Which definitions the contract of `run` reaches, and that of `resume` beyond them: what has to be read, and no more, to know what they say.

    python3 checks/headline.py [--write | --check]
    python3 checks/headline.py [--list] --from crates/dispatcher/src/top.rt --call run

Prints how many definitions are reached, their lines without comments, files and crates; with --list their names, file by file, in the order of
crates.txt. --write puts both contracts and the definitions themselves into docs/headline.md, behind its mark; --check says whether the page has them
as they are, whether README has their numbers, and whether the others, and no more, stand in `specs/inner/` of each crate of the product. --from
and --call count for another call. A definition is one of a crate's `specs/`; types of the code (`specs/declared`) and words of the kit are not
counted, since the code and the kit's pages have them.
"""
import argparse
import pathlib
import re
from dataclasses import dataclass, field

from figures import is_trial

TOP = pathlib.Path(__file__).resolve().parent.parent
PAGE = TOP / "docs" / "headline.md"
MARK = "<!-- the contract and its definitions, printed by checks/headline.py --write -->\n"
RUN = (TOP / "crates" / "dispatcher" / "src" / "top.rt", "run")
RESUME = (TOP / "crates" / "resumption" / "src" / "top.rt", "resume")
BEYOND = "\n## What a session that goes on says beyond that\n\n"
HEAD = re.compile(r"^(?:abbrev |unfoldable )?(?:pub )?(?:abbrev |unfoldable )?(?:record |data )?(\S+)(?: \(| \{| :|$)")
STARTS = re.compile(r"^(?:abbrev|unfoldable|pub|record|data)\b")
WORD = re.compile(r"[^\s(){}\[\],.;λ→×∷]+")


@dataclass
class Definition:
    """A definition with the lines that say it, the comment before it among them."""

    name: str
    module: str
    lines: list[str]
    words: set[str] = field(default_factory=set)


@dataclass
class Module:
    """A file of definitions: those that it has, and where the other names come from."""

    path: pathlib.Path
    definitions: dict[str, Definition]
    imports: dict[str, tuple[str, str]]


def imports_of(text: str) -> dict[str, tuple[str, str]]:
    """Returns the names that `use` lines bring in, each with its module and its name there."""
    found = {}
    for module, names in re.findall(r"use (Rattle\.\S+?)\.\{([^}]*)\}", text):
        for name in re.split(r",\s*", names):
            parts = name.strip().split(" as ")
            if parts[0]:
                found[parts[-1].strip("◌")] = (module, parts[0].strip("◌"))
    return found


def constructors(body: list[str]) -> list[str]:
    """Returns the constructors of a data type."""
    return [match[1] for line in body if (match := re.match(r"^  (\S+) :", line))]


def definitions_of(module: str, lines: list[str]) -> dict[str, Definition]:
    """Returns the definitions of a file, each under its name, and those of data types under the names of their constructors too."""
    found: dict[str, Definition] = {}
    starts = [place for place, line in enumerate(lines) if STARTS.match(line)]
    for place, start in enumerate(starts):
        end = starts[place + 1] if place + 1 < len(starts) else len(lines)
        while end > start + 1 and (not lines[end - 1].strip() or lines[end - 1].startswith("--")):
            end -= 1
        first = start
        while first > 0 and lines[first - 1].startswith("--"):
            first -= 1
        match = HEAD.match(lines[start])
        if match is None:
            continue
        body = [line for line in lines[start:end] if not line.lstrip().startswith("--")]
        made = Definition(match[1], module, lines[first:end], set(WORD.findall(" ".join(body))))
        found[made.name] = made
        if re.match(r"^(?:pub )?data ", lines[start]):
            found.update((name, made) for name in constructors(body))
    return found


def read_modules() -> dict[str, Module]:
    """Returns the files of definitions of all crates, by their modules."""
    modules = {}
    for path in sorted(TOP.glob("crates/*/specs/**/*.antt")):
        crate, parts = path.relative_to(TOP / "crates").parts[0], path.relative_to(TOP / "crates").parts[2:]
        module = f"Rattle.{crate}.specs." + ".".join(parts)[: -len(".antt")]
        text = path.read_text(encoding="utf-8")
        modules[module] = Module(path, definitions_of(module, text.split("\n")), imports_of(text))
    return modules


def contract_of(path: pathlib.Path, call: str) -> tuple[set[str], dict[str, tuple[str, str]]]:
    """Returns the words of a call's clauses, and the names that its file brings in."""
    text = path.read_text(encoding="utf-8")
    start = text.index(f"fn {call}<") if f"fn {call}<" in text else text.index(f"fn {call}(")
    clauses = text[start : text.index("\n{\n", start)]
    return set(WORD.findall(clauses)), imports_of(text)


def reached(modules: dict[str, Module], words: set[str], imports: dict[str, tuple[str, str]]) -> list[Definition]:
    """Returns the definitions that these words reach, in the order of files."""
    found: dict[tuple[str, str], Definition] = {}
    waiting = [imports[word] for word in words if word in imports]
    while waiting:
        module, name = waiting.pop()
        if module not in modules or name not in modules[module].definitions:
            continue
        definition = modules[module].definitions[name]
        if (module, definition.name) in found:
            continue
        found[module, definition.name] = definition
        here = modules[module]
        waiting += [(module, word) for word in definition.words if word in here.definitions]
        waiting += [here.imports[word] for word in definition.words if word in here.imports]
    return list(found.values())


def crate_order() -> dict[str, int]:
    """Returns the place of each crate in crates.txt, lowest first."""
    lines = [line.split(":")[0].split()[0] for line in (TOP / "crates.txt").read_text().split("\n") if ":" in line and not line.startswith("#")]
    return {crate: place for place, crate in enumerate(lines)}


def count_of(found: list[Definition]) -> str:
    """Returns how many definitions these are, with their lines that are no comments, files and crates."""
    lines = sum(bool(line.strip()) and not line.lstrip().startswith("--") for definition in found for line in definition.lines)
    modules = {definition.module for definition in found}
    crates = {module.split(".")[1] for module in modules}
    return f"{len(found)} definitions, {lines} lines, {len(modules)} files, {len(crates)} crates"


def in_order(modules: dict[str, Module], found: list[Definition]) -> list[tuple[Module, list[Definition]]]:
    """Returns the files that these definitions stand in, lowest crate first, each with its own as they stand there."""
    order = crate_order()
    wanted = {(definition.module, definition.name) for definition in found}
    names = sorted({definition.module for definition in found}, key=lambda module: (order.get(module.split(".")[1], -1), module))
    return [(modules[name], [d for key, d in modules[name].definitions.items() if (name, key) in wanted and key == d.name]) for name in names]


def misplaced(modules: dict[str, Module], known: set[tuple[str, str]]) -> list[str]:
    """Returns what is wrong with where definitions stand: those that a top call reaches outside `specs/inner/`, the others in it."""
    faults = []
    for name, module in modules.items():
        crate, folder = name.split(".")[1], name.split(".")[3]
        if is_trial(crate):
            continue
        for definition in {d.name for d in module.definitions.values()}:
            if ((name, definition) in known) == (folder == "inner"):
                where = "outside of" if folder == "inner" else "in"
                faults.append(f"{module.path.relative_to(TOP)}: {definition} belongs {where} specs/inner/")
    return sorted(faults)


def page_of(path: pathlib.Path, call: str, files: list[tuple[Module, list[Definition]]], count: str) -> str:
    """Returns the part of the page behind its mark: the contract, and the definitions that it reaches."""
    text = path.read_text(encoding="utf-8")
    start = text.index(f"pub fn {call}")
    parts = [f"{count}.\n", "```rust", text[start : text.index("\n{\n", start)], "```"]
    for module, definitions in files:
        parts += [f"\n### {module.path.relative_to(TOP)}\n", "```"]
        parts.append("\n\n".join("\n".join(definition.lines) for definition in definitions))
        parts.append("```")
    return "\n".join(parts) + "\n"


def main() -> None:
    parser = argparse.ArgumentParser(description=__doc__, formatter_class=argparse.RawDescriptionHelpFormatter)
    parser.add_argument("--from", dest="path", help="the file of another call")
    parser.add_argument("--call", help="the call")
    parser.add_argument("--list", action="store_true", help="the names, file by file")
    parser.add_argument("--write", action="store_true", help="writes the page")
    parser.add_argument("--check", action="store_true", help="says whether the page and README are as the sources are")
    given = parser.parse_args()
    modules = read_modules()
    call = (TOP / given.path, given.call or "run") if given.path else RUN
    found = reached(modules, *contract_of(*call))
    print(count_of(found))
    if given.list:
        for module, definitions in in_order(modules, found):
            print(f"{module.path.relative_to(TOP)}: {', '.join(definition.name for definition in definitions)}")
    if not given.path:
        whole_page(modules, found, given.write, given.check)


def whole_page(modules: dict[str, Module], found: list[Definition], writes: bool, checks: bool) -> None:
    """Prints what `resume` reaches beyond what `run` does, and writes or checks the page of both, as far as that is asked for."""
    known = {(definition.module, definition.name) for definition in found}
    more = [d for d in reached(modules, *contract_of(*RESUME)) if (d.module, d.name) not in known]
    print(f"beyond them: {count_of(more)}")
    wanted = page_of(*RUN, in_order(modules, found), count_of(found))
    wanted += BEYOND + page_of(*RESUME, in_order(modules, more), count_of(more))
    before, mark, after = PAGE.read_text(encoding="utf-8").partition(MARK)
    if writes:
        PAGE.write_text(before + mark + wanted, encoding="utf-8")
    if not checks:
        return
    faults = [] if after == wanted else ["docs/headline.md is not as the sources are: python3 checks/headline.py --write"]
    faults += misplaced(modules, known | {(definition.module, definition.name) for definition in more})
    readme = (TOP / "README.md").read_text(encoding="utf-8")
    for said in (f"{len(found)} definitions", f"{len(more)} more"):
        if said not in readme:
            faults.append(f"README.md does not say that {said} are reached")
    print("\n".join(faults), end="\n" if faults else "")
    raise SystemExit(1 if faults else 0)


if __name__ == "__main__":
    main()
