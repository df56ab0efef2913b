"""Where bench/all.py takes its figures: the programs and their peers, a folder for what is made, and which commands were run."""
import os
import shlex
import shutil
import sys
from dataclasses import dataclass, field
from typing import List, Optional, Sequence, Set

from machine import DEBIANS, TOP
from measuring import Ran, run

EXAMPLES = os.path.join(TOP, "examples")
BENCH = os.path.join(TOP, "bench")
# The peers' sources, each with its compiler and what it is linked with.
PEERS = {"read_map": ("gcc", "read_map.c", ()), "assignment": ("gcc", "assignment.c", ("-lm",)),
         "dijkstra": ("g++", "dijkstra.cpp", ()), "hierarchy": ("g++", "hierarchy.cpp", ())}


@dataclass
class Workshop:
    """Programs and their peers, a folder for files, the commands that the section at hand has run, and what it leaves out. A quick one takes the
    smallest sizes and one turn."""
    program: str
    bench: str
    folder: str
    quick: bool = False
    resume: str = ""
    commands: List[str] = field(default_factory=list)
    left_out: List[str] = field(default_factory=list)
    done: Set[str] = field(default_factory=set)

    def begin(self) -> None:
        """Forgets the commands of the section before."""
        self.commands, self.left_out = [], []

    def turns(self, many: int) -> int:
        """Returns how often something is run."""
        return 1 if self.quick else many

    def path(self, name: str) -> str:
        """Returns the path of a file that is made."""
        return f"{self.folder}/{name}"

    def word(self, word: str) -> str:
        """Returns how a word of a command is shown at the top of a clone."""
        names = {self.program: "$program", self.bench: "$bench", self.resume: "$resume", sys.executable: "python3"}
        if word in names:
            return names[word]
        for folder, name in ((self.folder, "$files"), (TOP, "")):
            if word.startswith(f"{folder}/"):
                return name + word[len(folder) + (0 if name else 1):]
        return shlex.quote(word)

    def note(self, words: Sequence[str], into: Optional[str] = None) -> str:
        """Adds a command to those of the section, once; returns how it is shown."""
        shown = " ".join(map(self.word, words)) + (f" > {self.word(into)}" if into else "")
        if shown not in self.commands:
            self.commands.append(shown)
        return shown

    def run(self, *words: str, into: Optional[str] = None) -> Ran:
        """Runs a command; returns what it took."""
        self.note(words, into)
        return run(words, into)

    def once(self, *words: str, into: Optional[str] = None) -> None:
        """Runs a command that makes files, unless an earlier section has."""
        shown = self.note(words, into)
        if shown not in self.done:
            run(words, into)
            self.done.add(shown)

    def script(self, name: str, *words: str) -> None:
        """Runs a script of this folder that makes files, unless an earlier section has."""
        self.once(sys.executable, f"{BENCH}/{name}", *words)

    def peer(self, name: str) -> Optional[str]:
        """Returns the path of a peer, which is built by the first who asks, or None where its compiler is missing."""
        compiler, source, libraries = PEERS[name]
        if shutil.which(compiler) is None:
            self.left_out.append(f"bench/{source} ({compiler} is not installed)")
            return None
        self.once(compiler, "-O2", "-o", self.path(name), f"{BENCH}/{source}", *libraries)
        return self.path(name)

    def scipy(self) -> Optional[List[str]]:
        """Returns the command of the peer that takes scipy, or None where scipy is missing."""
        try:
            run([DEBIANS, "-c", "import numpy, scipy.optimize"])
        except ValueError as fault:
            self.left_out.append(f"scipy ({fault})")
            return None
        return [DEBIANS, f"{BENCH}/assignment.py"]
