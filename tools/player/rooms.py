"""Plays cases by several processes at once, each in a room of its own.

A case with a seed has its figures whoever plays it, so that the number of processes changes nothing but the time that all take.
"""
import contextlib
import multiprocessing
import os
import signal
import sys
import time
from dataclasses import dataclass
from typing import Iterator, Optional, Sequence, Tuple

from player.cases import Case, City, Extent, played
from player.runs import Outcome


@dataclass(frozen=True)
class Task:
    """A case that is to be played with a seed."""
    case: Case
    seed: int


@dataclass
class Done:
    """What came of a task, and how many seconds of the clock it took."""
    outcome: Outcome
    seconds: float


class Room:
    """Where one process plays: a city whose files stand in a folder of its own, and the program."""
    here: Optional["Room"] = None  # that of this process

    def __init__(self, extent: Extent, folder: str, program: str):
        self.city, self.program = City(extent, folder), program

    def play(self, task: Task) -> Done:
        """Returns what comes of a task."""
        began = time.monotonic()
        return Done(played(self.city, self.program, task.seed, task.case), time.monotonic() - began)


def enter_room(extent: Extent, folder: str, program: str) -> None:
    """Makes the room of a process that has been started for it. It ends when its starter says so, quietly."""
    signal.signal(signal.SIGINT, signal.SIG_IGN)
    signal.signal(signal.SIGTERM, lambda *_: sys.exit(143))
    own = f"{folder}/{os.getpid()}"
    os.mkdir(own)
    Room.here = Room(extent, own, program)


def play_here(task: Task) -> Done:
    """Returns what comes of a task in the room of this process."""
    return Room.here.play(task)


@contextlib.contextmanager
def outcomes(tasks: Sequence[Task], room: Tuple[Extent, str, str], jobs: int) -> Iterator[Iterator[Done]]:
    """Yields an iterator over what comes of each task, in their order, by so many processes at once."""
    if jobs == 1:
        yield map(Room(*room).play, tasks)
        return
    with multiprocessing.get_context("fork").Pool(min(jobs, len(tasks)), enter_room, room) as pool:
        yield pool.imap(play_here, tasks)
        pool.close()
        pool.join()
