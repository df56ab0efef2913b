"""A session that goes on at the edge of the system: logs whose reads fail or end anywhere, outputs that take no more, few files and little
memory. Each run ends by itself, with the status of docs/formats.md and never by a signal."""
from __future__ import annotations

import errno
import fcntl
import os
import resource
import shutil
import subprocess
import sys
import threading
import time
from collections.abc import Callable, Iterator
from pathlib import Path

from interrupted.hostile import ENDS, FIRST_LOOK, OPENED, SEATED, Place, expect, expect_legal
from interrupted.logs import Wrong, whole_lines
from interrupted.programs import KILLED, PATIENCE

FAULTS = Path(__file__).resolve().parents[1] / "faults.c"
PIECE = 7  # bytes that a read or a write takes where each fails in turn
MOST_CALLS = 1_000  # that such a run makes
LOADERS = 127  # the status where there is too little memory to load a program
LEAST_KB, MOST_KB, STEP_KB = 2_500, 40_000, 1_250  # the memory of a session, in steps
CLOCKS = 20_000  # lines of a long log
LONG = SEATED + "".join(f"f1 clock {second} = now {second}\n" for second in range(1, CLOCKS))
# A file that can be opened, and whose first byte cannot be read.
UNREADABLE = Path("/proc/self/mem")
FEWEST_FILES, ENOUGH_FILES = 4, 6  # open at once: the three of every process and one more, and one for each feed and one to spare


def ended(words: list[str], output: int | str | None = None, before: Callable[[], None] | None = None,
          environment: dict[str, str] | None = None) -> tuple[int, bytes]:
    """Returns the status of a run and what it writes, which goes into an output where one is given. `before` makes its process ready, in an
    environment of its own where one is given. Raises Wrong where it does not end."""
    sink = os.open(output, os.O_WRONLY) if isinstance(output, str) else output
    try:
        done = subprocess.run(words, stdin=subprocess.DEVNULL, stdout=subprocess.PIPE if sink is None else sink, stderr=subprocess.DEVNULL,
                              timeout=PATIENCE, preexec_fn=before, env=environment, check=False)
    except subprocess.TimeoutExpired:
        raise Wrong(f"a run does not end within {PATIENCE:.0f} s: {' '.join(words)}") from None
    finally:
        if isinstance(output, str) and sink is not None:
            os.close(sink)
    return done.returncode, done.stdout or b""


def logs_that_cannot_be_read(place: Place) -> None:
    """Neither feed is asked for then: they are pipes that nobody opens."""
    place.write("plain", SEATED)
    (place.folder / "circle").symlink_to(place.folder / "circle")
    names = [place.folder, place.folder / "missing", place.folder / "plain" / "below", place.folder / "circle", Path("x" * 5_000)]
    if UNREADABLE.exists():
        names.append(UNREADABLE)
    if os.geteuid() != 0:
        place.write("closed", SEATED).chmod(0)
        names.append(place.folder / "closed")
    for name in names:
        expect(f"a log that is {str(name):.40}", ended(place.programs.resuming(name, 2, place.pipes())), (5, b""))
    words = place.programs.resuming(place.folder / "plain", 2, place.pipes())
    expect("a log of no name", ended([word if word != str(place.folder / "plain") else "" for word in words]), (5, b""))


def failing(words: list[str], library: Path, reads: Path | None, number: int) -> tuple[int, bytes]:
    """Returns the status and the output of a run in which the reads of a file, or all writes where there is none, fail from a number on."""
    faults = {"LD_PRELOAD": str(library), "FAILS": str(number), "PIECE": str(PIECE), "READS": str(reads or "")}
    return ended(words, environment={**os.environ, **faults})


def each_call_fails(words: list[str], library: Path, reads: Path | None) -> Iterator[tuple[int, int, bytes]]:
    """Gives a number with the status and the output of a run whose calls fail from it on, until a run needs no more calls."""
    for number in range(1, MOST_CALLS):
        status, said = failing(words, library, reads, number)
        yield number, status, said
        if status == 0:
            return
    raise Wrong(f"{MOST_CALLS} calls were let through, and the run is not whole")


def library_of_faults(place: Place) -> Path | None:
    """Returns the library that lets reads and writes fail, and says that it is left out where there is no compiler."""
    if shutil.which("gcc") is None:
        print("each read and write that fails in turn is left out: gcc not found", flush=True)
        return None
    library = place.folder / "faults.so"
    subprocess.run(["gcc", "-O2", "-shared", "-fPIC", "-o", str(library), str(FAULTS), "-ldl"], check=True)
    return library


def each_read_fails_in_turn(place: Place) -> None:
    library = library_of_faults(place)
    if library is None:
        return
    log, feeds = place.write("log", SEATED), place.feeds("clock 5\nbatch\n", "done 1\n")
    words = place.programs.resuming(log, 2, feeds)
    for path in (place.programs.map, place.programs.fleet, log):
        tried = 0
        for tried, status, said in each_call_fails(words, library, path):
            if status != 0:
                expect(f"read {tried} of {path.name}", (status, said), (5, b""))
        expect(f"reads of {path.name}", tried - 1 > path.stat().st_size // PIECE, True)
    for feed, path in enumerate(feeds, 1):
        tried = 0
        for tried, status, said in each_call_fails(words, library, path):
            text = said.decode()
            expect(f"read {tried} of {path.name}", (status, text[:len(SEATED)]), (5 if f"f{feed} cut\n" in text else 0, SEATED))
            expect_legal(place, text, "yes" if status == 0 else "no")
        expect(f"reads of {path.name}", tried - 1 > path.stat().st_size // PIECE, True)


def a_wrong_line_comes_before_a_read_that_fails(place: Place) -> None:
    """A log whose third line is wrong: it decides as soon as it was read whole."""
    library = library_of_faults(place)
    if library is None:
        return
    wrong = SEATED.replace("asked 1", "asked 2")
    log = place.write("log", wrong)
    answer = place.audit(wrong)
    decided = wrong.index("asked 2\n") + len("asked 2\n")
    words, tried = place.programs.resuming(log, 2, place.pipes()), 0
    while tried * PIECE <= len(wrong):
        status, said = failing(words, library, log, tried + 1)
        expect(f"what comes where {tried} reads are let through", (status, said.decode()), answer if tried * PIECE >= decided else (5, ""))
        tried += 1


def each_write_fails_in_turn(place: Place) -> None:
    library = library_of_faults(place)
    if library is None:
        return
    words = place.programs.resuming(place.write("log", SEATED), 2, place.feeds("clock 5\nbatch\n", "done 1\n"))
    for number, status, said in each_call_fails(words, library, None):
        text = said.decode()
        expect(f"write {number}", (status, text[:len(SEATED)]), (0 if status == 0 else 6, SEATED[:len(text)]))
        expect(f"the bytes before write {number}", len(said) <= (number - 1) * PIECE, True)
        whole = whole_lines(said).decode()
        if whole:
            expect(f"the audit of what was written before write {number}", place.audit(whole)[1][:4], "yes ")


def through_a_pipe(place: Place, write: Callable[[int], None]) -> tuple[int, bytes]:
    """Returns what comes of a session whose log is a pipe, into which another thread writes and then closes it."""
    taken, given = os.pipe()

    def writing() -> None:
        try:
            write(given)
        except BrokenPipeError:
            pass  # a wrong line was read, and no more is
        finally:
            os.close(given)

    thread = threading.Thread(target=writing, daemon=True)
    thread.start()
    words = place.programs.resuming(Path(f"/proc/self/fd/{taken}"), 2, place.feeds("clock 5\n", "done 1\n"))
    try:
        done = subprocess.run(words, stdin=subprocess.DEVNULL, stdout=subprocess.PIPE, stderr=subprocess.DEVNULL, pass_fds=(taken,),
                              timeout=PATIENCE, check=False)
    except subprocess.TimeoutExpired:
        raise Wrong("a session whose log is a pipe does not end") from None
    finally:
        os.close(taken)
    thread.join(PATIENCE)
    return done.returncode, done.stdout


def pipes_that_end_anywhere(place: Place) -> None:
    """A log's pipe that closes behind each of its bytes, the first of which are no head yet."""
    text = SEATED.encode()
    head = text.index(b"\n") + 1
    for length in range(len(text) + 1):
        status, said = through_a_pipe(place, lambda pipe: void(os.write(pipe, text[:length])))
        whole = whole_lines(text[:length])
        if length < head:
            expect(f"a pipe that closes behind {length} bytes", (status, said), (7, b"no 1 spelling\n"))
            continue
        expect(f"a pipe that closes behind {length} bytes", (status, said[:len(whole)]), (0, whole))
        if length == len(whole):
            expect_legal(place, said.decode(), "yes")


def void(_: object) -> None:
    """Takes what is not looked at."""


def a_pipe_that_comes_in_single_bytes(place: Place) -> None:
    def write(pipe: int) -> None:
        for byte in SEATED.encode():
            os.write(pipe, bytes([byte]))

    status, said = through_a_pipe(place, write)
    expect("the log", (status, said[:len(SEATED)].decode()), (0, SEATED))
    expect_legal(place, said.decode(), "yes")


def a_pipe_whose_writer_is_killed(place: Place) -> None:
    """The writer has a part of a line in the pipe, and is ended by force."""
    script = "import os, signal, sys\nos.write(1, sys.argv[1].encode())\nos.kill(os.getpid(), signal.SIGKILL)\n"
    killed: list[int] = []

    def write(pipe: int) -> None:
        killed.append(subprocess.run([sys.executable, "-c", script, SEATED + "f1 clock 9"], stdout=pipe, stderr=subprocess.DEVNULL,
                                     check=False).returncode)

    status, said = through_a_pipe(place, write)
    expect("the writer", killed, [KILLED])
    expect("the log", (status, said[:len(SEATED)].decode(), "clock 9" in said.decode()), (0, SEATED, False))
    expect_legal(place, said.decode(), "yes")


def too_few_files(place: Place) -> None:
    """As few open files as let the map, the fleet file and the log be read in turn, and not both feeds at once."""
    words = place.programs.resuming(place.write("log", SEATED), 2, place.feeds("clock 5\n", "done 1\n"))
    for most, wanted in ((FEWEST_FILES, (5, b"")), (ENOUGH_FILES, (0, SEATED.encode()))):
        status, said = ended(words, before=lambda: resource.setrlimit(resource.RLIMIT_NOFILE, (most, most)))
        expect(f"{most} open files", (status, said[:len(SEATED)]), wanted)


def outputs_that_take_nothing(place: Place) -> None:
    """A full device, an output that is closed, and a full pipe whose reader is gone; the log that was handed in stays as it was."""
    for log in (OPENED, SEATED, SEATED + ENDS, LONG):
        path = place.write("log", log)
        words = place.programs.resuming(path, 2, place.feeds("clock 30000\n", "done 1\n"))
        if os.access("/dev/full", os.W_OK):
            expect("the status of a full output", ended(words, "/dev/full")[0], 6)
        expect("the status of a closed output", ended(words, before=lambda: os.close(1))[0], 6)
        given = full_pipe()[1]
        try:
            expect("the status of a full pipe that nobody reads", ended(words, given)[0], 6)
        finally:
            os.close(given)
        expect("the log that was handed in", path.read_text() == log, True)


def full_pipe(is_read: bool = False) -> tuple[int, int]:
    """Returns a pipe that takes no more; its reader is gone unless it is wanted."""
    taken, given = os.pipe()
    flags = fcntl.fcntl(given, fcntl.F_GETFL)
    fcntl.fcntl(given, fcntl.F_SETFL, flags | os.O_NONBLOCK)
    try:
        while True:
            os.write(given, b"\n" * 4_096)
    except OSError as fault:
        if fault.errno != errno.EAGAIN:
            raise
    fcntl.fcntl(given, fcntl.F_SETFL, flags)
    if not is_read:
        os.close(taken)
    return taken, given


def a_reader_that_goes_while_old_lines_are_written(place: Place) -> None:
    """The pipe is full, so that the session waits in a write when its reader goes."""
    words = place.programs.resuming(place.write("log", LONG), 2, place.feeds())
    taken, given = full_pipe(is_read=True)
    process = subprocess.Popen(words, stdin=subprocess.DEVNULL, stdout=given, stderr=subprocess.DEVNULL)
    try:
        os.close(given)
        time.sleep(FIRST_LOOK)
        expect("its end before the reader's", process.poll(), None)
        os.close(taken)
        expect("the status", process.wait(PATIENCE), 6)
    finally:
        process.kill()
        process.wait()


def a_reader_that_goes_while_a_feed_is_silent(place: Place) -> None:
    """The old lines were read; what comes then has nobody who takes it."""
    pipes = place.pipes()
    held = [os.open(pipe, os.O_RDWR) for pipe in pipes]
    words = place.programs.resuming(place.write("log", SEATED), 2, pipes)
    process = subprocess.Popen(words, stdin=subprocess.DEVNULL, stdout=subprocess.PIPE, stderr=subprocess.DEVNULL)
    try:
        assert process.stdout is not None
        expect("the old lines", process.stdout.read(len(SEATED)), SEATED.encode())
        process.stdout.close()
        os.write(held[0], b"clock 5\n")
        time.sleep(FIRST_LOOK)
        for pipe in held:
            os.close(pipe)
        held = []
        expect("the status", process.wait(PATIENCE), 6)
    finally:
        process.kill()
        process.wait()
        for pipe in held:
            os.close(pipe)


def a_closed_standard_error(place: Place) -> None:
    """The run is as it would be; ends come in any order."""
    for log, status in ((SEATED + ENDS, 0), (SEATED.replace("= waiting", "= refused 2"), 7), (SEATED + "f1 cut\n", 1)):
        words = place.programs.resuming(place.write("log", log), 2, place.feeds())
        closed, said = ended(words, before=lambda: os.close(2))
        expect("the run", (closed, sorted(said.split(b"\n"))), (status, sorted(ended(words)[1].split(b"\n"))))


def little_memory(place: Place) -> None:
    """Memory in steps: where it was wanting the whole lines of what was written are none, or begin the text of a legal history, which begins
    with the old lines as far as they were written."""
    riders = "".join(f"clock {second}\n" for second in range(CLOCKS, CLOCKS + 10_000)) + "batch\nbatch\n"
    words = place.programs.resuming(place.write("log", LONG), 2, place.feeds(riders, "at 1 2 60\n" * 5_000))
    found = {1: 0, 0: 0, LOADERS: 0}
    for kilobytes in range(LEAST_KB, MOST_KB, STEP_KB):
        most = kilobytes * 1_024
        status, said = ended(words, before=lambda: resource.setrlimit(resource.RLIMIT_AS, (most, most)))
        expect(f"the status in {kilobytes} KB is one of {list(found)}", status in found, True)
        found[status] += 1
        text = whole_lines(said).decode()
        expect(f"what was written in {kilobytes} KB begins with old lines", text[:len(LONG)] == LONG[:len(text)], True)
        if status == 0:
            expect_legal(place, said.decode(), "yes")
        elif text:
            expect(f"the audit of what was written in {kilobytes} KB", place.audit(text)[1][:4], "yes ")
    expect(f"steps in which memory was wanting, and was not: {found}", found[1] > 0 and found[0] > 0, True)


def no_memory_for_a_large_map(place: Place) -> None:
    large = place.programs.over(map_file=place.write("large.gr", "p sp 500000 0\n"))
    words = large.resuming(place.write("log", SEATED), 2, place.pipes())
    expect("the run", ended(words, before=lambda: resource.setrlimit(resource.RLIMIT_AS, (MOST_KB * 1_024, MOST_KB * 1_024))), (1, b""))


EDGES: list[Callable[[Place], None]] = [
    logs_that_cannot_be_read, each_read_fails_in_turn, a_wrong_line_comes_before_a_read_that_fails, each_write_fails_in_turn,
    pipes_that_end_anywhere, a_pipe_that_comes_in_single_bytes, a_pipe_whose_writer_is_killed, too_few_files, outputs_that_take_nothing,
    a_reader_that_goes_while_old_lines_are_written, a_reader_that_goes_while_a_feed_is_silent, a_closed_standard_error, little_memory,
    no_memory_for_a_large_map]
