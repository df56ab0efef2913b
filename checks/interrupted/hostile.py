"""Logs that nobody should hand in, and words, files and outputs that are wrong: each told by its status and its output."""
from __future__ import annotations

import itertools
import os
import random
import subprocess
import threading
import time
from collections.abc import Callable, Iterator
from contextlib import contextmanager
from dataclasses import dataclass
from pathlib import Path

from interrupted.logs import Wrong
from interrupted.programs import PATIENCE, Programs, Session, run

MAP = "p sp 4 6\na 1 2 60\na 2 1 60\na 2 3 60\na 3 2 60\na 3 4 60\na 4 3 60\n"
FLEET = "vehicle 1 2 1 0\n"
REQUEST = "f1 request 7 2 4 1 600 300 = waiting\n"
# Ride 7, from 2 to 4, costs 180 seconds in vehicle 1, whose plan the second desk priced at version 0.
OPENED = "log 1 feeds 2 desks 2\n" + REQUEST + "f1 batch = asked 1\nd2 open 1 at 0 requests 7 plans 1@0\n"
COMMIT = "d2 commit 1 cost 180 seats 7:1:0:0 prices 7:180 pays outcomes 7:"
SEATED = OPENED + COMMIT + "confirmed\nf2 at 1 2 60 = onmap\n"
ENDS = "f2 end\nf1 end\nd1 end\nd2 end\n"
ONE_FEED = ("log 1 feeds 1 desks 1\n" + REQUEST + "f1 batch = asked 1\nd1 open 1 at 0 requests 7 plans 1@0\n"
            + COMMIT.replace("d2", "d1") + "confirmed\n")
MOST_LINES = 2_100_000  # of a log
MOST_OF_FEED = 1_000_000
FIRST_LOOK = 0.5  # seconds in which a session that still reads its log writes nothing


@dataclass
class Place:
    """A folder with a small map and fleet file, and the programs over them."""

    programs: Programs
    folder: Path

    def write(self, name: str, text: str) -> Path:
        """Returns the path of a file that is written."""
        path = self.folder / name
        path.write_text(text)
        return path

    def feeds(self, riders: str = "", drivers: str = "") -> list[Path]:
        """Returns two feeds that hold these lines."""
        return [self.write("riders", riders), self.write("drivers", drivers)]

    def resume(self, log: str, feeds: list[Path] | None = None, programs: Programs | None = None) -> tuple[int, str]:
        """Returns the status of a session that goes on from this log, and what it writes."""
        words = (programs or self.programs).resuming(self.write("log", log), 2, feeds or self.feeds())
        status, said = run(words)
        return status, said.decode()

    def audit(self, log: str, programs: Programs | None = None) -> tuple[int, str]:
        """Returns the status of an audit of this log, and what it writes."""
        status, said = run((programs or self.programs).auditing(self.write("audited", log)))
        return status, said.decode()

    def pipes(self) -> list[Path]:
        """Returns two named pipes that nobody has open, so that a program that asks for one never ends."""
        paths = [self.folder / "riders.pipe", self.folder / "drivers.pipe"]
        for path in paths:
            path.unlink(missing_ok=True)
            os.mkfifo(path)
        return paths


def expect(what: str, found: object, wanted: object) -> None:
    """Raises Wrong where something is not as it is wanted."""
    if found != wanted:
        raise Wrong(f"{what}: {found!r:.300}, and not {wanted!r:.300}")


def expect_legal(place: Place, log: str, finished: str) -> None:
    """Raises Wrong where an audit does not say yes, or says otherwise whether all is finished."""
    status, said = place.audit(log)
    expect("the audit", (status, said[:4], said.split()[-1:]), (0, "yes ", [finished]))


def what_is_no_log(place: Place) -> None:
    heads = ["", "l", "log 1 feeds 2 desks 2", "hello\n", "\n", "log 2 feeds 2 desks 2\n", "log 1 feeds 3 desks 1\n", "log 1 feeds 2 desks 0\n",
             "log 1 feeds 2 desks 2 \n", "log 1 feeds 2 desks 2\r\n", "\0\n", "no 1 spelling\n"]
    for text in heads:
        expect(f"log {text!r}", place.resume(text, place.pipes()), (7, "no 1 spelling\n"))


def a_wrong_line_is_named_as_an_audit_would(place: Place) -> None:
    changes = [("= waiting", "= refused 2"), ("asked 1", "asked 2"), ("1@0", "1@1"), ("at 0 ", "at 1 "), ("cost 180", "cost 181"),
               ("7:180", "7:179"), ("7:1:0:0", "7:1:0:1"), ("confirmed", "away"), ("onmap", "late 60"), ("f2 at", "f3 at"),
               ("d2 open 1", "d2 open 2"), ("f1 batch", "f1  batch"), ("d2 commit", "d1 commit"), ("f2 at 1 2 60", "f2 at 01 2 60")]
    for old, new in changes:
        log = SEATED.replace(old, new, 1)
        status, said = place.audit(log)
        expect(f"the audit where {old} is {new}", (status, said[:3]), (7, "no "))
        expect(f"a log where {old} is {new}", place.resume(log, place.pipes()), (7, said))
        expect(f"the same with a torn line, where {old} is {new}", place.resume(log + "f1 clo", place.pipes()), (7, said))


def a_log_of_another_map_or_fleet(place: Place) -> None:
    others = [place.programs.over(map_file=place.write("other.gr", MAP.replace("60", "61"))),
              place.programs.over(fleet=place.write("other.txt", FLEET + "vehicle 2 4 4 0\n")),
              place.programs.over(fleet=place.write("third.txt", "set log 2\n" + FLEET))]
    for other in others:
        answer = place.audit(SEATED, other)
        expect("the audit over other files", (answer[0], answer[1][:3]), (7, "no "))
        expect("the session over other files", place.resume(SEATED, place.pipes(), other), answer)


def a_finished_log_gives_itself_back(place: Place) -> None:
    for text in (SEATED + ENDS, ONE_FEED + "f1 end\nd1 end\n", "log 1 feeds 2 desks 1\nf1 end\nf2 end\nd1 end\n"):
        for torn in ("", "f", "f1 clock 5 = now 5"):
            with unread_pipes(place) as pipes:
                expect("a finished log", place.resume(text + torn, pipes), (0, text))


@contextmanager
def unread_pipes(place: Place, held: tuple[bool, bool] = (True, True)) -> Iterator[list[Path]]:
    """Gives two feeds; those that are held are pipes with a line in them, which has to be there afterwards. The others are empty files."""
    pipes, line = place.pipes(), b"clock 9\n"
    files = place.feeds()
    handles = [os.open(pipe, os.O_RDWR | os.O_NONBLOCK) if is_held else -1 for pipe, is_held in zip(pipes, held)]
    for handle in handles:
        if handle >= 0:
            os.write(handle, line)
    try:
        yield [pipe if is_held else file for pipe, file, is_held in zip(pipes, files, held)]
        for handle in handles:
            if handle >= 0:
                expect("what stands in the pipe of a feed that has ended", os.read(handle, 100), line)
    finally:
        for handle in handles:
            if handle >= 0:
                os.close(handle)


def torn_lines_are_dropped(place: Place) -> None:
    for place_of_cut in range(len(OPENED), len(SEATED)):
        cut = SEATED[:place_of_cut]
        whole = cut[:cut.rfind("\n") + 1]
        status, said = place.resume(cut, place.feeds("clock 5\n", "done 1\n"))
        expect(f"a log that is cut at byte {place_of_cut}", (status, said[:len(whole)]), (0, whole))
        expect_legal(place, said, "yes")


def an_open_batch_is_committed_by_its_copies_once_there_is_news(place: Place) -> None:
    news = {"clock 5": "behind:0:5", "cancel 7": "gone", "off 1": "moved:0:1", "clock 0": "confirmed"}
    for command, outcome in news.items():
        lines = lines_behind(place, OPENED, command)
        expect("who speaks first", lines[0].startswith(f"f1 {command} = "), True)
        expect(f"the commit behind {command}", [line for line in lines if " commit " in line], [COMMIT + outcome])
        expect_legal(place, OPENED + "".join(line + "\n" for line in lines), "yes")
    ended = OPENED + "f1 end\nf2 end\n"
    status, said = place.resume(ended)
    expect("where no feed lives", (status, COMMIT + "confirmed\n" in said), (0, True))
    expect_legal(place, said, "yes")


def lines_behind(place: Place, log: str, command: str) -> list[str]:
    """Returns what a session writes behind a log with an open batch, whose pipes stay open until it was committed; riders say one command,
    after a while in which it writes nothing more."""
    pipes = place.pipes()
    session = Session(place.programs.resuming(place.write("log", log), 2, pipes), pipes, place.folder / "out", len(log), None)
    try:
        lines = heard(session, lambda lines: len(lines) >= log.count("\n"))
        lines += heard(session, lambda _: False, FIRST_LOOK)
        expect("what is written before anything happens", "".join(lines), log)
        session.say(0, [command])
        news = heard(session, lambda lines: any(" commit " in line for line in lines))
        session.close(0)
        session.close(1)
        news += heard(session, lambda _: False)
    finally:
        status = session.bury()
    expect("status", status, 0)
    expect("news", bool(news), True)
    return [line.rstrip("\n") for line in news]


def heard(session: Session, is_enough: Callable[[list[str]], bool], seconds: float = PATIENCE) -> list[str]:
    """Returns the lines that come until they are enough, or for so many seconds."""
    lines: list[str] = []
    end = time.monotonic() + seconds
    while not is_enough(lines) and time.monotonic() < end:
        has_ended = session.has_ended()
        lines += [line.decode() for line in session.turn()]
        if has_ended:
            break
        time.sleep(0.002)
    return lines


def a_log_of_one_feed_goes_on_with_riders_alone(place: Place) -> None:
    with unread_pipes(place, (False, True)) as feeds:
        feeds[0].write_text("at 1 2 60\ndone 1\nbatch")
        status, said = place.resume(ONE_FEED, feeds)
    wanted = ONE_FEED + "f1 at 1 2 60 = onmap\nf1 done 1 = picked 7\nf1 batch = asked 2\n"
    expect("the log", (status, said[:len(wanted)]), (0, wanted))
    expect_legal(place, said, "yes")


def a_feed_that_has_ended_is_not_read(place: Place) -> None:
    for ended, held in (("f1", (True, False)), ("f2", (False, True))):
        with unread_pipes(place, held) as feeds:
            feeds[held.index(False)].write_text("done 1\n")
            status, said = place.resume(SEATED + f"{ended} end\n", feeds)
        other = "f2" if ended == "f1" else "f1"
        expect("the other feed's", (status, f"{other} done 1 = picked 7\n" in said, said.count(f"{ended} ")),
               (0, True, SEATED.count(f"{ended} ") + 1))
        expect_legal(place, said, "yes")


def what_was_cut_or_given_up_cannot_be_finished(place: Place) -> None:
    for text in (SEATED + "f1 cut\n", OPENED + "d2 abandon 1\n", SEATED + "f1 cut\nf2 end\nd1 end\n", SEATED + "d1 cut\n"):
        status, said = place.resume(text, place.feeds("clock 5\n", "done 1\n"))
        expect(f"a log that ends by {text.splitlines()[-1]}", (status, said[:len(text)]), (1, text))
        expect_legal(place, said, "no")


def an_endless_log(place: Place) -> None:
    long_log = place.write("long", "log 1 feeds 2 desks 1\n" + "f1 clock 0 = now 0\n" * MOST_LINES)
    expect("2,100,001 lines", run(place.programs.resuming(long_log, 2, place.pipes())), (8, b""))
    pipe = place.folder / "endless"
    for text in ("f1 clock 0 = now 0\n", "\0" * 99):
        answers = [fed(words, pipe, text) for words in (place.programs.auditing(pipe), place.programs.resuming(pipe, 2, place.pipes()))]
        expect(f"an endless log of {text!r:.20}", answers[1], answers[0])
        expect("its status", answers[1][0] in (7, 8), True)


def fed(words: list[str], pipe: Path, text: str) -> tuple[int, bytes]:
    """Returns the status and the output of a run whose log is a pipe that never ends: a head, and then this text again and again."""
    pipe.unlink(missing_ok=True)
    os.mkfifo(pipe)

    def feed() -> None:
        try:
            with open(pipe, "wb", buffering=0) as end:
                end.write(b"log 1 feeds 2 desks 1\n")
                piece = text.encode() * 3_000
                while True:
                    end.write(piece)
        except BrokenPipeError:
            pass

    thread = threading.Thread(target=feed, daemon=True)
    thread.start()
    answer = run(words)
    thread.join(FIRST_LOOK)
    return answer


def a_log_that_comes_through_a_pipe(place: Place) -> None:
    """A standby: it writes nothing while its log goes on, and goes on itself as soon as the pipe closes."""
    pipe = place.folder / "followed"
    os.mkfifo(pipe)
    words = place.programs.resuming(pipe, 2, place.feeds("clock 5\n", "done 1\n"))
    process = subprocess.Popen(words, stdin=subprocess.DEVNULL, stdout=subprocess.PIPE, stderr=subprocess.DEVNULL)
    assert process.stdout is not None
    try:
        os.set_blocking(process.stdout.fileno(), False)
        with open(opened(pipe, process), "wb", buffering=0) as end:
            for begin in range(0, len(SEATED), 23):
                end.write(SEATED[begin:begin + 23].encode())
            time.sleep(FIRST_LOOK)
            expect("what is written before the pipe closes", process.stdout.read(), None)
        os.set_blocking(process.stdout.fileno(), True)
        said = process.communicate(timeout=PATIENCE)[0].decode()
        expect("the log", (process.returncode, said[:len(SEATED)]), (0, SEATED))
        expect_legal(place, said, "yes")
    finally:
        process.kill()
        process.communicate()


def opened(pipe: Path, process: "subprocess.Popen[bytes]") -> int:
    """Returns the end of a named pipe, once a process reads it; raises Wrong where it has ended."""
    while process.poll() is None:
        try:
            end = os.open(pipe, os.O_WRONLY | os.O_NONBLOCK)
        except OSError:
            time.sleep(0.005)
            continue
        os.set_blocking(end, True)
        return end
    raise Wrong(f"it ended with status {process.returncode} without asking for {pipe.name}")


def words_in_any_order_and_all_of_them(place: Place) -> None:
    programs, log = place.programs, place.write("log", SEATED + ENDS)
    words = programs.resuming(log, 2, place.feeds())
    options = [words[begin:begin + 2] for begin in range(1, len(words), 2)]
    draw = random.Random(1)
    for order in [options[::-1], *(draw.sample(options, len(options)) for _ in range(12))]:
        expect("any order", run([words[0], *itertools.chain(*order)]), (0, (SEATED + ENDS).encode()))
    wrong: list[list[str]] = [[*words[1:], "--desks", "2"], [*words[1:], *options[0]], ["serve", *words[1:]], [], words[1:-1], [*words[1:], "more"]]
    wrong += [[word for other in options if other != option for word in other] for option in options]
    place_of_workers = words.index("--workers") + 1
    wrong += [[*words[1:place_of_workers], value, *words[place_of_workers + 1:]] for value in ("0", "17", "x", "")]
    for some in wrong:
        expect(f"words {' '.join(some)!r:.60}", run([words[0], *some]), (2, b"words refused\n"))


def files_that_are_refused_or_cannot_be_read(place: Place) -> None:
    programs, pipes = place.programs, place.pipes()
    no_map, no_fleet = place.write("no.gr", "p sp 0 0\n"), place.write("no.txt", "vehicle\n")
    for other, status in ((programs.over(map_file=no_map), 3), (programs.over(fleet=no_fleet), 4)):
        answer = place.audit(SEATED, other)
        expect("a refusal", (answer[0], place.resume(SEATED, pipes, other)), (status, answer))
    missing, good, log = place.folder / "missing", place.feeds(), place.write("log", SEATED)
    for words in (programs.over(map_file=missing).resuming(log, 2, pipes), programs.over(fleet=missing).resuming(log, 2, pipes),
                  programs.resuming(missing, 2, pipes), programs.resuming(place.folder, 2, pipes)):
        expect("a file that cannot be read", run(words), (5, b""))
    for feeds, cut in (([place.folder, good[1]], "f1 cut\n"), ([good[0], place.folder], "f2 cut\n")):
        status, said = run(programs.resuming(log, 2, feeds))
        expect("a feed that is a folder", (status, said.decode()[:len(SEATED)], cut in said.decode()), (5, SEATED, True))
        expect_legal(place, said.decode(), "no")
    for feeds in ([missing, good[1]], [good[0], missing]):
        status, said = run(programs.resuming(log, 2, feeds))
        expect("a feed that is not there", (status, SEATED.startswith(said.decode()) or said.decode().startswith(SEATED)), (5, True))
    long_feed = place.write("long_feed", "\n" * (MOST_OF_FEED + 1))
    status, said = run(programs.resuming(log, 2, [long_feed, good[1]]))
    expect("a feed that is too long", (status, said.decode()[:len(SEATED)], "f1 cut\n" in said.decode()), (8, SEATED, True))


def a_feed_has_the_lines_that_its_log_leaves(place: Place) -> None:
    """Those count that the log answers, so that a day is never longer than an audit takes, however often it is begun again."""
    head, report, room = "log 1 feeds 2 desks 2\n", "f2 clock 0 = now 0\n", 3
    log = head + report * (MOST_OF_FEED - room)
    for lines, status, end in ((room, 0, "f2 end\n"), (room + 1, 8, "f2 cut\n")):
        found, said = place.resume(log, place.feeds("clock 5\n" * (room + 1), "clock 0\n" * lines))
        ours = [said.count("f1 clock"), said.count("f2 clock"), end in said]
        expect(f"{lines} lines where there is room for {room}", (found, ours), (status, [room + 1, MOST_OF_FEED, True]))
        expect("an audit of it", place.audit(said)[0], 0)
    too_many = head + report * (MOST_OF_FEED + 1)
    expect("an audit of a log of too many commands", place.audit(too_many)[0], 0)
    expect("a session that is to go on from it", place.resume(too_many), (8, ""))


def an_output_that_takes_no_more(place: Place) -> None:
    log = place.write("log", SEATED)
    expect("status", run(place.programs.resuming(log, 2, place.feeds("clock 5\n")), "/dev/full")[0], 6)
    expect("the log that was handed in", log.read_text(), SEATED)


CASES: list[Callable[[Place], None]] = [
    what_is_no_log, a_wrong_line_is_named_as_an_audit_would, a_log_of_another_map_or_fleet, a_finished_log_gives_itself_back,
    torn_lines_are_dropped, an_open_batch_is_committed_by_its_copies_once_there_is_news, a_log_of_one_feed_goes_on_with_riders_alone,
    a_feed_that_has_ended_is_not_read, what_was_cut_or_given_up_cannot_be_finished, an_endless_log, a_log_that_comes_through_a_pipe,
    words_in_any_order_and_all_of_them, files_that_are_refused_or_cannot_be_read, a_feed_has_the_lines_that_its_log_leaves,
    an_output_that_takes_no_more]


def try_case(case: Callable[[Place], None], programs: Programs, folder: Path) -> None:
    """Tries a case in a folder of its own; raises Wrong."""
    (folder / "map.gr").write_text(MAP)
    (folder / "fleet.txt").write_text(FLEET)
    case(Place(Programs(programs.dispatch, programs.resume, folder / "map.gr", folder / "fleet.txt"), folder))
