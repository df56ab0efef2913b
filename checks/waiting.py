#!/usr/bin/env python3
"""What the built programs do while they wait for a pipe, and what runs beside what: no clause can say it.

    python3 checks/waiting.py [PROGRAM] [--resume PATH] [--only WORD]

PROGRAM is crates/ride_dispatch/out/ride_dispatch where none is given; `rt run` in crates/ride_dispatch builds it. ride_resume is left out
where it is not built. Each session is fed by named pipes that are held open. A line that is due has a minute to come, so that a slow machine
is not taken for a wrong program. Bad input is one line and status 2.
"""
import os
import pathlib
import select
import subprocess
import sys
import tempfile
import time
from collections.abc import Callable, Sequence

TOP = pathlib.Path(__file__).resolve().parent.parent
sys.path.insert(0, str(TOP / "tools"))

from player.files import InputError, Parser, program, run_main  # noqa: E402

PROGRAM = TOP / "crates" / "ride_dispatch" / "out" / "ride_dispatch"
RESUME = TOP / "crates" / "ride_resume" / "out" / "ride_resume"

MAP = "p sp 4 6\na 1 2 60\na 2 1 60\na 2 3 60\na 3 2 60\na 3 4 60\na 4 3 60\n"
FLEET = "vehicle 1 2 1 0\n"
REQUEST = "request 7 2 4 1 600 300\n"
PATIENCE = 60.0  # seconds that a due line may take
SILENCE = 10.0  # seconds of an idle session
IDLE_SECONDS = 0.1  # of processors, that an idle session may take
NODES, SEARCHES = 22_500, 128  # of a map whose rows take long to search, and the requests of its batch


class Wrong(Exception):
    """What a session did that it should not, or did not do."""


class Session:
    """A run of the program whose feeds are named pipes, each held open by this process."""

    def __init__(self, program: str, folder: pathlib.Path, words: list[str], feeds: list[str], map_text: str = MAP,
                 fleet: str = FLEET, log: str = "") -> None:
        for name, text in (("map", map_text), ("fleet", fleet), ("log", log)):
            if name not in feeds:
                (folder / name).write_text(text)
        self.pipes: dict[str, int] = {}
        for feed in feeds:
            path = folder / feed
            os.mkfifo(path)
            self.pipes[feed] = os.open(path, os.O_RDWR)
        places = {"map", "fleet", "log", *feeds}
        words = [str(folder / word) if word in places else word for word in words]
        self.process = subprocess.Popen([program, *words], stdin=subprocess.DEVNULL, stdout=subprocess.PIPE, stderr=subprocess.DEVNULL)
        assert self.process.stdout is not None
        self.output, self.rest, self.told = self.process.stdout.fileno(), b"", 0

    def say(self, feed: str, text: str) -> None:
        os.write(self.pipes[feed], text.encode())

    def next_line(self) -> str:
        """Returns the next line of the output, which has to come while the pipes are open."""
        end = time.monotonic() + PATIENCE
        while b"\n" not in self.rest:
            left = end - time.monotonic()
            if left <= 0 or not select.select([self.output], [], [], left)[0]:
                raise Wrong(f"line {self.told + 1} does not come before more is waited for")
            piece = os.read(self.output, 1 << 16)
            if not piece:
                raise Wrong(f"the output ends before line {self.told + 1}")
            self.rest += piece
        line, self.rest = self.rest.split(b"\n", 1)
        self.told += 1
        return line.decode()

    def expect(self, *lines: str) -> None:
        """The next lines are these, each up to a trailing `*`."""
        for wanted in lines:
            line = self.next_line()
            if not (line == wanted or wanted.endswith("*") and line.startswith(wanted[:-1])):
                raise Wrong(f"line {self.told} is '{line}', and not '{wanted}'")

    def expect_silence(self, seconds: float) -> None:
        """No byte comes for so many seconds, in which the session takes hardly any of the processors."""
        before = seconds_of(self.process.pid)
        if self.rest or select.select([self.output], [], [], seconds)[0]:
            raise Wrong(f"line {self.told + 1} comes before anything was said")
        took = seconds_of(self.process.pid) - before
        if took > IDLE_SECONDS:
            raise Wrong(f"{took:.2f} s of processors in {seconds:.0f} s without a command")

    def let_go(self, pipe: str) -> None:
        """Closes one pipe."""
        os.close(self.pipes.pop(pipe))

    def close(self) -> None:
        """Closes the pipes; the session has to end with status 0."""
        for pipe in self.pipes.values():
            os.close(pipe)
        self.pipes = {}
        self.process.communicate(timeout=PATIENCE)
        if self.process.returncode != 0:
            raise Wrong(f"status {self.process.returncode}")

    def end(self) -> None:
        """Ends the run, whatever it does."""
        for pipe in self.pipes.values():
            os.close(pipe)
        self.process.kill()
        self.process.communicate()


OVER = ["--map", "map", "--fleet", "fleet"]
FEEDS = ["--riders", "riders", "--drivers", "drivers"]
SERVE = ["serve", *OVER, *FEEDS]
RESUMES = [*OVER, "--log", "log", *FEEDS]
# A log whose second desk has a batch open, and how it is closed where nothing has changed.
ASKED = ["log 1 feeds 2 desks 2", "f1 request 7 2 4 1 600 300 = waiting", "f1 batch = asked 1"]
OPENED = [*ASKED, "d2 open 1 at 0 requests 7 plans 1@0"]
COMMIT = "d2 commit 1 cost 180 seats 7:1:0:0 prices 7:180 pays outcomes 7:confirmed"
Start = Callable[..., Session]


def text_of(lines: list[str]) -> str:
    return "".join(f"{line}\n" for line in lines)


def a_replay_writes_each_answer(start: Start) -> None:
    session = start(["replay", *OVER, "--feed", "feed"], ["feed"])
    session.expect("log 1 feeds 1 desks 1")
    session.say("feed", REQUEST)
    session.expect("f1 request 7 2 4 1 600 300 = waiting")
    session.say("feed", "batch\n\n# a comment\n")
    session.expect("f1 batch = asked 1", "d1 open 1 at 0 requests 7 plans 1@0", "d1 commit 1 cost 180 *")
    session.say("feed", "clock 1\n clock 2\nclo")
    session.expect("f1 clock 1 = now 1", "f1 clock 2 = now 2")
    session.close()


def sheets_are_written_after_each_batch(start: Start) -> None:
    session = start(["ahead", *OVER, "--feed", "feed", "--reach", "600"], ["feed"])
    session.expect("ahead 1 reach 600")
    session.say("feed", REQUEST + "batch\nclo")
    session.expect("moves 1 cost *")
    session.close()


def bookings_are_written_when_they_are_due(start: Start) -> None:
    session = start(["book", "--feed", "feed"], ["feed"])
    session.say("feed", "book 5 7 2 4 1 600 300\nclock 5\nclo")
    session.expect("clock 5", "request 7 2 4 1 600 300")
    session.close()


def a_league_writes_each_answer(start: Start) -> None:
    session = start(["league", *OVER, "--second", "fleet", "--feed", "feed"], ["feed"])
    session.expect("league 1 companies 2")
    session.say("feed", REQUEST + "batch\nclo")
    session.expect("request 7 2 4 1 600 300 = waiting", "round 1 cost *")
    session.close()


def each_feed_is_answered_while_the_other_is_silent(start: Start) -> None:
    session = start([*SERVE, "--workers", "2", "--desks", "1"], ["riders", "drivers"])
    session.expect("log 1 feeds 2 desks 1")
    for number in range(3):
        session.say("drivers", f"at 1 1 {number}\n")
        session.expect(f"f2 at 1 1 {number} = onmap")
    for number in range(3):
        session.say("riders", f"clock {number}\n")
        session.expect(f"f1 clock {number} = now {number}")
    session.say("riders", "request 7 2 4 1 600 300\nbatch\n")
    session.expect("f1 request 7 *", "f1 batch = asked 1", "d1 open 1 *", "d1 commit 1 *")
    session.close()


def both_desks_take_batches(start: Start) -> None:
    session = start([*SERVE, "--workers", "1", "--desks", "2"], ["riders", "drivers"])
    session.expect("log 1 feeds 2 desks 2")
    expect_both_desks(session, 1)


def expect_both_desks(session: Session, first: int) -> None:
    """The second desk takes one of the batches that are asked for from the first of these on."""
    for asked in range(first, first + 1_000):
        session.say("riders", "batch\n")
        session.expect(f"f1 batch = asked {asked}")
        opened, committed = session.next_line(), session.next_line()
        if opened.startswith("d2 open") and committed.startswith("d2 commit"):
            session.close()
            return
    raise Wrong("of 1,000 batches the second desk took none while the first had not ended")


def an_idle_session_sleeps(start: Start) -> None:
    session = start([*SERVE, "--workers", "2", "--desks", "2"], ["riders", "drivers"])
    session.say("riders", REQUEST + "batch\n")
    session.expect("log *", "f1 request *", "f1 batch *", "d*", "d*")
    session.expect_silence(SILENCE)
    session.close()


def as_many_workers_search_as_were_asked_for(start: Start) -> None:
    """One vehicle makes too few pairs to price side by side, so that threads beyond the session's own are workers that search."""
    session = start([*SERVE, "--workers", "16", "--desks", "1"], ["riders", "drivers"], map_text=large_map(), fleet=LARGE_BATCH)
    session.expect("log 1 feeds 2 desks 1")
    idle = threads_of(session.process.pid)
    session.say("riders", text_of(far_requests()))
    for _ in range(SEARCHES):
        session.expect("f1 request *")
    expect_workers(session, idle)


LARGE_BATCH = f"set batch {SEARCHES}\n" + FLEET


def large_map() -> str:
    """Returns a map that has no hierarchy, so that its rows take long to search: from each node roads lead far away in all directions."""
    arcs = [(node, node * factor % NODES + 1) for node in range(1, NODES + 1) for factor in (1, 7, 31)]
    return f"p sp {NODES} {2 * len(arcs)}\n" + "".join(f"a {a} {b} 60\na {b} {a} 60\n" for a, b in arcs)


def far_requests() -> list[str]:
    """Returns the requests of its batch."""
    return [f"request {n} {n + 1} {NODES - n} 1 900000 900000" for n in range(1, SEARCHES + 1)]


def expect_workers(session: Session, idle: int) -> None:
    """Once a batch is asked for so many threads are seen beyond those of an idle session as sixteen workers have, before it is committed."""
    session.say("riders", "batch\n")
    most, end = idle, time.monotonic() + PATIENCE
    while most < idle + 15:
        if time.monotonic() > end or select.select([session.output], [], [], 0.001)[0] and b" commit " in os.read(session.output, 1 << 16):
            raise Wrong(f"{most - idle + 1} workers were seen, and not 16")
        most = max(most, threads_of(session.process.pid))


def old_lines_come_before_a_feed_is_waited_for(start: Start) -> None:
    log = [*OPENED, COMMIT]
    session = start([*RESUMES, "--workers", "2"], ["riders", "drivers"], log=text_of(log) + "f1 clo")
    session.expect(*log)
    session.expect_silence(SILENCE)
    session.say("drivers", "at 1 2 60\n")
    session.expect("f2 at 1 2 60 = onmap")
    session.say("riders", "clock 5\n")
    session.expect("f1 clock 5 = now 5")
    session.close()


def many_old_lines_come_before_a_feed_is_waited_for(start: Start) -> None:
    """More than a page and a pipe hold."""
    log = [*ASKED[:1], *(f"f1 clock {number} = now {number}" for number in range(10_000))]
    session = start([*RESUMES, "--workers", "1"], ["riders", "drivers"], log=text_of(log))
    session.expect(*log)
    session.say("riders", "clock 10000\n")
    session.expect("f1 clock 10000 = now 10000")
    session.close()


def a_desk_with_an_open_batch_sleeps_until_there_is_news(start: Start) -> None:
    session = start([*RESUMES, "--workers", "2"], ["riders", "drivers"], log=text_of(OPENED))
    session.expect(*OPENED)
    session.expect_silence(SILENCE)
    session.say("drivers", "clock 0\n")
    session.expect("f2 clock 0 = now 0", COMMIT)
    session.say("riders", "clock 1\n")
    session.expect("f1 clock 1 = now 1")
    session.expect_silence(SILENCE)
    session.close()


def a_session_that_goes_on_with_one_feed_sleeps(start: Start) -> None:
    for ended, lives in (("f1 end", "f2"), ("f2 end", "f1")):
        log = [*OPENED, COMMIT, ended]
        session = start([*RESUMES, "--workers", "1"], ["riders", "drivers"], log=text_of(log))
        session.expect(*log)
        session.expect_silence(SILENCE)
        session.say({"f1": "riders", "f2": "drivers"}[lives], "clock 5\n")
        session.expect(f"{lives} clock 5 = now 5")
        session.let_go({"f1": "riders", "f2": "drivers"}[lives])
        session.expect(f"{lives} end", "d*", "d*")
        session.close()


def a_standby_sleeps_while_its_log_is_silent(start: Start) -> None:
    session = start([*RESUMES, "--workers", "1"], ["log", "riders", "drivers"])
    session.expect_silence(1.0)
    session.say("log", text_of(OPENED)[:-5])
    session.expect_silence(SILENCE)
    session.say("log", text_of(OPENED)[-5:] + "d2 com")
    session.expect_silence(1.0)
    session.let_go("log")
    session.expect(*OPENED)
    session.say("riders", "batch\n")
    session.expect("f1 batch = asked 2")
    session.close()


def as_many_desks_go_on_as_the_log_says(start: Start) -> None:
    session = start([*RESUMES, "--workers", "1"], ["riders", "drivers"], log=text_of([*OPENED, COMMIT]))
    session.expect(*OPENED, COMMIT)
    expect_both_desks(session, 2)


def as_many_workers_search_where_a_session_goes_on(start: Start) -> None:
    log = ["log 1 feeds 2 desks 1", *(f"f1 {request} = waiting" for request in far_requests())]
    session = start([*RESUMES, "--workers", "16"], ["riders", "drivers"], map_text=large_map(), fleet=LARGE_BATCH, log=text_of(log))
    session.expect(*log)
    session.say("drivers", "clock 0\n")
    session.expect("f2 clock 0 = now 0")
    expect_workers(session, threads_of(session.process.pid))


def seconds_of(process: int) -> float:
    """Returns the processors' seconds that a process has taken."""
    fields = pathlib.Path(f"/proc/{process}/stat").read_text().rsplit(")", 1)[1].split()
    return (int(fields[11]) + int(fields[12])) / os.sysconf("SC_CLK_TCK")


def threads_of(process: int) -> int:
    return len(os.listdir(f"/proc/{process}/task"))


CHECKS = [a_replay_writes_each_answer, sheets_are_written_after_each_batch, bookings_are_written_when_they_are_due,
          a_league_writes_each_answer, each_feed_is_answered_while_the_other_is_silent, both_desks_take_batches, an_idle_session_sleeps,
          as_many_workers_search_as_were_asked_for]
OF_RESUME = [old_lines_come_before_a_feed_is_waited_for, many_old_lines_come_before_a_feed_is_waited_for,
             a_desk_with_an_open_batch_sleeps_until_there_is_news, a_session_that_goes_on_with_one_feed_sleeps,
             a_standby_sleeps_while_its_log_is_silent, as_many_desks_go_on_as_the_log_says, as_many_workers_search_where_a_session_goes_on]


def run_check(program: str, check: Callable[[Start], None]) -> bool:
    """Returns whether a check found nothing wrong, and says what it found."""
    sessions: list[Session] = []
    with tempfile.TemporaryDirectory() as folder:
        def start(words: list[str], feeds: list[str], **texts: str) -> Session:
            place = pathlib.Path(folder) / str(len(sessions))
            place.mkdir()
            sessions.append(Session(program, place, words, feeds, **texts))
            return sessions[-1]

        name = check.__name__.replace("_", " ")
        try:
            check(start)
        except (Wrong, subprocess.TimeoutExpired) as fault:
            print(f"{name}: {fault}", flush=True)
            return False
        finally:
            for session in sessions:
                session.end()
    print(f"{name}: so it is", flush=True)
    return True


def main(words: Sequence[str]) -> int:
    """Runs the checks that are wanted; returns 0 where nothing is wrong."""
    parser = Parser(description=__doc__)
    parser.add_argument("program", nargs="?", default=str(PROGRAM), help="ride_dispatch")
    parser.add_argument("--resume", default="", metavar="PATH", help="ride_resume (crates/ride_resume/out/ride_resume)")
    parser.add_argument("--only", default="", help="only the checks whose name has this word")
    given = parser.parse_args(words)
    if not any(given.only in check.__name__ for check in CHECKS + OF_RESUME):
        raise InputError(f"no check has {given.only} in its name")
    checks = [(program(given.program), check) for check in CHECKS]
    if given.resume or RESUME.exists():
        checks += [(program(given.resume or str(RESUME)), check) for check in OF_RESUME]
    else:
        print(f"ride_resume is left out: {RESUME.relative_to(TOP)} is not built")
    chosen = [(path, check) for path, check in checks if given.only in check.__name__]
    good = sum(run_check(path, check) for path, check in chosen)
    print(f"{len(chosen)} checks, {len(chosen) - good} wrong")
    return 0 if good == len(chosen) else 1


if __name__ == "__main__":
    run_main(main)
