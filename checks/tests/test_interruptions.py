"""Tests of what checks/interruptions.py knows by itself: what stands on a log, what is wrong with one, pipes, moments, and its words."""
import os
import pathlib
import random
import shutil
import subprocess
import sys
import tempfile
import time
import unittest
from collections.abc import Callable

CHECKS = pathlib.Path(__file__).resolve().parents[1]
sys.path.insert(0, str(CHECKS))

from interrupted import TOP  # noqa: E402
from interrupted.days import Count, Day, Sizes, draw_city  # noqa: E402
from interrupted.edges import PIECE, each_call_fails, ended, full_pipe, library_of_faults, through_a_pipe  # noqa: E402
from interrupted.hostile import COMMIT, ENDS, FLEET, MAP, OPENED, SEATED, Place  # noqa: E402
from interrupted.logs import Wrong, check_commands, check_promises, standing, whole_lines  # noqa: E402
from interrupted.programs import KILLED, Moment, Pipe, Programs, Session, draw_moment, run  # noqa: E402
from trip_log import Fleet, read_fleet  # noqa: E402

PROGRAM = pathlib.Path(os.environ.get("RIDE_DISPATCH", TOP / "crates" / "ride_dispatch" / "out" / "ride_dispatch"))
MEANT = [["request 7 2 4 1 600 300", "batch"], ["at 1 2 060", "done 1"]]
PATIENCE = 20.0  # seconds that anything may take


class WithFolder(unittest.TestCase):
    def setUp(self) -> None:
        folder = tempfile.TemporaryDirectory()
        self.addCleanup(folder.cleanup)
        self.folder = pathlib.Path(folder.name)

    def path(self, name: str, text: str) -> pathlib.Path:
        """Returns the path of a file that is written."""
        path = self.folder / name
        path.write_text(text)
        return path


class Logs(WithFolder):
    def test_what_stands(self) -> None:
        self.assertEqual(whole_lines(b"log 1\nf1 clo"), b"log 1\n")
        self.assertEqual(whole_lines(b"log 1"), b"")
        stands = standing((OPENED + "d1 open 2 at 0 requests plans 1@0\nf2 bad 3\nf1 end\nf2 don").encode())
        self.assertEqual((stands.version, stands.desks, stands.open_batches, stands.ended, stands.lives()), (1, 2, [1, 2], [True, False], True))
        self.assertEqual(stands.answered, [["request 7 2 4 1 600 300", "batch"], ["bad 3"]])
        self.assertEqual(standing((SEATED + ENDS).encode()).open_batches, [])
        self.assertFalse(standing((SEATED + ENDS).encode()).lives())

    def test_commands_once_and_in_order(self) -> None:
        said = standing(SEATED.encode())
        check_commands(MEANT, said, False)
        check_commands([MEANT[0], ["# a comment", "", "at 1 2 60"]], said, True)
        for meant, is_all in ((MEANT, True), ([MEANT[0][::-1], MEANT[1]], False), ([MEANT[0], ["done 1"]], False), ([MEANT[0][:1], MEANT[1]], False),
                              ([MEANT[0], ["at 1 2"]], False)):
            with self.assertRaises(Wrong):
                check_commands(meant, said, is_all)

    def test_bad_lines_are_commands(self) -> None:
        said = standing(b"log 1 feeds 2 desks 1\nf1 bad 1\nf1 clock 7 = now 7\n")
        check_commands([["tick", "clock 7"], []], said, True)
        others: list[list[list[str]]] = [[["clock 7", "tick"], []], [["clock 7"], []], [["tick", "clock 7"], ["tick"]]]
        for meant in others:
            with self.assertRaises(Wrong):
                check_commands(meant, said, True)

    def test_promises(self) -> None:
        served = SEATED + "f2 done 1 = picked 7\nf2 at 1 4 180 = onmap\nf2 done 1 = dropped 7\n"
        late = SEATED.replace("at 1 2 60 = onmap", "at 1 2 601 = late 541{}") + "f2 done 1 = picked 7\n"
        long_ride = served.replace("at 1 4 180 = onmap", "at 1 4 361 = late 181{}")
        for log in (OPENED, SEATED, served, late.format(" broken 7"), long_ride.format(" broken 7"), SEATED + "f1 cancel 7 = freed 1\n"):
            self.assertEqual(check_promises(log.encode(), self.fleet()), 0 if log is OPENED else 1)
        for log in (late.format(""), long_ride.format("")):
            with self.assertRaises(Wrong):
                check_promises(log.encode(), self.fleet())

    def fleet(self) -> Fleet:
        """Returns the fleet of one vehicle."""
        return read_fleet(str(self.path("fleet.txt", FLEET)))


class Runs(WithFolder):
    def session(self, moment: Moment | None, begin: int = 0, script: str = "exec cat $0 $1") -> Session:
        """Returns a session of another program: a shell that writes what its feeds hold."""
        pipes = [self.folder / "riders", self.folder / "drivers"]
        for pipe in pipes:
            os.mkfifo(pipe)
        return Session(["sh", "-c", script, *map(str, pipes)], pipes, self.folder / "log", begin, moment)

    def turns(self, session: Session, is_over: Callable[[list[bytes]], bool]) -> list[bytes]:
        """Returns the lines that come until this holds."""
        lines: list[bytes] = []
        end = time.monotonic() + PATIENCE
        while not is_over(lines) and time.monotonic() < end:
            lines += session.turn()
            time.sleep(0.001)
        return lines

    def test_what_is_said_comes_whole_and_in_order(self) -> None:
        session = self.session(None)
        said = [[f"clock {number}" for number in range(20_000)], ["done 1"]]
        for feed in (0, 1):
            session.say(feed, said[feed])
        session.close(0)
        lines = self.turns(session, lambda lines: len(lines) > 20_000)
        self.assertFalse(session.has_ended())
        session.close(1)
        self.turns(session, lambda _: session.has_ended())
        self.assertEqual([line.decode().rstrip() for line in lines], said[0] + said[1])
        self.assertEqual((session.bury(), session.was_killed), (0, False))

    def test_it_is_killed_when_its_moment_comes(self) -> None:
        said = ["a open 1", "b open 2", "c", "d open 3", "f1 end", "f2 end"]
        begin = len("a open 1\n")
        for moment, least in ((Moment("lines", 2), 3), (Moment("openings", 2), 4), (Moment("ends", 1), 5), (Moment("starting", 0.0), 0),
                              (Moment("seconds", 0.2), 0)):
            with self.subTest(moment=moment):
                self.setUp()
                session = self.session(moment, begin)
                session.say(0, said)
                lines = self.turns(session, lambda _: session.has_ended())
                self.assertEqual((session.bury(), session.was_killed), (KILLED, True))
                self.assertGreaterEqual(len(lines), least)

    def test_a_feed_that_has_ended_is_held(self) -> None:
        session = self.session(None, script="cat $1 > /dev/null; exec 3< $0; echo so")
        session.pipes[0].hold()
        session.close(1)
        self.assertEqual(self.turns(session, lambda lines: bool(lines)), [b"so\n"])
        self.turns(session, lambda _: session.has_ended())
        self.assertEqual(session.bury(), 0)

    def test_a_pipe_that_nobody_reads(self) -> None:
        path = self.folder / "pipe"
        os.mkfifo(path)
        pipe = Pipe(path)
        pipe.unwritten.append(b"clock 7\n")
        pipe.closing = True
        pipe.write()
        self.assertEqual((len(pipe.unwritten), pipe.closed), (1, False))

    def test_moments_of_all_kinds_are_drawn(self) -> None:
        draw = random.Random(1)
        self.assertEqual({draw_moment(draw).kind for _ in range(200)}, set(Moment.KINDS))

    def test_options_stand_in_any_order(self) -> None:
        programs = Programs(*[pathlib.Path(name) for name in ("serve", "resume", "map", "fleet")])
        orders = {tuple(programs.resuming(pathlib.Path("log"), 2, [pathlib.Path("a"), pathlib.Path("b")], random.Random(seed))) for seed in range(50)}
        self.assertGreater(len(orders), 40)
        for words in orders:
            self.assertEqual(dict(zip(words[1::2], words[2::2])), {
                "--map": "map", "--fleet": "fleet", "--log": "log", "--riders": "a", "--drivers": "b", "--workers": "2"})

    def test_a_run_over_files(self) -> None:
        self.assertEqual(run(["sh", "-c", "echo no; exit 7"]), (7, b"no\n"))
        self.assertEqual(run(["sh", "-c", "echo no"], str(self.folder / "out")), (0, b""))
        self.assertEqual((self.folder / "out").read_text(), "no\n")


class Edges(WithFolder):
    def place(self, resume: str) -> Place:
        """Returns a place whose program that goes on is another one."""
        return Place(Programs(PROGRAM, pathlib.Path(resume), self.path("map.gr", MAP), self.path("fleet.txt", FLEET)), self.folder)

    def script(self, text: str) -> str:
        """Returns the path of a shell script."""
        path = self.path("script", f"#!/bin/sh\n{text}\n")
        path.chmod(0o700)
        return str(path)

    @unittest.skipUnless(shutil.which("gcc"), "gcc is not there")
    def test_each_read_and_each_write_fails_in_turn(self) -> None:
        library = library_of_faults(self.place("/bin/true"))
        assert library is not None
        text = "".join(f"{number}\n" for number in range(20))
        path = self.path("read", text)
        for reads in (path, None):
            found = list(each_call_fails(["cat", str(path)], library, reads))
            self.assertEqual([status == 0 for _, status, _ in found], [False] * (len(found) - 1) + [True])
            self.assertEqual(found[-1][2].decode(), text)
            self.assertGreater(len(found), len(text) // PIECE)
            for number, _, said in found:
                self.assertEqual(said.decode(), text[:(number - 1) * PIECE])

    def test_what_is_made_ready_before_a_run(self) -> None:
        self.assertEqual(ended(["sh", "-c", "echo $A; exit 3"], environment={"A": "so"}), (3, b"so\n"))
        self.assertNotEqual(ended(["sh", "-c", "echo so"], before=lambda: os.close(1))[0], 0)
        given = full_pipe()[1]
        self.assertEqual(ended(["sh", "-c", "trap '' PIPE; echo so 2> /dev/null || exit 6"], given)[0], 6)
        os.close(given)

    def test_a_log_comes_through_a_pipe(self) -> None:
        place = self.place(self.script('while [ "$1" != --log ]; do shift; done; exec cat "$2"'))

        def say(pipe: int) -> None:
            for _ in range(3):
                os.write(pipe, b"a\n")

        self.assertEqual(through_a_pipe(place, say), (0, b"a\na\na\n"))


@unittest.skipUnless(PROGRAM.exists(), f"{PROGRAM} is not there (RIDE_DISPATCH names another)")
class WithProgram(WithFolder):
    def test_a_day_without_kills(self) -> None:
        count = Count()
        city = draw_city(self.folder, (PROGRAM, PROGRAM), Sizes(side=6, vehicles=5, requests=12, minutes=4), 3)
        day = Day(city, self.folder, 3, count)
        log = day.play(0)
        self.assertEqual((count.kills, count.days, count.lines), (0, 1, log.count(b"\n")))
        self.assertGreater(count.rides, 0)
        self.assertGreater(len(day.clients.meant[1]), 10)

    def test_an_ended_session_is_wrong_where_nobody_killed_it(self) -> None:
        city = draw_city(self.folder, (PROGRAM, PROGRAM), Sizes(side=6, vehicles=5, requests=12, minutes=4), 3)
        city.programs.fleet.write_text("vehicle\n")
        with self.assertRaises((Wrong, ValueError)):
            Day(city, self.folder, 3, Count()).play(0)

    def test_the_logs_of_the_hostile_cases(self) -> None:
        programs = Programs(PROGRAM, PROGRAM, self.path("map.gr", MAP), self.path("fleet.txt", FLEET))
        for log, finished in ((OPENED, b"no"), (SEATED, b"no"), (SEATED + ENDS, b"yes"), (OPENED + COMMIT + "confirmed\n", b"no")):
            status, said = run(programs.auditing(self.path("log", log)))
            self.assertEqual((status, said.split()[-1]), (0, finished))


class Words(WithFolder):
    def run_words(self, *words: str) -> "subprocess.CompletedProcess[str]":
        """Returns what comes of the script with these words."""
        return subprocess.run([sys.executable, "-B", str(CHECKS / "interruptions.py"), *words], capture_output=True, text=True, timeout=200,
                              check=False)

    def test_words_that_are_not_in_order(self) -> None:
        good = ["--program", "/bin/true", "--resume", "/bin/true"]
        for words in (["more"], ["--kills", "0"], ["--kills", "x"], ["--bytes", "-1"], ["--seed", ""], ["--only", "all"],
                      ["--program", "/nowhere", "--resume", "/bin/true"], ["--program", "/bin/true", "--resume", str(self.folder)],
                      [*good, "--keep"], ["--resume", str(self.path("plain", ""))]):
            ran = self.run_words(*words)
            self.assertEqual((ran.returncode, ran.stdout, ran.stderr.count("\n")), (2, "", 1), (words, ran.stderr))

    def test_help(self) -> None:
        ran = self.run_words("--help")
        self.assertEqual((ran.returncode, ran.stderr), (0, ""))
        self.assertIn("--kills N", ran.stdout)

    def test_a_program_that_does_something_else_is_told_in_a_line_each(self) -> None:
        for part in ("kills", "cuts", "hostile", "edges"):
            ran = self.run_words("--program", "/bin/true", "--resume", "/bin/true", "--only", part, "--kills", "1",
                                 "--keep", str(self.folder / "kept"))
            self.assertEqual((ran.returncode, ran.stderr), (1, ""), part)
            self.assertIn("WRONG", ran.stdout)
        self.assertTrue((self.folder / "kept" / "cuts" / "map.gr").exists())


if __name__ == "__main__":
    unittest.main()
