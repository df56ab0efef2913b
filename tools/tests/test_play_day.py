"""Tests of play_day, advise and sessions: against a stand-in for the program, and against the program where it is built."""
import contextlib
import io
import itertools
import json
import os
import subprocess
import tempfile
import threading
import unittest
from pathlib import Path

from files_at_hand import EXAMPLES, HERE, bad_files

import advise
import play_day
from player.files import InputError
from player.runs import default_program
from trip_log import TripLog

MAP, FLEET, MORNING = (os.path.join(EXAMPLES, name) for name in ("map.gr", "fleet.txt", "morning.txt"))
STAND_IN = os.path.join(HERE, "data", "stand_in.py")
PROGRAM = os.environ.get("RIDE_DISPATCH", default_program())


def said_by(main, *words):
    """The status and the lines of a program's main function."""
    with contextlib.redirect_stdout(io.StringIO()) as out, contextlib.redirect_stderr(io.StringIO()):
        status = main([str(word) for word in words])
    return status, out.getvalue().splitlines()


class Days:
    """What holds of each program."""
    program = ""

    def play(self, *words):
        return said_by(play_day.main, MAP, FLEET, MORNING, "--program", self.program, "--quiet", *words)

    def test_the_morning(self):
        status, lines = self.play("--every", "60")
        said = {line[:34].strip(): line[34:].strip() for line in lines}
        self.assertEqual((status, said["riders asked"]), (0, "10"))
        # Nobody can be at the Airfield within the minute that request 109 waits.
        self.assertTrue(int(said["away: too far"]) >= 1)
        self.assertTrue(any(line.startswith("audit: yes entries") and line.endswith("finished yes") for line in lines))
        # A request to no crossing, a slip of the pen, and 22 reports of drivers.
        self.assertIn("24 lines of the feed are left out: drivers' reports, refused or faulty ones", lines)

    def test_the_same_words_give_the_same_figures(self):
        words = ("--hold-ups", "0.3", "--breaks", "0.5", "--again", "60", "--seed", "7")
        self.assertEqual(self.play(*words), self.play(*words))

    def test_settings_and_files(self):
        with tempfile.TemporaryDirectory() as folder:
            status, lines = self.play("--set", "penalty=300", "--set", "dwell=0", "--keep", folder, "--page", f"{folder}/page.html", "--json")
            self.assertEqual(status, 0)
            fleet = Path(f"{folder}/fleet.txt").read_text()
            self.assertIn("set penalty 300\n", fleet)
            self.assertIn("set dwell 0\n", fleet)
            kept = json.loads(Path(f"{folder}/figures.json").read_text())
            self.assertEqual(len(kept.pop("batch")), kept["batches"])
            self.assertEqual(json.loads("\n".join(lines)), kept)
            page = Path(f"{folder}/page.html").read_text()
            self.assertIn("How long riders wait", page)
            self.assertEqual(Path(f"{folder}/figures.html").read_text(), page)

    def test_vehicles_sent_ahead_have_certified_sheets(self):
        with tempfile.TemporaryDirectory() as folder:
            status, lines = self.play("--vehicles", "1", "--ahead", "600", "--again", "60", "--keep", folder)
            self.assertEqual(status, 0)
            self.assertTrue(any(line.startswith("ahead: ") and " each certified; " in line for line in lines), lines)
            status, sheets = said_by(advise.main, f"{folder}/log", f"{folder}/fleet.txt", MAP, "--reach", "600", "--check")
        self.assertEqual((status, sheets[0], sheets[-1]), (0, "ahead 1 reach 600", "end"))


class WithStandIn(Days, unittest.TestCase):
    program = STAND_IN


@unittest.skipUnless(os.access(PROGRAM, os.X_OK), "the program is not built")
class WithProgram(Days, unittest.TestCase):
    program = PROGRAM

    def run_feed(self, word, folder, *more):
        words = [PROGRAM, word, "--map", MAP, "--fleet", f"{folder}/fleet.txt", "--feed", f"{folder}/feed.txt", *more]
        return subprocess.run(words, stdout=subprocess.PIPE, text=True, check=True).stdout.splitlines()

    def test_a_session_is_the_replay_of_its_commands(self):
        """A session in step has the history that a replay of its commands in the log's order has, and its sheets cost what `ahead`
        says of them."""
        with tempfile.TemporaryDirectory() as folder:
            self.play("--vehicles", "2", "--ahead", "600", "--again", "60", "--hold-ups", "0.2", "--seed", "3", "--keep", folder)
            log = Path(f"{folder}/log").read_text().splitlines()
            commands = [line[3:].split(" = ")[0] for line in log if line.startswith("f") and " = " in line]
            Path(f"{folder}/feed.txt").write_text("".join(command + "\n" for command in commands))
            replayed = self.run_feed("replay", folder)
            ours, theirs = ([line.split(" ", 1)[1] for line in lines[1:] if not line.endswith(" end")] for lines in (log, replayed))
            self.assertEqual(ours, theirs)
            sheets = self.run_feed("ahead", folder, "--reach", "600")
            _, advice = said_by(advise.main, f"{folder}/log", f"{folder}/fleet.txt", MAP, "--reach", "600")
        costs = [[line.split()[:4] for line in lines if line.startswith("moves")] for lines in (sheets, advice)]
        self.assertEqual(costs[0], costs[1])
        self.assertTrue(any(" goes 1" in line for line in advice))


class Advice(unittest.TestCase):
    def test_of_the_morning(self):
        # The sheets that `ahead` writes of the morning's feed (docs/guide.md has the fourth).
        status, lines = said_by(advise.main, os.path.join(EXAMPLES, "morning.log"), FLEET, MAP, "--reach", "600", "--check")
        self.assertEqual(status, 0)
        self.assertEqual(lines[4], "moves 4 cost 155 goes 109:3@0:30:155 prices 109:155 pays")
        self.assertEqual([lines[0], lines[1], lines[-1]], ["ahead 1 reach 600", "moves 1 cost 0 goes prices pays", "end"])

    def test_bad_input(self):
        with tempfile.TemporaryDirectory() as folder:
            words = [os.path.join(EXAMPLES, "morning.log"), FLEET, MAP, "--reach", "600"]
            for place, (kind, bad) in itertools.product(range(3), bad_files(folder).items()):
                if place == 0 and kind == "empty":
                    continue  # a log that has not begun yet
                self.refuses(words[:place] + [bad] + words[place + 1:])
        for option in (("--reach", "0"), ("--reach", "x"), ("--pause", "0"), ("--pause", "-1"), ("--pause", "nan"), ("--pause", "x")):
            self.refuses(words + list(option))
        self.refuses(words[:3])

    def refuses(self, words):
        with self.assertRaises(InputError) as caught:
            said_by(advise.main, *words)
        self.assertNotIn("\n", str(caught.exception))

    def test_a_log_that_grows(self):
        with tempfile.TemporaryDirectory() as folder:
            path = Path(f"{folder}/log")
            path.write_text("log 1 feeds 1 desks 1\nf1 clo")
            log = TripLog()
            lines = advise.followed(str(path), log, 0.01)
            log.read(next(lines))

            def grow():
                with path.open("a") as file:
                    file.write("ck 5 = now 5\nf1 end\nd1 end\n")

            later = threading.Timer(0.1, grow)
            later.start()
            for line in lines:
                log.read(line)
            later.join()
            self.assertEqual((log.clock, log.finished()), (5, True))


class BadInput(unittest.TestCase):
    def refuses(self, *words):
        with self.assertRaises(InputError) as caught:
            said_by(play_day.main, *words)
        self.assertNotIn("\n", str(caught.exception))
        return str(caught.exception)

    def test_files(self):
        with tempfile.TemporaryDirectory() as folder:
            for bad in bad_files(folder).values():
                for words in ((bad, FLEET, MORNING), (MAP, bad, MORNING), (MAP, FLEET, bad)):
                    self.refuses(*words, "--program", STAND_IN)
            self.refuses(MAP, FLEET, MAP, "--program", STAND_IN)

    def test_settings(self):
        self.assertIn("no such setting: penlty", self.refuses(MAP, FLEET, MORNING, "--set", "penlty=3"))
        self.assertIn("out of its range", self.refuses(MAP, FLEET, MORNING, "--set", "batch=300"))
        self.refuses(MAP, FLEET, MORNING, "--set", "batch")

    def test_programs(self):
        self.assertIn("No such file", self.refuses(MAP, FLEET, MORNING, "--program", "/nowhere/ride_dispatch"))
        self.assertIn("ended with status", self.refuses(MAP, FLEET, MORNING, "--program", "/bin/true"))
        self.assertIn("ended with status", self.refuses(MAP, FLEET, MORNING, "--program", "/bin/false"))

    def test_options(self):
        for option in (("--every", "0"), ("--every", "x"), ("--hold-ups", "2"), ("--ahead", "0"), ("--vehicles", "1001")):
            self.assertIn(option[0], self.refuses(MAP, FLEET, MORNING, *option))


if __name__ == "__main__":
    unittest.main()
