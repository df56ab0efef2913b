"""Clock, tokens, limits of rate, refusals in words, the schedule and the commands' own words."""
import asyncio
import fcntl
import os
import re
import subprocess
import sys
import threading
import unittest
from dataclasses import replace
from pathlib import Path
from typing import List

from room_tests import ROOT, ROW_FLEET, ROW_LOG, ROW_MAP, WithFolder

from trip_log import TripLog

from control_room import remnants
from control_room.__main__ import parser
from control_room.auditor import audit
from control_room.day_clock import DayClock, read_moment, written
from control_room.limits import RateLimit
from control_room.schedule import Schedule
from control_room.supervisor import left_zones, make_zones, saved
from control_room.tokens import BadToken, Person, read_token, secret_of, sign
from control_room.words import REFUSALS, Problem, refused
from control_room.zones import Zone, ZoneError, load_zone


class Clocks(unittest.TestCase):
    def test_a_day_that_goes_thirty_times_as_fast(self) -> None:
        clock = DayClock(began=1_000_000, begin=21_600, speed=30)
        self.assertEqual(clock.second(1_000_000), 21_600)
        self.assertEqual(clock.second(1_001_000), 21_630)
        self.assertEqual(clock.second(1_001_033), 21_630)  # 30.99 seconds later
        self.assertEqual(clock.second(0), 0)  # 30,000 seconds before the beginning: before midnight
        self.assertEqual(clock.moment(21_631), 1_001_034)  # 1,033.3 milliseconds, rounded up

    def test_a_second_is_the_same_after_a_way_over_clock_time(self) -> None:
        for speed in (1, 7, 30, 90, 200):
            clock = DayClock(began=1_796_034_956_123, begin=25_200, speed=speed)
            for second in range(25_100, 25_400):
                self.assertEqual(clock.second(read_moment(written(clock.moment(second)))), second)

    def test_times_name_their_zone(self) -> None:
        self.assertEqual(read_moment("1970-01-01T01:00:01.500+01:00"), 1_500)
        self.assertEqual(written(1_500), "1970-01-01T00:00:01.500Z")
        for text in ("1970-01-01T01:00:01", "noon", ""):
            with self.assertRaises(ValueError):
                read_moment(text)


class Tokens(WithFolder):
    def test_a_token_names_its_person_until_it_runs_out(self) -> None:
        secret = secret_of(self.folder)
        self.assertEqual(secret, secret_of(self.folder))
        token = sign(secret, Person("driver", "row", "7"), 2_000)
        self.assertEqual(read_token(secret, token, 1_999), Person("driver", "row", "7"))
        with self.assertRaises(BadToken):
            read_token(secret, token, 2_001)

    def test_no_other_text_is_a_token(self) -> None:
        token = sign(b"one", Person("rider", "row", "ada"), 2_000)
        for other in ("", ".", "....", token.replace("ada", "bob"), token.replace("rider", "office"), token[:-1], token + "0",
                      token.replace("2000", "9000"), "é" * 64, token.upper()):
            with self.assertRaises(BadToken):
                read_token(b"one", other, 1)
        with self.assertRaises(BadToken):
            read_token(b"two", token, 1)

    def test_names_that_would_say_more_are_not_signed(self) -> None:
        for words in (("rider", "row", "a.b"), ("rider", "row", ""), ("rider", "a/b", "ada"), ("king", "row", "ada"),
                      ("driver", "row", "ada")):
            with self.assertRaises(ValueError):
                sign(b"one", Person(*words), 2_000)


class Rates(unittest.TestCase):
    def test_three_at_once_and_two_a_second(self) -> None:
        now = [10.0]
        limit = RateLimit(2.0, 3, names=2, now=lambda: now[0])
        self.assertEqual([limit.take("ada") for _ in range(4)], [0.0, 0.0, 0.0, 0.5])
        self.assertTrue(limit.is_empty("ada"))
        self.assertEqual(limit.take("bob"), 0.0)
        now[0] += 0.5
        self.assertEqual(limit.take("ada"), 0.0)
        self.assertEqual(limit.take("ada"), 0.5)
        limit.take("cy")  # Only two names are kept: bob, the least recent, goes.
        self.assertEqual(sorted(limit.buckets), ["ada", "cy"])


class Words(unittest.TestCase):
    def test_codes_are_those_of_the_page_of_formats(self) -> None:
        text = (ROOT / "docs/formats.md").read_text()
        about_refusals = text.split("\n## Refusals\n")[1].split("\n## ")[0]
        codes = {int(code) for code in re.findall(r"^\| (\d+) (?=\|)", about_refusals, re.MULTILINE)}
        self.assertEqual(codes - {18}, set(REFUSALS))  # 18 is said by a league alone

    def test_a_refusal_has_its_code_its_name_and_its_line(self) -> None:
        problem = refused(8, "f1 cancel 7 = refused 8")
        self.assertEqual((problem.status, problem.code, problem.title), (409, 8, "aboard"))
        self.assertEqual(problem.document("/x"), {
            "type": "/problems#refused-8", "title": "aboard", "status": 409, "instance": "/x", "code": 8,
            "detail": "The rider is aboard: the ride can no longer be cancelled. The log says: f1 cancel 7 = refused 8"})
        self.assertEqual(refused(99, "x").status, 409)
        self.assertEqual(Problem("reading", retry_after=1).document(), {
            "type": "/problems#reading", "title": "this server still reads what has happened so far", "status": 503})


class Schedules(WithFolder):
    def test_the_clock_each_tick_and_a_batch_where_somebody_waits(self) -> None:
        schedule, log = Schedule(self.row_zone()), TripLog()

        def read(line: str) -> None:
            entry = log.read(line + "\n")
            if entry:
                schedule.see(entry)

        for line in ROW_LOG[:3]:
            read(line)
        self.assertEqual(schedule.due(100, log), [])  # the log's clock is 100
        self.assertEqual(schedule.clock_before(104), ["clock 104"])
        self.assertEqual(schedule.due(108, log), [])
        self.assertEqual(schedule.due(109, log), ["clock 109"])  # five seconds after 104
        read(ROW_LOG[3])
        self.assertEqual(schedule.due(110, log), ["clock 110", "batch"])
        self.assertEqual(schedule.due(126, log), ["clock 126"])  # the batch that was asked for is not on the log yet
        for line in ROW_LOG[5:6] + ["d1 open 1 at 100 requests 1 plans 1@0 2@0"]:
            read(line)
        self.assertEqual(schedule.due(140, log), ["clock 140"])  # one is open
        read("d1 commit 1 cost 140 seats 1:1:0:0 prices 1:140 pays outcomes 1:confirmed")
        self.assertEqual(schedule.due(160, log), ["clock 160"])  # nobody waits
        read("f1 request 5 1 2 1 400 300 = waiting")
        self.assertEqual(schedule.due(161, log), ["clock 161", "batch"])


class Audits(WithFolder):
    def program(self, text: str) -> Zone:
        """Returns a zone whose program is this shell script."""
        path = self.folder / "program"
        path.write_text("#!/bin/sh\n" + text)
        path.chmod(0o755)
        return replace(self.row_zone(ROW_LOG[:3]), program=str(path))

    def test_the_whole_lines_are_audited(self) -> None:
        zone = self.program('cat > "$(dirname "$0")/read"; echo no 3 reply; exit 7\n')
        whole = (self.folder / "kept.log").read_bytes()
        with open(zone.kept_log, "ab") as kept:
            kept.write(b"f1 clo")
        word = asyncio.run(audit(zone))
        self.assertEqual((word.said, word.status, word.size), ("no 3 reply", 7, len(whole)))
        self.assertEqual((self.folder / "read").read_bytes(), whole)

    def test_a_program_that_is_gone_is_no_audit(self) -> None:
        word = asyncio.run(audit(replace(self.program(""), program=str(self.folder / "none"))))
        self.assertNotEqual(word.status, 0)
        self.assertFalse(word.said.startswith("yes"))


class Remnants(WithFolder):
    def test_what_is_left_is_known_by_its_room_and_ended(self) -> None:
        mine = subprocess.Popen(["sleep", "60"], env={**os.environ, remnants.MARK: str(self.folder)})
        other = subprocess.Popen(["sleep", "60"], env={**os.environ, remnants.MARK: "/elsewhere"})
        for process in (mine, other):
            self.addCleanup(process.wait)
            self.addCleanup(process.kill)
        threading.Thread(target=mine.wait, daemon=True).start()  # An ended child is gone once it was waited for.
        remnants.note(self.folder, "web.1", mine.pid)
        remnants.note(self.folder, "bridge.row", other.pid)  # This number was given to another process since.
        self.assertEqual(remnants.living(self.folder), {"web.1": mine.pid})
        self.assertEqual(remnants.stop(self.folder), ["web.1"])
        self.assertEqual(remnants.living(self.folder), {})
        self.assertIsNone(other.poll())

    def test_a_folder_that_is_no_room(self) -> None:
        with self.assertRaises(ValueError):
            remnants.living(self.folder)


class OwnZones(WithFolder):
    def own(self, name: str, fleet: str) -> str:
        """Returns a new folder of this name with a row's map and this fleet file."""
        folder = self.folder / name
        folder.mkdir()
        (folder / "map.gr").write_text(ROW_MAP)
        (folder / "fleet.txt").write_text(fleet)
        return str(folder)

    def zones(self, *folders: str) -> List[Zone]:
        """Returns the zones that `run` makes of these folders."""
        words = [word for folder in folders for word in ("--own", folder)]
        return make_zones(parser().parse_args(["run", *words, "--begin", "100", "--columns", "4"]), self.folder / "room", "/bin/true")

    def test_each_company_is_a_zone_with_its_fleet_and_its_streams(self) -> None:
        fleets = {"north": "vehicle 1 4 1 0\n", "South_Cabs": "vehicle 1 2 4 0\n"}
        north, south = self.zones(*(self.own(name, fleet) for name, fleet in fleets.items()))
        self.assertEqual([north.name, south.name], ["north", "south-cabs"])
        self.assertEqual([(zone.begin, zone.columns) for zone in (north, south)], [(100, 4)] * 2)
        self.assertEqual([Path(zone.fleet).read_text() for zone in (north, south)], list(fleets.values()))
        self.assertFalse(set(north.streams()) & set(south.streams()))
        self.assertNotEqual(north.kept_log, south.kept_log)
        self.assertFalse(Person("rider", "north", "ada").may_enter("south-cabs"))

    def test_folders_that_name_no_zone_or_the_same(self) -> None:
        with self.assertRaises(ZoneError):
            self.zones(self.own("7", ROW_FLEET))
        folder = self.own("north", ROW_FLEET)
        with self.assertRaises(ZoneError):
            self.zones(folder, folder)


class RoomsAgain(WithFolder):
    def test_zones_of_a_room_that_goes_on(self) -> None:
        zones = self.folder / "zones" / "row"
        zones.mkdir(parents=True)
        zone = replace(self.row_zone(), folder=str(zones), speed=7)
        zone.save()
        with self.assertRaisesRegex(ValueError, "no control room's folder"):
            left_zones(self.folder)
        remnants.note(self.folder, "web.1", 1)
        self.assertEqual(saved(left_zones(self.folder), "/bin/true", "/bin/false"), [replace(zone, program="/bin/true", resume="/bin/false")])
        self.assertEqual(load_zone(str(zones)).resume, "/bin/false")
        with open(zone.kept_log, "w") as kept:
            fcntl.flock(kept, fcntl.LOCK_EX)
            with self.assertRaisesRegex(ZoneError, "the session of row"):
                left_zones(self.folder)


class Commands(WithFolder):
    def run_words(self, *words: str) -> "subprocess.CompletedProcess[str]":
        return subprocess.run([sys.executable, "-m", "control_room", *words], cwd=ROOT, capture_output=True, text=True, timeout=30)

    def test_words_that_are_none_get_one_line_and_status_2(self) -> None:
        cases: List[List[str]] = [
            [], ["fly"], ["run", "--city", "1"], ["run", "--city", "a"], ["run", "--speed", "0"], ["run", "--port", "70000"],
            ["run", "--town", "--city", "5"], ["bridge", str(self.folder), "row"], ["web", str(self.folder)],
            ["token", str(self.folder), "rider", "ada"], ["token", str(self.folder), "king", "ada"],
            ["run", "--program", "/no/such/program"], ["run", "--program", "/bin/true", "--resume", "/no/such/program"],
            ["run", "--again", str(self.folder), "--program", "/bin/true"], ["run", "--again", "x", "--town"],
            ["run", "--own", str(self.folder), "--program", "/bin/true"]]
        for words in cases:
            ended = self.run_words(*words)
            self.assertEqual((ended.returncode, ended.stderr.count("\n"), ended.stdout), (2, 1, ""), words)

    def test_help_has_meanings_and_an_example(self) -> None:
        said = self.run_words("run", "--help")
        self.assertEqual(said.returncode, 0)
        self.assertIn("example:", said.stdout)
        self.assertIn("(default 5)", said.stdout)

    def test_a_folder_that_is_no_zone(self) -> None:
        for text in ("", "[]", "{}", '{"name": "row"}', "\x00\xff"):
            (self.folder / "zone.json").write_text(text)
            with self.assertRaises(ZoneError):
                load_zone(str(self.folder))
        zone = self.row_zone()
        self.assertEqual(load_zone(str(self.folder)), zone)


if __name__ == "__main__":
    unittest.main()
