"""Tests of bench/evening.py and of the cases that it plays: with the stand-in for the program, and with the program where it is built."""
import contextlib
import io
import json
import os
import sys
import tempfile
import unittest
from dataclasses import replace
from pathlib import Path

from files_at_hand import EXAMPLES, HERE, ROOT, bad_files

sys.path.insert(0, os.path.join(ROOT, "bench"))

import evening  # noqa: E402
from evening_rows import TABLES  # noqa: E402
from player.cases import BEGIN, Case, City, Extent, played  # noqa: E402
from player.files import InputError  # noqa: E402
from player.runs import default_program  # noqa: E402
from player.second_auditor import second_audit  # noqa: E402

TOWN = os.path.join(EXAMPLES, "map.gr")
STAND_IN = os.path.join(HERE, "data", "stand_in.py")
PROGRAM = os.environ.get("RIDE_DISPATCH", default_program())
SMALL = ("--map", TOWN, "--vehicles", "4", "--requests", "90", "--minutes", "12", "--warm", "2", "--tick", "30")


def table(*words, program=STAND_IN):
    """The lines of a table."""
    with contextlib.redirect_stdout(io.StringIO()) as out, contextlib.redirect_stderr(io.StringIO()):
        assert evening.main([str(word) for word in words] + ["--program", program]) == 0
    return out.getvalue().splitlines()


def figures(row):
    """The cells of a row without the last, which is the processors' time of a batch."""
    return row.split(" | ")[:-1]


class Cases(unittest.TestCase):
    def city(self, folder, minutes=20):
        return City(Extent(TOWN, 186, minutes, 5, 30), folder)

    def test_a_seed_draws_the_same_riders_for_every_case(self):
        with tempfile.TemporaryDirectory() as folder:
            first = self.city(folder).riders(1, 100, 5)
            longer = self.city(folder).riders(1, 100, 7)
            self.assertEqual([replace(r, latest=r.latest + 120, longest=r.longest + 120) for r in first], longer)
            self.assertNotEqual(first, self.city(folder).riders(2, 100, 5))
            self.assertTrue(all(BEGIN <= rider.asks < BEGIN + 1200 for rider in first))

    def test_the_first_vehicles_are_the_same_for_every_size(self):
        with tempfile.TemporaryDirectory() as folder:
            few, many = (self.city(folder).fleet(1, Case("", vehicles=count, settings={"penalty": 5})) for count in (3, 9))
            self.assertEqual(few.vehicles, many.vehicles[:3])
            self.assertEqual((few.settings["penalty"], few.settings["batch"]), (5, 128))

    def test_an_audit_that_says_no_ends_it(self):
        with tempfile.TemporaryDirectory() as folder:
            liar = Path(f"{folder}/liar")
            liar.write_text(f"#!/bin/sh\n[ $1 = audit ] && echo no && exit 1\nexec {sys.executable} {STAND_IN} \"$@\"\n")
            liar.chmod(0o755)
            with self.assertRaisesRegex(InputError, "the audit says no"):
                played(self.city(folder, 6), str(liar), 1, Case("a case", vehicles=2, an_hour=60))

    def test_the_second_auditor_takes_larger_fleets(self):
        morning, fleet = (os.path.join(ROOT, "examples", name) for name in ("morning.log", "fleet.txt"))
        self.assertTrue(second_audit(5, TOWN, fleet, morning).startswith("yes entries "))
        self.assertIn("fleet refused 5", second_audit(4, TOWN, fleet, morning))
        self.assertNotIn("yes", second_audit(5, TOWN, fleet, fleet))

    def test_nobody_asks(self):
        with tempfile.TemporaryDirectory() as folder, self.assertRaisesRegex(InputError, "nobody asks"):
            self.city(folder, 1).setup(1, Case("", an_hour=1))


class Rows(unittest.TestCase):
    def test_each_changes_one_thing(self):
        base = Case("base")
        for name in ("settings", "beside"):
            for case in TABLES[name](base):
                changed = [field for field in base.__dict__ if field != "name" and case.__dict__[field] != base.__dict__[field]]
                self.assertTrue(len(changed) <= 1 or (case.dispatcher in ("idle", "insertion") and case.every == 1), case)

    def test_the_waits_fleets_and_seats_of_the_paper(self):
        said = {(case.vehicles, case.seats, case.wait, case.reach) for case in TABLES["papers"](Case("base"))}
        self.assertEqual(said, {(750, 4, 5, None), (750, 10, 5, None), (750, 4, 2, None), (750, 4, 7, None), (500, 4, 5, None),
                                (500, 10, 5, None), (750, 4, 5, 600)})

    def test_the_leagues(self):
        self.assertEqual([(case.vehicles, case.an_hour) for case in TABLES["league"](Case("base"))], [(1500, 12500), (1000, 8333)])


class Tables(unittest.TestCase):
    def test_a_table_is_repeated_by_any_number_of_processes(self):
        words = ("beside", *SMALL, "--rows", "1", "2", "5")
        once, again = table(*words), table(*words, "--jobs", "3")
        self.assertEqual(once[:4], again[:4])
        self.assertEqual([figures(row) for row in once[4:]], [figures(row) for row in again[4:]])
        self.assertEqual([row.split(" | ")[0] for row in once[4:]],
                         ["| nearest idle vehicle, nobody shares", "| first come, first served, cheapest insertion",
                          "| the program, a batch each 30 s"])
        served = [float(cell.split("; ")[0]) for cell in (figures(row)[1] for row in once[4:6])]
        self.assertTrue(served[0] < served[1])

    def test_the_stand_in_by_each_second_is_the_insertion(self):
        rows = table("beside", *SMALL, "--rows", "2", "3")[4:]
        self.assertEqual(figures(rows[0])[1:], figures(rows[1])[1:])

    def test_the_paper_stands_above_its_table(self):
        lines = table("papers", *SMALL, "--rows", "1", "7", "--seeds", "1")
        self.assertEqual(lines[2].split(" | ")[-1], "Differs |")
        self.assertEqual(len({line.count("|") for line in lines[2:]}), 1)
        self.assertEqual(lines[4].split(" | ")[:3], ["| Alonso-Mora et al. 2017: 3,000 vehicles of 4 seats", "98", "168"])
        self.assertEqual([line.split(" | ")[-1] for line in lines[6:]], ["a b c d e |", "a b c d |"])

    def test_files(self):
        with tempfile.TemporaryDirectory() as folder:
            page = Path(f"{folder}/page.md")
            page.write_text("before\n<!-- town -->\nold\n<!-- end of town -->\nafter\n")
            words = ("one", *SMALL, "--seeds", "1", "2", "--json", f"{folder}/figures.json")
            lines = table(*words, "--into", str(page), "--name", "town")
            self.assertEqual(page.read_text().splitlines(), ["before", "<!-- town -->", *lines, "<!-- end of town -->", "after"])
            kept = [json.loads(line) for line in Path(f"{folder}/figures.json").read_text().splitlines()]
            self.assertEqual([(each["seed"], each["audit"][:3]) for each in kept], [(1, "yes"), (2, "yes")])
            self.assertEqual(figures(lines[4])[1], f"{kept[0]['served, %']}; {kept[1]['served, %']}")
            table(*words)
            again = Path(f"{folder}/figures.json").read_text().splitlines()
            self.assertEqual(again[:2], again[2:])


@unittest.skipUnless(os.access(PROGRAM, os.X_OK), "the program is not built")
class WithProgram(unittest.TestCase):
    def test_batches_of_one_are_the_insertion(self):
        rows = table("beside", *SMALL, "--rows", "2", "3", program=PROGRAM)[4:]
        self.assertEqual(figures(rows[0])[1:], figures(rows[1])[1:])

    def test_a_league_is_audited_as_one_fleet(self):
        with tempfile.TemporaryDirectory() as folder:
            table("league", *SMALL, "--rows", "1", "--seeds", "1", "--json", f"{folder}/figures.json", program=PROGRAM)
            self.assertTrue(json.loads(Path(f"{folder}/figures.json").read_text())["audit"].startswith("yes "))


class BadInput(unittest.TestCase):
    def refuses(self, *words, program=STAND_IN):
        with self.assertRaises(InputError) as caught:
            table(*words, program=program)
        self.assertNotIn("\n", str(caught.exception))
        return str(caught.exception)

    def test_options(self):
        self.refuses()
        self.refuses("papier")
        self.refuses("one", "--minutes", "x")
        self.assertIn("leaves nothing", self.refuses("one", "--minutes", "10", "--warm", "10"))
        self.assertIn("the table has 1 rows", self.refuses("one", "--rows", "2"))
        self.refuses("one", "--seeds", "-1")
        self.refuses("one", "--jobs", "0")

    def test_files(self):
        with tempfile.TemporaryDirectory() as folder:
            for bad in bad_files(folder).values():
                self.refuses("one", "--map", bad, "--jobs", "2")
                self.refuses("one", *SMALL, "--into", bad)
        self.assertIn("No such file", self.refuses("one", *SMALL, program="/nowhere/ride_dispatch"))


if __name__ == "__main__":
    unittest.main()
