"""Tests of the figures of a log: the morning of examples/, whose figures are worked out by hand here, and a short log of two riders."""
import contextlib
import io
import json
import os
import tempfile
import unittest
from pathlib import Path
from xml.etree import ElementTree

from files_at_hand import EXAMPLES, bad_files

import day_figures
from player.figures import Scope, nth
from player.files import InputError, open_fleet
from player.roads import Roads, read_map
from trip_log import Fleet, Vehicle

MORNING, FLEET, MAP = (os.path.join(EXAMPLES, name) for name in ("morning.log", "fleet.txt", "map.gr"))


def row_of_four():
    """Crossings 1 to 4 in a row, a minute between neighbours."""
    return Roads(4, [(a, b, 60) for a in range(1, 5) for b in (a - 1, a + 1) if 1 <= b <= 4])


def figures_of(lines, settings=None, scope=Scope(), roads=None):
    """The figures of a log of one vehicle of two seats at crossing 1 from second 0 on."""
    fleet = Fleet({"batch": 32, "penalty": 3600, "drive": 1, "wait": 0, "lead": 0, "dwell": 0, "log": 1, **(settings or {})},
                  [Vehicle(1, at=1, ready=0, seats=2)])
    with tempfile.TemporaryDirectory() as folder:
        path = f"{folder}/log"
        Path(path).write_text("log 1 feeds 2 desks 1\n" + "".join(line + "\n" for line in lines))
        return day_figures.figures_of(path, roads or row_of_four(), fleet, scope)


class Morning(unittest.TestCase):
    """Served are 101, 102, 103, 104 and 105. They ask at 25200, 105 at 25260, and are picked up at 25220 (104 got in before, and a stop
    takes 20 s), 25255, 25260, 25200 and 25685: waits of 20, 55, 60, 0 and 425, 560 together."""

    def setUp(self):
        roads = read_map(MAP)
        self.values = day_figures.figures_of(MORNING, roads, open_fleet(FLEET, roads.nodes), Scope()).values()

    def test_riders(self):
        asked = {name: self.values[name] for name in ("riders asked", "served", "away", "cancelled", "aboard or promised at the end")}
        self.assertEqual(asked, {"riders asked": 10, "served": 5, "away": 1, "cancelled": 2, "aboard or promised at the end": 2})
        self.assertEqual((self.values["refused commands"], self.values["seats cancelled"]), (1, 1))

    def test_waits(self):
        self.assertEqual((self.values["wait, mean s"], self.values["wait, median s"], self.values["wait, 9 of 10 within s"]), (112.0, 55, 425))

    def test_delays(self):
        # 405 s aboard where the way takes 360, 80 for 60, 325 for 215, 330 for 290 and 425 for 405: 235 together.
        self.assertEqual(self.values["delay aboard, mean s"], 47.0)

    def test_why_somebody_is_away(self):
        # Nobody is at the Airfield within the minute that request 109 waits: the nearest stands at node 23, 155 seconds away.
        self.assertEqual((self.values["away: too far"], self.values["away: no place"], self.values["away: outbid"]), (1, 0, 0))

    def test_rides_together(self):
        # 101 and 104 are in vehicle 1 together; 103 leaves vehicle 4 before 105 gets in.
        self.assertEqual(self.values["pooled, % of served"], 40.0)

    def test_driving(self):
        # Vehicle 1 drives 290 seconds with two aboard and 75 with one; 2 drives 55 empty and 60; 4 drives 60 empty, 60, 135 and 110, 80
        # empty, and 405.
        self.assertEqual((self.values["driven, s"], self.values["empty seconds"]), (1330, 195))
        self.assertEqual(self.values["riders aboard a driven second"], round((2 * 290 + 75 + 60 + 60 + 135 + 110 + 405) / 1330, 2))
        # Busy are 1 for 445 s, 2 for 155 and 4 for 930; on duty five for 900, but for 5, which is off for 840.
        self.assertEqual(self.values["busy, % of duty"], round(100 * 1530 / 3660, 1))
        self.assertEqual((self.values["late reports"], self.values["late, s"], self.values["broken promises"]), (1, 90, 1))

    def test_batches(self):
        # Costs of 925, 45, 1005, 900 and 725, prices of 925, 45, 1005, 900 and 915 for nine requests.
        self.assertEqual((self.values["batches"], self.values["cost of a batch, mean"], self.values["price of a request, mean"]),
                         (5, 720.0, round(3790 / 9, 1)))
        self.assertEqual((self.values["stale pairs, moved"], self.values["stale pairs, behind"]), (0, 0))


# Rider 7 goes from 2 to 4, and rider 8 from 3 to 4: both are aboard from 3 to 4.
POOLED = [
    "f1 clock 10 = now 10", "f1 request 7 2 4 1 600 900 = waiting", "f1 request 8 3 4 1 600 900 = waiting", "f1 batch = asked 1",
    "d1 open 1 at 10 requests 7 8 plans 1@0", "d1 commit 1 cost 3780 seats 7:1:0:0 prices 7:180 8:3600 pays outcomes 7:confirmed 8:away",
    "f1 clock 30 = now 30", "f1 request 1008 3 4 1 600 900 = waiting", "f1 batch = asked 2", "d1 open 2 at 30 requests 1008 plans 1@1",
    "d1 commit 2 cost 0 seats 1008:1:1:1 prices 1008:0 pays outcomes 1008:confirmed",
    "f2 at 1 2 70 = onmap", "f2 done 1 = picked 7", "f2 at 1 3 130 = onmap", "f2 done 1 = picked 1008", "f2 at 1 4 200 = late 10",
    "f2 done 1 = dropped 1008", "f2 done 1 = dropped 7", "f1 clock 410 = now 410", "f2 at 1 3 400 = onmap", "f1 end", "f2 end", "d1 end"]


class TwoRiders(unittest.TestCase):
    def test_vehicles(self):
        values = figures_of(POOLED).values()
        # 60 s to rider 7, 60 with one aboard, 70 with two, and 60 of an idle vehicle that drives back.
        self.assertEqual((values["driven, s"], values["empty seconds"], values["sent ahead, s"]), (250, 120, 60))
        self.assertEqual(values["riders aboard a driven second"], round((60 + 2 * 70) / 250, 2))
        # Busy from 10 to 200, on duty from the first request at 10 to the last clock at 410.
        self.assertEqual(values["busy, % of duty"], 47.5)

    def test_riders(self):
        values = figures_of(POOLED).values()
        # Rider 7 waits 60 and rides 130, where the way takes 120; rider 1008 waits 100 and rides 70 in place of 60.
        self.assertEqual((values["wait, mean s"], values["delay aboard, mean s"], values["delay in all, mean s"]), (80.0, 10.0, 90.0))
        self.assertEqual((values["riders asked"], values["served"], values["away"], values["pooled, % of served"]), (3, 2, 1, 100.0))
        # Rider 8 was worth 0 more to the vehicle, which rider 7 took: each vehicle has one new rider a batch.
        self.assertEqual(values["away: outbid"], 1)

    def test_riders_who_ask_again_are_counted_once(self):
        values = figures_of(POOLED, scope=Scope(again=1000)).values()
        self.assertEqual((values["riders asked"], values["requests, with those asked again"], values["away"]), (2, 3, 0))
        # Rider 8 asked at 10 and is picked up at 130.
        self.assertEqual(values["wait, mean s"], 90.0)

    def test_a_part_of_the_day(self):
        values = figures_of(POOLED, scope=Scope(since=30, until=150)).values()
        # Of the driven seconds those from 30 to 150: 40 empty, 60 with one aboard, 20 with two.
        self.assertEqual((values["riders asked"], values["driven, s"], values["empty seconds"]), (1, 120, 40))

    def test_why_nobody_takes_a_rider(self):
        def reason(request, settings=None):
            lines = ["f1 clock 10 = now 10", f"f1 request 7 {request} = waiting", "f1 batch = asked 1",
                     "d1 open 1 at 10 requests 7 plans 1@0", "d1 commit 1 cost 9 seats prices 7:9 pays outcomes 7:away", "f1 end"]
            values = figures_of(lines, settings).values()
            return [name for name, value in values.items() if name.startswith("away: ") and value]

        self.assertEqual(reason("2 4 1 60 900"), ["away: too far"])  # there at 70
        self.assertEqual(reason("2 4 3 600 900"), ["away: no place"])  # three seats of two
        self.assertEqual(reason("2 4 1 600 119"), ["away: no place"])  # a ride takes 120
        self.assertEqual(reason("2 4 1 600 900", {"penalty": 100}), ["away: too dear"])  # it costs 180
        self.assertEqual(reason("2 4 1 600 900"), ["away: outbid"])

    def test_no_vehicle_is_open(self):
        lines = ["f2 off 1 = duty", "f1 request 7 2 4 1 600 900 = waiting", "f1 batch = asked 1", "d1 open 1 at 0 requests 7 plans 1@1",
                 "d1 commit 1 cost 3600 seats prices 7:3600 pays outcomes 7:away"]
        self.assertEqual(figures_of(lines).values()["away: no vehicle"], 1)

    def test_the_ninth_of_ten(self):
        self.assertEqual([nth(list(range(1, 11)), 0.9), nth([5], 0.9), nth([], 0.9)], [9, 5, None])


class Program(unittest.TestCase):
    def run_main(self, *words):
        with contextlib.redirect_stdout(io.StringIO()) as out:
            self.assertEqual(day_figures.main(words), 0)
        return out.getvalue()

    def test_two_logs_side_by_side(self):
        said = self.run_main(MORNING, FLEET, MAP, MORNING).splitlines()
        self.assertEqual(said[0].split(), ["morning.log", "morning.log"])
        self.assertEqual(said[3].split(), ["served", "5", "5"])

    def test_json(self):
        said = json.loads(self.run_main(MORNING, FLEET, MAP, "--json"))
        self.assertEqual((len(said), said[0]["log"], said[0]["served"]), (1, "morning.log", 5))

    def test_batches(self):
        said = self.run_main(MORNING, FLEET, MAP, "--batches").splitlines()[-6:]
        self.assertEqual(said[0].split(), ["batch", "time", "cost", "requests", "seated", "away", "stale", "price,", "mean"])
        # Of the third batch the log says `cost 1005` and prices of 860 and 145; in the fourth request 109 is turned away.
        self.assertEqual(said[3].split(), ["3", "07:01:00", "1,005", "2", "2", "0", "0", "502.5"])
        self.assertEqual(said[4].split(), ["4", "07:05:00", "900", "1", "0", "1", "0", "900.0"])
        both = self.run_main(MORNING, FLEET, MAP, MORNING, "--batches").splitlines()
        self.assertEqual((both.count("morning.log"), both.count(said[3])), (2, 2))

    def test_pages_are_whole(self):
        with tempfile.TemporaryDirectory() as folder:
            for name in ("page.svg", "page.html"):
                self.run_main(MORNING, FLEET, MAP, MORNING, "--page", f"{folder}/{name}")
                page = Path(f"{folder}/{name}").read_text()
                self.assertIn("How long riders wait", page)
                self.assertNotIn("http://", page.replace("http://www.w3.org/2000/svg", ""))
            ElementTree.parse(f"{folder}/page.svg")

    def test_bad_input_is_one_line(self):
        with tempfile.TemporaryDirectory() as folder:
            torn = Path(f"{folder}/torn")
            torn.write_bytes(Path(MORNING).read_bytes()[:1000])
            places = [words for bad in bad_files(folder).values() for words in ((bad, FLEET, MAP), (MORNING, bad, MAP), (MORNING, FLEET, bad))]
            for words in places:
                with self.assertRaises(InputError) as caught:
                    day_figures.main(words)
                self.assertNotIn("\n", str(caught.exception))
            few = Path(f"{folder}/few")
            few.write_text("vehicle 1 4 1 0\n")
            for words in ((str(torn), FLEET, MAP), (MAP, FLEET, MAP), (MORNING, MORNING, MAP), (MORNING, FLEET, FLEET),
                          (MORNING, str(few), MAP)):
                with self.assertRaises(InputError):
                    day_figures.main(words)


if __name__ == "__main__":
    unittest.main()
