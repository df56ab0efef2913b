"""Tests of what live_city makes and prints; the session itself is played by checks/live_city.sh."""
import os
import random
import sys
import tempfile
import unittest

sys.path.insert(0, os.path.dirname(os.path.dirname(os.path.abspath(__file__))))

import live_city  # noqa: E402
from live_city import BEGIN, made_fleet, made_riders, report  # noqa: E402
from player.files import write_fleet  # noqa: E402
from player.roads import grid_city  # noqa: E402
from trip_log import TripLog, read_fleet  # noqa: E402


class Made(unittest.TestCase):
    def test_a_fleet(self):
        with tempfile.TemporaryDirectory() as folder:
            write_fleet(f"{folder}/fleet.txt", made_fleet(grid_city(3, random.Random(1)), 5, 60, random.Random(1)))
            fleet = read_fleet(f"{folder}/fleet.txt")
        self.assertEqual(([v.id for v in fleet.vehicles], fleet.settings["lead"]), ([1, 2, 3, 4, 5], 40))
        self.assertTrue(all(1 <= v.at <= 9 and v.ready == BEGIN and v.seats in (4, 6) for v in fleet.vehicles))

    def test_riders_are_in_order_and_within_the_morning(self):
        riders = made_riders(grid_city(4, random.Random(1)), 50, 1200, random.Random(2))
        self.assertEqual(len(riders), 50)
        self.assertEqual([rider.asks for rider in riders], sorted(rider.asks for rider in riders))
        for rider in riders:
            self.assertTrue(BEGIN <= rider.asks <= BEGIN + 1200)
            self.assertNotEqual(rider.origin, rider.destination)
            self.assertEqual(rider.latest, rider.asks + live_city.LATEST)
            self.assertTrue(rider.cancels is None or rider.cancels > rider.asks)


class Reports(unittest.TestCase):
    def test_of_a_short_log(self):
        log = TripLog()
        for line in ("log 1 feeds 2 desks 1", "f1 clock 100 = now 100", "f1 request 7 2 5 1 600 900 = waiting", "f1 batch = asked 1",
                     "f1 clock 130 = now 130", "d1 open 1 at 130 requests 7 plans 1@0",
                     "d1 commit 1 cost 180 seats 7:1:0:0 prices 7:180 pays outcomes 7:confirmed", "f2 at 1 2 190 = late 30 broken 7",
                     "f2 done 1 = picked 7"):
            log.read(line + "\n")
        said = report(log, [0.25], 1800)
        self.assertIn("requests 1: served 0, away 0, cancelled 0, open 1", said)
        self.assertIn("from request to promise: median 30 s, 9 of 10 within 30 s, longest 30 s", said)
        self.assertIn("from request to pickup: median 90 s, 9 of 10 within 90 s, longest 90 s", said)
        self.assertIn("late reports 1, rides with a broken promise 1", said)
        self.assertIn("batches 1, 2 an hour of the city's day", said)


if __name__ == "__main__":
    unittest.main()
