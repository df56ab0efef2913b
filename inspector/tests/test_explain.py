"""Reasons beside brute force over drawn days, and beside numbers that were computed by hand."""
import io
import json
import random
import sys
import tempfile
import unittest
from contextlib import redirect_stdout
from pathlib import Path
from unittest.mock import patch

sys.path.insert(0, str(Path(__file__).resolve().parent))

import brute_force
import drawn_days
from check_log import read_board
from explain import main, story_of, words_of
from history import History
from entries import read_entry
from reasons import in_words, reason_of
from road_map import read_map
from texts import Ended
from worked import BEGUN, FLEET, LOG, MAP, write

EXAMPLES = Path(__file__).resolve().parents[2] / "examples"


def told(log: str, request: int, fleet: str = FLEET) -> str:
    """Returns the story of a request over the small map, in words."""
    with tempfile.TemporaryDirectory() as folder:
        road_map, vehicles = write(folder, "map", MAP), write(folder, "fleet", fleet)
        return words_of(story_of(road_map, vehicles, write(folder, "log", log), request))


class ByHand(unittest.TestCase):
    def test_two_riders_want_one_vehicle(self):
        log = """log 1 feeds 1 desks 1
f1 request 7 2 4 1 600 300 = waiting
f1 request 8 4 3 1 600 300 = waiting
f1 batch = asked 1
d1 open 1 at 0 requests 7 8 plans 1@0
d1 commit 1 cost 3780 seats 7:1:0:0 prices 7:3540 8:3600 pays 1:3360 outcomes 7:confirmed 8:away
"""
        self.assertEqual(told(log, 7).splitlines()[-1], "    vehicle 1: takes it for 180")
        self.assertEqual(told(log, 8).splitlines()[-2:], [
            "line 6: batch 1, priced at second 0: away: it is turned away",
            "    vehicle 1: for 240, but it takes request 7 and is worth 3360 more to the batch"])

    def test_too_late_at_best(self):
        away = "d1 commit 1 cost 3600 seats prices 7:3600 pays outcomes 7:away"
        log = LOG.replace("600 300", "20 300").replace(
            "d1 commit 1 cost 180 seats 7:1:0:0 prices 7:180 pays outcomes 7:confirmed", away)
        self.assertIn("vehicle 1: no offer: picked up 40 s too late at best", told(log, 7))
        self.assertIn("vehicle 1: closed: off duty",
                      told(log.replace("f1 batch", "f1 off 1 = duty\nf1 batch").replace("1@0", "1@1"), 7))
        dear = LOG.replace("cost 180 seats 7:1:0:0", "cost 180 seats").replace("7:confirmed", "7:away")
        self.assertIn("vehicle 1: for 180, no less than the penalty of 180", told(dear, 7, "set penalty 180\n" + FLEET))

    def test_places_that_are_full_or_hurt_others(self):
        # Request 7 rides from 2, at 60 s, to 4, at 180 s, and may ride no longer. Request 9 is from 2 to 1. Where its
        # drop-off comes before that of 7 (3 places) ride 7 gets longer or later, where it comes behind that (2 places)
        # it rides for 300 s, and behind both stops it is picked up at 300 s.
        log = BEGUN.replace("600 300", "60 120") + """f1 request 9 2 1 1 200 200 = waiting
f1 batch = asked 2
d1 open 2 at 0 requests 9 plans 1@1
d1 commit 2 cost 3600 seats prices 9:3600 pays outcomes 9:away
"""
        self.assertIn("vehicle 1: no offer at any of 6 places of its plan: picked up too late at 1, too long a ride at 2, "
                      "a promise to 7 broken at 3\n", told(log, 9) + "\n")

    def test_the_whole_life_of_a_request(self):
        log = BEGUN + "f1 at 1 2 700 = late 640 broken 7\nf1 done 1 = picked 7\nf1 cancel 7 = refused 8\n"
        self.assertEqual(told(log, 7).splitlines()[4:], [
            "line 6: vehicle 1 reports 640 s late, which breaks what was promised", "line 7: picked by vehicle 1 at second 700",
            "line 8: cancel: refused, as the rider is aboard"])

    def test_the_command_in_words_and_as_json(self):
        files = [str(EXAMPLES / name) for name in ("map.gr", "fleet.txt", "morning.log")]
        with patch.object(sys, "argv", ["explain.py", *files, "109", "--json"]), redirect_stdout(io.StringIO()) as out:
            self.assertEqual(main(), 0)
        commit = json.loads(out.getvalue())["events"][-1]
        self.assertEqual((commit["outcome"], commit["price"]), ("away", 900))
        self.assertEqual([vehicle["why"] for vehicle in commit["vehicles"]],
                         ["silent", "silent", "late", "silent", "off duty"])

    def test_bad_input_has_status_2(self):
        for words in (["map", "fleet", "log", "x"], ["/", "/", "/", "1"], [str(EXAMPLES / "map.gr")] * 3 + ["1"],
                      [str(EXAMPLES / name) for name in ("map.gr", "fleet.txt", "morning.log")] + ["99"]):
            with patch.object(sys, "argv", ["explain.py", *words]), self.assertRaises(Ended) as caught:
                main()
            self.assertEqual((caught.exception.status, caught.exception.answer), (2, ""))


class BesideBruteForce(unittest.TestCase):
    def setUp(self):
        self.seen = set()

    def check_reason(self, day, copy, ride, reason):
        """Each number of a reason is what playing every place gives."""
        self.seen.add(reason["why"])
        places, why = [day.at(copy, ride, i, j) for i, j in day.places(copy)], reason["why"]
        self.assertEqual(day.price(copy, ride), reason.get("cost"))
        ways = [place for place in places if place["exists"]]
        if why == "off duty":
            self.assertFalse(copy.duty)
        elif why == "silent":
            self.assertTrue(copy.stops and copy.ready < day.now)
        elif why == "late":
            self.assertEqual(min(place["pickup"] for place in places) - ride.latest, reason["seconds"])
        elif why == "long":
            self.assertEqual(min(place["aboard"] for place in places) - ride.longest, reason["seconds"])
        elif why == "no way":
            self.assertEqual(ways, [])
        elif why == "no place":
            late = [place for place in ways if place["pickup"] > ride.latest]
            rest = [place for place in ways if place["pickup"] <= ride.latest]
            long = [place for place in rest if not place["full"] and place["aboard"] > ride.longest]
            self.assertEqual([reason["late"], reason["full"], reason["long"]],
                             [len(late), sum(place["full"] for place in rest), len(long)])
            self.assertEqual(sum(reason[cause] for cause in ("late", "full", "long", "others")), len(ways))
        self.assertTrue(in_words(reason))

    def check_log(self, world, log):
        """Each reason of each commit of a log is the one that brute force finds."""
        history = History(read_board(str(world.map), str(world.fleet)))
        travel_times = brute_force.all_times(read_map(str(world.map)))
        for line in log.splitlines(keepends=True):
            entry = read_entry(line, history.board.settings.log)
            if entry and entry.word == b"commit":
                self.check_commit(history.board.batches[entry.numbers[0]], entry, travel_times)
            self.assertIsNone(history.wrong(line))

    def check_commit(self, batch, entry, travel_times):
        day = brute_force.Day(travel_times, batch.market.settings, batch.market.now)
        for name, ride in batch.rides.items():
            for copy in batch.copies.values():
                self.check_reason(day, copy, ride, reason_of(batch, entry, name, copy.id))

    def test_written_days(self):
        for seed in range(30):
            with tempfile.TemporaryDirectory() as folder:
                draw = random.Random(seed)
                world = (drawn_days.draw_world if seed % 3 == 0 else drawn_days.draw_busy_world)(draw, Path(folder))
                if world.settings.get("batch") == 1:
                    self.check_log(world, drawn_days.write_day(draw, world, 150))
        self.assertLessEqual({"off duty", "silent", "late", "long", "no way", "no place", "takes it", "dear"}, self.seen)

    @unittest.skipUnless(drawn_days.program_path(), "the program is not built")
    def test_days_of_the_program(self):
        for seed in range(3):
            with tempfile.TemporaryDirectory() as folder:
                draw = random.Random(seed)
                world = drawn_days.draw_world(draw, Path(folder))
                self.check_log(world, drawn_days.play_live(drawn_days.program_path(), draw, world, 2, 20))
        self.assertIn("worth more", self.seen)


if __name__ == "__main__":
    unittest.main()
