"""The auditor over worked days; each expected number was computed by hand."""
import subprocess
import sys
import tempfile
import unittest
from pathlib import Path
from unittest.mock import patch

sys.path[:0] = [str(Path(__file__).resolve().parent), str(Path(__file__).resolve().parents[1])]

import check_log
from worked import BEGUN, FLEET, LOG, MAP, answer, verdict, write

ONE_A_BATCH = "set batch 1\n" + FLEET
COMMAND = str(Path(__file__).resolve().parents[1] / "check_log.py")


class WholeLogs(unittest.TestCase):
    def test_the_plain_path(self):
        self.assertEqual(answer(LOG), ("yes entries 6 confirmed 1 away 0 picked 0 dropped 0 finished yes", 0))

    def test_a_log_that_breaks_off_at_a_line(self):
        first = "".join(LOG.splitlines(keepends=True)[:4])
        self.assertEqual(answer(first), ("yes entries 3 confirmed 0 away 0 picked 0 dropped 0 finished no", 0))

    def test_an_empty_feed(self):
        self.assertEqual(verdict("log 1 feeds 1 desks 1\nf1 end\nd1 end\n"), "yes")
        self.assertEqual(verdict("log 1 feeds 1 desks 1\nf1 cut\nd1 end\n"), "yes")

    def test_an_empty_log_has_no_head(self):
        self.assertEqual(answer(""), ("no 1 spelling", 7))

    def test_the_example(self):
        examples = Path(__file__).resolve().parents[2] / "examples"
        texts = [(examples / name).read_bytes() for name in ("morning.log", "fleet.txt", "map.gr")]
        self.assertEqual(answer(*texts)[0], "yes entries 57 confirmed 8 away 1 picked 5 dropped 5 finished yes")


class WrongLogs(unittest.TestCase):
    """The plain path with one change each."""

    def changed(self, old: str, new: str) -> str:
        self.assertIn(old, LOG)
        return verdict(LOG.replace(old, new))

    def test_each_word(self):
        for old, new, expected in (
                ("asked 1", "asked 2", "no 3 reply"), ("plans 1@0", "plans 1@1", "no 4 batch"),
                ("cost 180", "cost 181", "no 5 seating"), ("prices 7:180", "prices 7:181", "no 5 prices"),
                ("7:confirmed", "7:away", "no 5 outcomes"), ("d1 end", "d2 end", "no 7 actor"),
                ("300 = waiting", "300  = waiting", "no 2 spelling"),
                ("cost 180 seats 7:1:0:0 prices 7:180 pays outcomes 7:confirmed",
                 "cost 3600 seats prices 7:3600 pays outcomes 7:away", "no 5 prices")):
            with self.subTest(new):
                self.assertEqual(self.changed(old, new), expected)

    def test_spelling_is_exact_to_the_byte(self):
        for old, new, line in (("log 1", "log 2", 1), ("log 1", "log 01", 1), ("request 7", "request 07", 2),
                               ("batch =", "batch\t=", 3), ("asked 1", "asked 1 ", 3), ("asked 1", "asked 1\r", 3),
                               ("7:1:0:0", "7:1:4294967296:0", 5), ("f1 end", "f1 end\n", 7), ("d1 end\n", "d1 end", 7)):
            with self.subTest(new):
                self.assertEqual(self.changed(old, new), f"no {line} spelling")

    def test_a_number_that_is_spelled_but_wrong_has_another_word(self):
        self.assertEqual(self.changed("7:1:0:0", "7:1:0:4294967295"), "no 5 seating")
        self.assertEqual(self.changed("asked 1", "refused 255"), "no 3 reply")
        self.assertEqual(self.changed("asked 1", "refused 256"), "no 3 spelling")

    def test_a_torn_line(self):
        self.assertEqual(verdict(LOG[:LOG.index("seats")]), "no 5 spelling")

    def test_a_line_that_is_too_long(self):
        self.assertEqual(verdict("log 1 feeds 1 desks 1\n" + "x" * 131_073 + "\n"), "no 2 spelling")

    def test_a_log_beyond_its_limits(self):
        wrong = LOG.replace("7:confirmed", "7:away")
        for name, limit, log, expected in (
                ("MOST_LINES", 7, LOG, "yes"), ("MOST_LINES", 6, LOG, ""), ("MOST_LINES", 5, wrong, "no 5 outcomes"),
                ("MOST_BYTES", len(LOG), LOG, "yes"), ("MOST_BYTES", len(LOG) - 1, LOG, "")):
            with self.subTest(limit), patch.object(check_log, name, limit):
                self.assertEqual((verdict(log), answer(log)[1]), (expected, {"yes": 0, "": 8}.get(expected, 7)))

    def test_prices_of_another_sum_or_order(self):
        self.assertEqual(self.changed("prices 7:180 pays", "prices 7:181 pays 1:1"), "yes")
        self.assertEqual(self.changed("prices 7:180 pays", "prices 7:180 pays 1:0"), "no 5 prices")
        self.assertEqual(self.changed("prices 7:180", "prices"), "no 5 prices")
        self.assertEqual(self.changed("prices 7:180", "prices 8:180"), "no 5 prices")

    def test_a_price_above_the_penalty(self):
        self.assertEqual(self.changed("prices 7:180 pays", "prices 7:3600 pays 1:3420"), "yes")
        self.assertEqual(self.changed("prices 7:180 pays", "prices 7:3601 pays 1:3421"), "no 5 prices")

    def test_a_desk_ends_after_the_feeds_and_all_batches(self):
        self.assertEqual(verdict(BEGUN + "d1 end\n"), "no 6 actor")
        self.assertEqual(verdict(BEGUN + "d1 cut\n"), "yes")
        self.assertEqual(verdict(BEGUN + "f1 end\nf1 end\n"), "no 7 actor")
        self.assertEqual(verdict(BEGUN + "f1 batch = asked 2\nf1 end\nd1 end\n"), "no 8 actor")
        self.assertEqual(verdict(BEGUN + "d1 open 2 at 0 requests plans 1@1\n"), "no 6 actor")


class Texts(unittest.TestCase):
    """Maps and fleet files that are refused, and some that only look odd."""

    def test_maps(self):
        for road_map, expected in (
                ("", "map refused 1"), (MAP[:1], "map refused 3 line 1"), (MAP[:8], "map refused 6 said 6 found 0"),
                (MAP[:54], "map refused 6 said 6 found 5"), (MAP[:55], "map refused 3 line 7"),
                (MAP.replace("4 3 60", "4 5 60"), "map refused 4 line 7"), ("a 1 1 1\n", "map refused 1"),
                (MAP + "p sp 4 6\n", "map refused 2 line 8"), ("p sp 500001 0\n", "map refused 7 line 1"),
                ("p sp 2 1\na 1 2 1000000001\n", "map refused 5 line 2"), (MAP + " " * 201, "map refused 3 line 8"),
                (MAP + "c" * 201, "yes"), (MAP + " " * 200, "yes"), (MAP + "x", "map refused 3 line 8")):
            with self.subTest(road_map[-20:]):
                self.assertEqual(verdict(LOG, road_map=road_map), expected)

    def test_a_map_with_tabs_and_returns(self):
        road_map = b"c roads\r\np sp 2 4\r\na 1 2 60\r\na\t1 2  50 \r\na 2 1 60\r\na 1 1 7"
        log = LOG.replace("7 2 4 1", "7 1 2 1").replace("180", "50")
        self.assertEqual(verdict(log, road_map=road_map), "yes")

    def test_fleets(self):
        for fleet, expected in (
                ("vehicle 1 0 1 0\n", "4 line 1"), ("vehicle 1 2 5 0\n", "3 line 1"), (FLEET + FLEET, "2 line 2"),
                ("set lead 3601\n", "4 line 1"), ("set leads 1\n", "1 line 1"), ("set lead x\n", "1 line 1"),
                ("set lead 1\nset lead 1\n", "2 line 2"), ("vehicle 1 2 1 1000000001\n", "4 line 1"),
                ("vehicle 1 2 1 0 5\n", "4 line 1"), ("\nvehicle 1 2\n", "1 line 2"),
                ("".join(f"vehicle {name} 1 1 0\n" for name in range(1001)), "5 line 1001")):
            with self.subTest(fleet[:30]):
                self.assertEqual(verdict(LOG, fleet), f"fleet refused {expected}")

    def test_another_version_than_the_settings(self):
        self.assertEqual(verdict(LOG, "set log 2\n" + FLEET), "no 1 spelling")

    def test_files_that_cannot_be_read(self):
        with tempfile.TemporaryDirectory() as folder:
            paths = [write(folder, "map", MAP), write(folder, "fleet", FLEET), write(folder, "log", LOG)]
            for place, path in ((0, folder), (1, folder + "/none"), (2, folder)):
                words = [*paths[:place], path, *paths[place + 1:]]
                ran = subprocess.run([sys.executable, COMMAND, *words], capture_output=True, text=True, check=False)
                self.assertEqual((ran.stdout, ran.returncode, ran.stderr.count("\n")), ("", 5, 1))
            long = write(folder, "long", b"#" * ((1 << 20) + 1))
            ran = subprocess.run([sys.executable, COMMAND, paths[0], long, paths[2]], capture_output=True, check=False)
            self.assertEqual((ran.stdout, ran.returncode), (b"", 8))

    def test_words_that_are_not_in_order(self):
        ran = subprocess.run([sys.executable, COMMAND, "map"], capture_output=True, text=True, check=False)
        self.assertEqual((ran.stdout, ran.returncode, ran.stderr.count("\n")), ("", 2, 1))


class Replies(unittest.TestCase):
    """The replies that commands call for, one after the other."""

    def replies(self, lines: str, begun: str = BEGUN, fleet: str = FLEET, road_map: str = MAP) -> None:
        self.assertEqual(verdict(begun + lines, fleet, road_map), "yes")

    def test_refusals_in_order(self):
        self.replies("""f1 request 7 2 4 1 600 300 = refused 1
f1 request 8 5 4 1 600 300 = refused 2
f1 request 8 2 2 1 600 300 = refused 3
f1 request 8 2 4 9 600 300 = refused 4
f1 request 8 2 4 0 600 300 = refused 4
f1 request 8 2 4 1 600 0 = refused 5
f1 request 8 2 4 1 1000000001 300 = refused 5
f1 at 2 1 5 = refused 10
f1 at 1 9 5 = refused 11
f1 at 1 1 1000000001 = refused 5
f1 clock 20 = now 20
f1 clock 5 = now 20
f1 clock 1000000001 = refused 5
""")

    def test_serving(self):
        self.replies("""f1 done 1 = refused 15
f1 at 1 2 60 = onmap
f1 done 1 = picked 7
f1 cancel 7 = refused 8
f1 at 1 4 180 = onmap
f1 done 1 = dropped 7
f1 cancel 7 = refused 9
f1 cancel 5 = refused 7
f1 done 1 = refused 14
f1 done 2 = refused 10
f1 off 1 = duty
f1 batch = asked 2
d1 open 2 at 0 requests plans 1@6
d1 commit 2 cost 0 seats prices pays outcomes
""")

    def test_a_cancellation_frees_the_vehicle(self):
        self.replies("f1 cancel 7 = freed 1\nf1 cancel 7 = refused 9\nf1 done 1 = refused 14\n")

    def test_late_reports(self):
        self.replies("f1 at 1 2 100 = late 40\nf1 at 1 2 99 = refused 12\n")
        hurried = BEGUN.replace("600 300", "90 300")
        self.replies("f1 at 1 2 100 = late 40 broken 7\nf1 request 9 3 4 1 600 300 = waiting\nf1 batch = asked 2\n"
                     "d1 open 2 at 0 requests 9 plans 1@2\n"
                     "d1 commit 2 cost 3600 seats prices 9:3600 pays outcomes 9:away\n", hurried)

    def test_no_road_to_the_first_stop(self):
        road_map = "p sp 3 2\na 1 2 60\na 2 3 60\n"
        begun = BEGUN.replace("7 2 4 1", "7 2 3 1").replace("180", "120")
        self.replies("f1 at 1 3 70 = refused 13\n", begun, road_map=road_map)

    def test_times_of_many_years(self):
        road_map = "p sp 7 5\na 1 2 60\na 2 4 120\na 5 6 1000000000\na 6 7 1000000000\na 7 2 1000000000\n"
        self.replies("f1 at 1 5 0 = late 2999999940 broken 7\nf1 at 1 6 5 = onmap\n", road_map=road_map)

    def test_dwell(self):
        fleet = "set dwell 30\n" + ONE_A_BATCH
        begun = BEGUN.replace("180", "210")
        self.replies("f1 at 1 2 60 = onmap\nf1 done 1 = picked 7\nf1 at 1 4 210 = onmap\nf1 done 1 = dropped 7\n",
                     begun, fleet)
        self.replies("f1 at 1 2 60 = onmap\nf1 done 1 = picked 7\nf1 at 1 4 211 = late 1\n", begun, fleet)
        self.assertEqual(verdict(begun.replace("600 300", "600 150"), fleet), "yes")
        self.assertEqual(verdict(begun.replace("600 300", "600 149"), fleet), "no 5 seating")

    def test_the_day_is_over(self):
        fleet = "set batch 1\nset dwell 3600\nset penalty 10000\nvehicle 1 2 2 0\n"
        self.replies("f1 at 1 2 1000000000 = late 1000000000 broken 7\nf1 done 1 = picked 7\nf1 at 1 2 1000000000 = "
                     "refused 12\n", BEGUN.replace("600 300", "100 100000").replace("180", "3720"), fleet)

    def test_chairs(self):
        fleet = "set batch 1\nset log 2\nvehicle 1 2 1 0 1\n"
        begun = BEGUN.replace("log 1", "log 2").replace("1 600 300", "0 600 300 1")
        self.replies("""f1 request 9 3 4 0 600 300 1 = waiting
f1 batch = asked 2
d1 open 2 at 0 requests 9 plans 1@1
d1 commit 2 cost 120 seats 9:1:2:2 prices 9:120 pays outcomes 9:confirmed
f1 request 11 2 4 0 600 300 0 = refused 4
""", begun, fleet)
        self.assertEqual(verdict(begun.replace("300 1 =", "300 ="), fleet), "no 2 spelling")

    def test_requests_end_at_100000(self):
        lines = "".join(f"f1 request {name} 2 4 1 600 300 = waiting\n" for name in range(100_000))
        for reply, expected in (("refused 6", "yes"), ("waiting", "no 100002 reply")):
            last = f"f1 request 100000 2 4 1 600 300 = {reply}\nf1 request 5 2 4 1 600 300 = refused 1\n"
            self.assertEqual(verdict("log 1 feeds 1 desks 1\n" + lines + last), expected)

    def test_asks_end_at_2000(self):
        asks = "".join(f"f1 batch = asked {count}\n" for count in range(1, 2001))
        self.assertEqual(verdict("log 1 feeds 1 desks 1\n" + asks + "f1 batch = refused 16\n"), "yes")
        self.assertEqual(verdict("log 1 feeds 1 desks 1\n" + asks + "f1 batch = asked 2001\n"), "no 2002 reply")


class Commits(unittest.TestCase):
    """Seatings, prices and outcomes that a commit may have."""

    def test_two_riders_want_one_vehicle(self):
        log = """log 1 feeds 1 desks 1
f1 request 7 2 4 1 600 300 = waiting
f1 request 8 4 3 1 600 300 = waiting
f1 batch = asked 1
d1 open 1 at 0 requests 7 8 plans 1@0
d1 commit 1 cost 3780 seats 7:1:0:0 prices 7:3540 8:3600 pays 1:3360 outcomes 7:confirmed 8:away
"""
        self.assertEqual(verdict(log), "yes")
        self.assertEqual(verdict(log.replace("7:3540 8:3600 pays 1:3360", "7:3539 8:3600 pays 1:3359")), "no 6 prices")
        self.assertEqual(verdict(log.replace("7:3540 8:3600 pays 1:3360", "8:3600 7:3540 pays 1:3360")), "no 6 prices")

    def test_the_nearest_vehicle_is_not_always_the_best(self):
        fleet = "vehicle 1 2 1 0\nvehicle 2 2 4 0\n"
        log = """log 1 feeds 1 desks 1
f1 request 5 2 1 1 600 300 = waiting
f1 request 6 1 2 1 600 300 = waiting
f1 batch = asked 1
d1 open 1 at 0 requests 5 6 plans 1@0 2@0
d1 commit 1 cost 240 seats 5:2:0:0 6:1:0:0 prices 5:180 6:120 pays 1:60 outcomes 5:confirmed 6:confirmed
"""
        self.assertEqual(verdict(log, fleet), "yes")
        greedy = log.replace("cost 240 seats 5:2:0:0 6:1:0:0", "cost 360 seats 5:1:0:0 6:2:0:0")
        self.assertEqual(verdict(greedy, fleet), "no 6 prices")
        self.assertEqual(verdict(log.replace("seats 5:2:0:0 6:1:0:0", "seats 6:1:0:0 5:2:0:0"), fleet), "no 6 seating")
        self.assertEqual(verdict(log.replace("5:2:0:0", "5:1:0:0"), fleet), "no 6 seating")

    def test_places_of_equal_cost(self):
        after = BEGUN + "f1 request 9 3 4 1 600 300 = waiting\nf1 batch = asked 2\nd1 open 2 at 0 requests 9 plans 1@1\n"
        commit = "d1 commit 2 cost 0 seats 9:1:1:1 prices 9:0 pays outcomes 9:confirmed\n"
        self.assertEqual(verdict(after + commit), "yes")
        self.assertEqual(verdict(after + commit.replace("1:1:1", "1:1:2")), "yes")
        self.assertEqual(verdict(after + commit.replace("1:1:1", "1:2:2")), "no 9 seating")
        dear = commit.replace("cost 0 seats 9:1:1:1 prices 9:0", "cost 120 seats 9:1:2:2 prices 9:120")
        self.assertEqual(verdict(after + dear), "no 9 prices")

    def test_one_seat_is_not_shared(self):
        after = (BEGUN + "f1 request 10 1 3 1 600 300 = waiting\nf1 batch = asked 2\n"
                 "d1 open 2 at 0 requests 10 plans 1@1\n"
                 "d1 commit 2 cost 120 seats 10:1:0:0 prices 10:120 pays outcomes 10:confirmed\n")
        self.assertEqual(verdict(after, "vehicle 1 1 1 0\n"), "yes")
        self.assertEqual(verdict(after), "no 9 prices")

    def test_limits_of_pickup_and_ride(self):
        for limits, expected in (("600 120", "yes"), ("600 119", "no 5 seating"), ("60 300", "yes"),
                                 ("59 300", "no 5 seating")):
            with self.subTest(limits):
                self.assertEqual(verdict(BEGUN.replace("600 300", limits)), expected)

    def test_a_seat_that_costs_the_penalty(self):
        away = BEGUN.replace("seats 7:1:0:0", "seats").replace("7:confirmed", "7:away")
        self.assertEqual(verdict(BEGUN, "set penalty 180\n" + FLEET), "yes")
        self.assertEqual(verdict(away, "set penalty 180\n" + FLEET), "yes")
        self.assertEqual(verdict(BEGUN, "set penalty 179\n" + FLEET), "no 5 prices")

    def test_waiting_has_a_weight(self):
        self.assertEqual(verdict(BEGUN.replace("180", "300"), "set wait 2\n" + FLEET), "yes")

    def test_the_clock_has_passed_a_vehicle(self):
        away = """f1 clock 30 = now 30
f1 request 9 3 4 1 600 300 = waiting
f1 batch = asked 2
d1 open 2 at 30 requests 9 plans 1@1
d1 commit 2 cost 3600 seats prices 9:3600 pays outcomes 9:away
f1 at 1 2 60 = onmap
f1 request 10 3 4 1 600 300 = waiting
f1 batch = asked 3
d1 open 3 at 30 requests 10 plans 1@2
d1 commit 3 cost 0 seats 10:1:1:1 prices 10:0 pays outcomes 10:confirmed
"""
        self.assertEqual(verdict(BEGUN + away), "yes")

    def test_sixteen_stops(self):
        lines = ["log 1 feeds 1 desks 1"]
        for name in range(1, 10):
            lines += [f"f1 request {name} 2 4 1 600 300 = waiting", f"f1 batch = asked {name}",
                      f"d1 open {name} at 0 requests {name} plans 1@{name - 1}"]
            cost = 180 if name == 1 else 0
            lines.append(f"d1 commit {name} cost {cost} seats {name}:1:0:{min(name - 1, 1) * (name - 1)} "
                         f"prices {name}:{cost} pays outcomes {name}:confirmed")
        lines[-1] = "d1 commit 9 cost 3600 seats prices 9:3600 pays outcomes 9:away"
        self.assertEqual(verdict("\n".join(lines) + "\n", "vehicle 1 16 1 0\n"), "yes")


class Outcomes(unittest.TestCase):
    """Outcomes other than confirmed and away, and batches that are given up."""

    def test_a_plan_moves_while_its_batch_is_open(self):
        log = """log 1 feeds 2 desks 1
f1 request 7 2 4 1 600 300 = waiting
f1 batch = asked 1
d1 open 1 at 0 requests 7 plans 1@0
f2 at 1 1 5 = onmap
d1 commit 1 cost 180 seats 7:1:0:0 prices 7:180 pays outcomes 7:moved:0:1
f1 batch = asked 2
d1 open 2 at 0 requests 7 plans 1@1
d1 commit 2 cost 180 seats 7:1:0:0 prices 7:180 pays outcomes 7:confirmed
"""
        self.assertEqual(verdict(log), "yes")
        self.assertEqual(verdict(log.replace("7:moved:0:1", "7:confirmed")), "no 6 outcomes")

    def test_the_clock_passes_the_start(self):
        log = """log 1 feeds 2 desks 1
f1 request 7 2 4 1 600 300 = waiting
f1 batch = asked 1
d1 open 1 at 0 requests 7 plans 1@0
f2 clock 20 = now 20
d1 commit 1 cost 180 seats 7:1:0:0 prices 7:180 pays outcomes 7:behind:10:20
f1 batch = asked 2
d1 open 2 at 20 requests 7 plans 1@0
d1 commit 2 cost 180 seats 7:1:0:0 prices 7:180 pays outcomes 7:confirmed
"""
        self.assertEqual(verdict(log, "set lead 10\n" + FLEET), "yes")

    def test_two_desks_want_one_vehicle(self):
        log = """log 1 feeds 1 desks 2
f1 request 7 2 4 1 600 300 = waiting
f1 request 8 4 3 1 600 300 = waiting
f1 batch = asked 1
f1 batch = asked 2
d1 open 1 at 0 requests 7 plans 1@0
d2 open 2 at 0 requests 8 plans 1@0
d1 commit 1 cost 180 seats 7:1:0:0 prices 7:180 pays outcomes 7:confirmed
d2 commit 2 cost 240 seats 8:1:0:0 prices 8:240 pays outcomes 8:moved:0:1
"""
        self.assertEqual(verdict(log, ONE_A_BATCH), "yes")
        self.assertEqual(verdict(log.replace("d2 open 2", "d1 open 2"), ONE_A_BATCH), "no 7 actor")
        self.assertEqual(verdict(log.replace("d2 commit 2", "d1 commit 2"), ONE_A_BATCH), "no 9 actor")

    def test_cancelled_in_an_open_batch(self):
        log = LOG.replace("d1 commit", "f1 cancel 7 = cancelled\nd1 commit").replace("7:confirmed", "7:gone")
        self.assertEqual(verdict(log), "yes")

    def test_a_batch_that_is_given_up_waits_again_in_its_place(self):
        log = """log 1 feeds 1 desks 1
f1 request 7 2 4 1 600 300 = waiting
f1 request 8 2 4 1 600 300 = waiting
f1 batch = asked 1
d1 open 1 at 0 requests 7 plans 1@0
d1 abandon 1
f1 batch = asked 2
d1 open 2 at 0 requests 7 plans 1@0
f1 cancel 7 = cancelled
d1 abandon 2
f1 batch = asked 3
d1 open 3 at 0 requests 8 plans 1@0
d1 abandon 3
f1 end
d1 end
"""
        self.assertEqual(answer(log, ONE_A_BATCH),
                         ("yes entries 14 confirmed 0 away 0 picked 0 dropped 0 finished no", 0))


if __name__ == "__main__":
    unittest.main()
