"""Tests of trip_log: the morning of examples/, and short logs written by hand."""
import os
import sys
import unittest

HERE = os.path.dirname(os.path.abspath(__file__))
ROOT = os.path.dirname(os.path.dirname(HERE))
sys.path.insert(0, os.path.dirname(HERE))

from trip_log import LogError, Outcome, State, Stop, TripLog, read_fleet, read_log  # noqa: E402

MORNING = os.path.join(ROOT, "examples", "morning.log")
FLEET = os.path.join(ROOT, "examples", "fleet.txt")
HEAD = "log 1 feeds 2 desks 1\n"

# Two riders share vehicle 1: rider 8 gets in and out between the pickup and the drop-off of rider 7.
POOLED = HEAD + """\
f1 request 7 2 5 1 600 900 = waiting
f1 batch = asked 1
d1 open 1 at 0 requests 7 plans 1@0 2@0
d1 commit 1 cost 180 seats 7:1:0:0 prices 7:180 pays outcomes 7:confirmed
f1 request 8 3 4 1 600 900 = waiting
f1 batch = asked 2
d1 open 2 at 0 requests 8 plans 1@1 2@0
d1 commit 2 cost 0 seats 8:1:1:1 prices 8:0 pays outcomes 8:confirmed
"""


def read(text):
    log = TripLog()
    for line in text.splitlines(keepends=True):
        log.read(line)
    return log


def plan(log, vehicle):
    """The plan as text, +7 a pickup and -7 a drop-off."""
    return " ".join(f"{'+' if stop.pickup else '-'}{stop.request}" for stop in log.vehicles[vehicle].stops)


class Morning(unittest.TestCase):
    def test_totals_are_those_of_the_audit(self):
        self.assertEqual(read_log(MORNING).totals(), "entries 57 confirmed 8 away 1 picked 5 dropped 5 finished yes")

    def test_plans_at_the_end(self):
        log = read_log(MORNING, read_fleet(FLEET))
        self.assertEqual(log.vehicles[3].stops, [Stop(111, True, 27), Stop(111, False, 23)])
        self.assertEqual((log.vehicles[1].at, log.vehicles[1].ready, log.vehicles[1].version), (6, 25645, 8))
        self.assertEqual((log.vehicles[3].at, log.vehicles[3].ready), (23, 26100))

    def test_each_version_is_that_of_the_log(self):
        # Reading raises where an open line names another version, so that each prefix is read.
        self.assertEqual(read_log(MORNING).opened, 5)

    def test_states_of_requests(self):
        log = read_log(MORNING)
        states = {request.id: request.state for request in log.requests.values()}
        self.assertEqual(states[101], State.DONE)
        self.assertEqual(states[106], State.CANCELLED)
        self.assertEqual(states[108], State.CANCELLED)
        self.assertEqual(states[109], State.AWAY)
        self.assertEqual(states[111], State.CONFIRMED)
        self.assertNotIn(107, states)
        self.assertEqual([id for id, request in log.requests.items() if request.broken], [103])

    def test_times_of_a_ride(self):
        ride = read_log(MORNING).requests[105]
        self.assertEqual((ride.asked_at, ride.confirmed_at, ride.picked_at, ride.dropped_at), (25260, 25260, 25685, 26110))
        self.assertEqual((ride.chairs, ride.vehicle), (1, 4))


class Plans(unittest.TestCase):
    def test_places_are_those_before_the_insertion(self):
        self.assertEqual(plan(read(POOLED), 1), "+7 +8 -8 -7")

    def test_pickup_first_and_drop_off_last(self):
        text = POOLED.replace("8:1:1:1", "8:1:0:2")
        self.assertEqual(plan(read(text), 1), "+8 +7 -7 -8")

    def test_both_at_the_end(self):
        text = POOLED.replace("8:1:1:1", "8:1:2:2")
        self.assertEqual(plan(read(text), 1), "+7 -7 +8 -8")

    def test_between(self):
        text = POOLED.replace("8:1:1:1", "8:1:0:1")
        self.assertEqual(plan(read(text), 1), "+8 +7 -8 -7")

    def test_a_freed_ride_leaves_the_plan(self):
        log = read(POOLED + "f1 cancel 7 = freed 1\n")
        self.assertEqual((plan(log, 1), log.vehicles[1].rides, log.vehicles[1].version), ("+8 -8", [8], 3))
        self.assertEqual(log.requests[7].state, State.CANCELLED)

    def test_stops_that_are_served_leave_the_plan(self):
        log = read(POOLED + "f2 at 1 2 100 = onmap\nf2 done 1 = picked 7\nf2 at 1 3 160 = onmap\nf2 done 1 = picked 8\n")
        self.assertEqual((plan(log, 1), log.vehicles[1].rides), ("-8 -7", [7, 8]))
        log.read("f2 at 1 4 230 = onmap\n")
        log.read("f2 done 1 = dropped 8\n")
        self.assertEqual((plan(log, 1), log.vehicles[1].rides, log.vehicles[1].version), ("-7", [7], 8))
        self.assertEqual((log.requests[8].picked_at, log.requests[8].dropped_at), (160, 230))

    def test_a_late_report_names_its_rides(self):
        log = read(POOLED + "f2 at 1 2 700 = late 90 broken 7 8\n")
        self.assertTrue(log.requests[7].broken and log.requests[8].broken)
        self.assertEqual(log.vehicles[1].ready, 700)
        self.assertFalse(read(POOLED + "f2 at 1 2 700 = late 90\n").requests[7].broken)

    def test_lead_and_dwell_come_from_the_fleet_file(self):
        fleet = read_fleet(FLEET)
        fleet.settings.update(lead=30, dwell=20)
        log = TripLog(fleet)
        for line in POOLED.replace(" 2@0", "").replace("at 0", "at 25300").splitlines(keepends=True)[:5]:
            log.read(line)
        self.assertEqual(log.vehicles[1].ready, 25330)
        log.read("f2 at 1 2 25400 = onmap\n")
        log.read("f2 done 1 = picked 7\n")
        self.assertEqual((log.vehicles[1].ready, log.requests[7].picked_at), (25420, 25400))


class Outcomes(unittest.TestCase):
    OPENED = HEAD + """\
f1 request 1 2 5 1 600 900 = waiting
f1 request 2 2 5 1 600 900 = waiting
f1 request 3 2 5 1 600 900 = waiting
f1 request 4 2 5 1 600 900 = waiting
f1 batch = asked 1
d1 open 1 at 0 requests 1 2 3 4 plans 1@0 2@0
"""

    def test_while_a_batch_is_open(self):
        log = read(self.OPENED)
        self.assertEqual({request.state for request in log.requests.values()}, {State.IN_BATCH})
        self.assertEqual((log.waiting(), log.open_batches[1].plans), ([1, 2, 3, 4], {1: 0, 2: 0}))

    def test_stale_pairs_wait_again(self):
        log = read(self.OPENED + "f1 cancel 4 = cancelled\nf2 at 1 2 5 = onmap\n"
                   "d1 commit 1 cost 9 seats 1:1:0:0 2:2:0:0 prices 1:3 2:3 3:3 4:3 pays 2:3 "
                   "outcomes 1:moved:0:1 2:behind:0:7 3:away 4:gone\n")
        self.assertEqual([request.state for request in log.requests.values()],
                         [State.WAITING, State.WAITING, State.AWAY, State.CANCELLED])
        self.assertEqual((log.waiting(), plan(log, 1), plan(log, 2), log.open_batches), ([1, 2], "", "", {}))

    def test_amounts_of_a_commit(self):
        log = read(self.OPENED)
        entry = log.read("d1 commit 1 cost 9 seats 1:1:0:0 prices 1:3 2:3 3:3 4:3 pays 1:3 outcomes 1:moved:0:1 2:away 3:away 4:away\n")
        self.assertEqual((entry.commit.cost, entry.commit.prices[2], entry.commit.pays), (9, 3, {1: 3}))
        self.assertEqual(entry.commit.outcomes[1], Outcome("moved", (0, 1)))

    def test_a_batch_that_is_given_up(self):
        log = read(self.OPENED + "f1 cancel 2 = cancelled\nd1 abandon 1\nf1 end\nf2 end\nd1 end\n")
        self.assertEqual(log.waiting(), [1, 3, 4])
        self.assertFalse(log.finished())

    def test_empty_lists(self):
        log = read(HEAD + "f1 batch = asked 1\nd1 open 1 at 0 requests plans\nd1 commit 1 cost 0 seats prices pays outcomes\n")
        self.assertEqual((log.opened, log.open_batches), (1, {}))


class Ends(unittest.TestCase):
    def test_finished(self):
        self.assertTrue(read(HEAD + "f1 end\nf2 end\nd1 end\n").finished())
        self.assertFalse(read(HEAD + "f1 end\nf2 cut\nd1 end\n").finished())
        self.assertFalse(read(HEAD + "f1 end\nf2 end\n").finished())

    def test_bad_lines_and_refusals_change_nothing(self):
        log = read(POOLED + "f1 bad 3\nf1 request 7 1 2 1 5 5 = refused 1\nf2 at 1 9 1 = refused 12\nf2 done 2 = refused 14\n")
        self.assertEqual((log.vehicles[1].version, log.vehicles[2].version, log.requests[7].origin), (2, 0, 2))
        self.assertEqual(log.replies["refused"], 3)


class Faults(unittest.TestCase):
    def refuses(self, text, why):
        with self.assertRaises(LogError) as caught:
            read(text)
        self.assertIn(why, str(caught.exception))

    def test_no_log(self):
        self.refuses("road 1\n", "line 1")
        self.refuses(HEAD + "f3 end\n", "line 2")
        self.refuses(HEAD + "f1 clock 5\n", "line 2")
        self.refuses(HEAD + "f1 clock 5 = said 5\n", "line 2")
        self.refuses(HEAD + "f1 cancel 5 = onmap\n", "line 2")

    def test_a_cut_line(self):
        self.refuses(HEAD + "f1 clock 5 = now", "cut")

    def test_another_version(self):
        self.refuses(POOLED + "f1 batch = asked 3\nd1 open 3 at 0 requests plans 1@3 2@0\n", "line 11: vehicle 1 has version 2, not 3")

    def test_another_first_stop(self):
        self.refuses(POOLED + "f2 done 1 = picked 8\n", "another first stop")
        self.refuses(POOLED + "f2 done 1 = dropped 7\n", "another first stop")

    def test_what_was_never_accepted(self):
        self.refuses(HEAD + "f1 cancel 5 = cancelled\n", "request 5 was not accepted")
        self.refuses(POOLED + "f1 cancel 8 = freed 2\n", "no ride 8")
        self.refuses(POOLED + "d1 commit 2 cost 0 seats prices pays outcomes\n", "batch 2 is not open")


if __name__ == "__main__":
    unittest.main()
