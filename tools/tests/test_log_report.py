"""Tests of what trip_log.py prints: times by plan, reasons and JSON, over a row of four crossings by hand and the morning of examples/."""
import json
import os
import tempfile
import unittest
from typing import List

from files_at_hand import ABOARD, EXAMPLES, ONE_VEHICLE, ROW_MAP, run, written

import log_report

MORNING = [os.path.join(EXAMPLES, name) for name in ("morning.log", "fleet.txt", "map.gr")]
# One vehicle, and a batch of two of which one is left out.
TURNED_AWAY = """\
log 1 feeds 1 desks 1
f1 request 7 2 4 1 600 300 = waiting
f1 request 8 4 3 1 {latest} 300 = waiting
f1 batch = asked 1
d1 open 1 at 0 requests 7 8 plans 1@0
d1 commit 1 cost 3780 seats 7:1:0:0 prices 7:{price} 8:3600 pays {pays} outcomes 7:confirmed 8:away
"""
OFF_DUTY = """\
log 1 feeds 1 desks 1
f1 off 1 = duty
f1 request 7 2 4 1 600 300 = waiting
f1 batch = asked 1
d1 open 1 at 0 requests 7 plans 1@1
d1 commit 1 cost 3600 seats prices 7:3600 pays outcomes 7:away
"""


class Reports(unittest.TestCase):
    def setUp(self) -> None:
        scratch = tempfile.TemporaryDirectory()
        self.addCleanup(scratch.cleanup)
        self.folder = scratch.name
        self.files = [written(self.folder, "fleet.txt", ONE_VEHICLE), written(self.folder, "map.gr", ROW_MAP)]

    def report(self, text: str, *options: str, files: int = 2) -> List[str]:
        status, out, said = run(log_report.main, [written(self.folder, "log", text), *self.files[:files], *options])
        self.assertEqual((status, said), (0, ""))
        return out.splitlines()

    def test_times_by_plan(self) -> None:
        # From 2 at 60: to 4 in 120 s, where 9 gets in as 7 gets out, and on to 3 in 60 s.
        lines = self.report(ABOARD, "--requests")
        self.assertEqual(lines[2:], ["vehicle 1, version 4, at 2 from 60: -7@4 at 180, +9@4 at 180, -9@3 at 240",
                                     "request 7: aboard, vehicle 1, picked up at 60, arrival at 180",
                                     "request 9: confirmed, vehicle 1, pickup at 180, by 600 at the latest, arrival at 240"])

    def test_a_vehicle_stands_at_each_stop(self) -> None:
        # It leaves 2 at 90, arrives at 210, leaves at 240 and again stands 30 s between the two stops at 4.
        self.files[0] = written(self.folder, "fleet.txt", "set dwell 30\n" + ONE_VEHICLE)
        self.assertEqual(self.report(ABOARD)[2], "vehicle 1, version 4, at 2 from 90: -7@4 at 210, +9@4 at 240, -9@3 at 330")

    def test_without_the_map_no_time_is_said(self) -> None:
        lines = self.report(ABOARD, "--requests", files=1)
        self.assertEqual(lines[2:], ["vehicle 1, version 4, at 2 from 60: -7@4 +9@4 -9@3", "request 7: aboard, vehicle 1, picked up at 60",
                                     "request 9: confirmed, vehicle 1, by 600 at the latest"])

    def test_json(self) -> None:
        told = json.loads("\n".join(self.report(ABOARD, "--json")))
        self.assertEqual((told["entries"], told["finished"], told["torn_line"], told["waiting"]), (10, False, None, []))
        self.assertEqual(told["vehicles"][0]["stops"][1], {"request": 9, "pickup": True, "node": 4, "time": 180})
        ride = told["requests"][1]
        self.assertEqual((ride["state"], ride["pickup_by_plan"], ride["arrival_by_plan"], ride["why_away"]), ("confirmed", 180, 240, None))

    def test_reasons_by_the_map(self) -> None:
        # 8 is 180 s away: with LATEST 100 nobody can be there, with 600 the only vehicle is worth more to 7.
        self.assertIn("request 8: away, limits: no open vehicle could be at the pickup in time",
                      self.report(TURNED_AWAY.format(latest=100, price=180, pays=""), "--requests"))
        self.assertIn("request 8: away, price: the vehicles were worth more to others of the batch",
                      self.report(TURNED_AWAY.format(latest=600, price=3540, pays="1:3360"), "--requests"))
        self.files[0] = written(self.folder, "fleet.txt", "set penalty 200\n" + ONE_VEHICLE)
        self.assertIn("request 8: away, price: the cheapest seat would have cost the penalty or more",
                      self.report(TURNED_AWAY.format(latest=600, price=180, pays="").replace("3600", "200"), "--requests"))
        self.assertIn("request 7: away, no vehicle was open", self.report(OFF_DUTY, "--requests"))

    def test_reasons_by_the_log_alone(self) -> None:
        self.assertIn("request 8: away, limits or price: no seat within all limits would have cost less than the penalty",
                      self.report(TURNED_AWAY.format(latest=100, price=180, pays=""), "--requests", files=0))
        said = self.report(TURNED_AWAY.format(latest=600, price=3540, pays="1:3360"), "--requests", files=0)[-1]
        self.assertIn("or it was in a vehicle that others wanted more (1)", said)
        self.assertIn("request 7: away, no vehicle was open", self.report(OFF_DUTY, "--requests", files=0))

    def test_a_driving_vehicle_whose_last_second_is_past_is_closed(self) -> None:
        late = ABOARD.split("f1 request 9")[0] + """\
f1 clock 61 = now 61
f1 request 9 4 3 1 600 300 = waiting
f1 batch = asked 2
d1 open 2 at 61 requests 9 plans 1@3
d1 commit 2 cost 3600 seats prices 9:3600 pays outcomes 9:away
"""
        for files in (1, 2):
            self.assertIn("request 9: away, no vehicle was open", self.report(late, "--requests", files=files))

    def test_a_torn_log_is_told_up_to_its_last_whole_line(self) -> None:
        path = written(self.folder, "log", ABOARD + "f1 at 1 4 1")
        status, out, said = run(log_report.main, [path, *self.files])
        self.assertEqual((status, out.splitlines()), (0, self.report(ABOARD)))
        path = written(self.folder, "log", ABOARD + "f1 at 1 4 1")
        self.assertEqual(said, f"{path}:12: this line has no end; what stands before it is told\n")
        self.assertEqual(json.loads(run(log_report.main, [path, *self.files, "--json"])[1])["torn_line"], 12)


class Morning(unittest.TestCase):
    def test_what_the_guide_prints(self) -> None:
        status, out, _ = run(log_report.main, MORNING[:2])
        self.assertEqual((status, out.splitlines()[:3]), (0, ["entries 57 confirmed 8 away 1 picked 5 dropped 5 finished yes",
                                                              "clock 26100, waiting: nobody", "vehicle 1, version 8, at 6 from 25645: idle"]))

    def test_the_rides_to_come(self) -> None:
        # The last commit prices 111 at 545: 370 seconds of driving, of which 175 are to the pickup, and 175 of waiting.
        status, out, _ = run(log_report.main, [*MORNING, "--requests"])
        self.assertEqual(status, 0)
        self.assertIn("request 111: confirmed, vehicle 3, pickup at 26275, by 26700 at the latest, arrival at 26470\n", out)
        self.assertIn("request 109: away, limits: no open vehicle could be at the pickup in time\n", out)


if __name__ == "__main__":
    unittest.main()
