"""Roads, and what a zone's view tells riders, drivers and the office."""
import json
import unittest
from typing import Dict, List, Optional

from room_tests import ROOT, ROW_LOG, WithFolder

from player.files import InputError
from trip_log import committed_batch, read_fleet

from control_room.chart import read_chart
from control_room.views import Times, counters, office_picture, plan_times, request_view, vehicle_view, waiting_marks
from control_room.watch import Watch, alarms, silent_view
from control_room.zone_view import ZoneView, away_reason


def told(first: int, lines: List[str], of: Optional[Dict[int, List[str]]] = None, moment: int = 5_000) -> bytes:
    """Returns a message of a stream of the log."""
    return json.dumps({"first": first, "lines": lines, "of": {str(number): list(origin) for number, origin in (of or {}).items()},
                       "moment": moment}).encode()


class Maps(WithFolder):
    def test_times_and_ways_along_a_row(self) -> None:
        chart = read_chart(self.row_zone().map)
        self.assertEqual(chart.seconds(1, 4), 180)
        self.assertEqual(chart.way(4, 1), [4, 3, 2, 1])
        self.assertEqual(chart.places, [(0.0, 0.0), (1.0, 0.0), (0.0, 1.0), (1.0, 1.0)])

    def test_the_least_of_parallel_roads_and_no_way(self) -> None:
        path = self.folder / "map.gr"
        path.write_text("c two roads there, none back\np sp 3 3\na 1 2 50\na 1 2 40\na 2 2 1\n")
        (self.folder / "nodes.co").write_text("p aux sp co 3\nv 1 10 20\nv 2 30 40\nv 3 0 0\n")
        chart = read_chart(str(path), str(self.folder / "nodes.co"))
        self.assertEqual((chart.seconds(1, 2), chart.seconds(2, 1), chart.way(2, 1)), (40, None, []))
        self.assertEqual(chart.places[:2], [(10.0, -20.0), (30.0, -40.0)])

    def test_the_town_s_travel_time_of_the_worked_morning(self) -> None:
        # examples/README.md: from the Station to the Hospital are 360 seconds, from the Town Hall to the Mill 55.
        chart = read_chart(str(ROOT / "examples/map.gr"), None, 6)
        self.assertEqual((chart.seconds(1, 6), chart.seconds(9, 3)), (360, 55))
        self.assertEqual(chart.places[6], (0.0, 1.0))

    def test_what_is_no_map(self) -> None:
        for text in (b"", b"\x00\xff", b"a 1 2 3\n", b"p sp 2 1\na 1 5 9\n", b"p sp x y\n"):
            (self.folder / "map.gr").write_bytes(text)
            with self.assertRaises(InputError):
                read_chart(str(self.folder / "map.gr"))
        (self.folder / "nodes.co").write_text("v 9 1 1\n")
        with self.assertRaises(InputError):
            read_chart(self.row_zone().map, str(self.folder / "nodes.co"))


class Views(WithFolder):
    def setUp(self) -> None:
        super().setUp()
        self.zone = self.row_zone()
        self.chart = read_chart(self.zone.map)
        self.times = Times(self.zone.clock())
        self.view = ZoneView(read_fleet(self.zone.fleet))

    def read(self, *lines: str) -> None:
        self.view.take(told(self.view.log.lines + 1, list(lines)))

    def test_lines_count_once_and_in_order(self) -> None:
        self.assertEqual(self.view.take(told(1, ROW_LOG[:2])), [])
        self.view.take(told(4, ROW_LOG[3:4]))  # line 3 is missing: it is told again later
        self.assertEqual(self.view.log.lines, 2)
        answers = self.view.take(told(1, ROW_LOG[:4], {4: ["m", "rider:ada"]}))
        self.assertEqual([(one.name, one.number, one.code) for one in answers], [("rider:ada m", 4, None)])
        self.assertEqual(self.view.take(told(3, ROW_LOG[2:4], {4: ["m", "rider:ada"]})), [])
        self.assertEqual((self.view.log.lines, self.view.asked_by), (4, {"rider:ada": [1]}))

    def test_a_message_s_first_answer_stands(self) -> None:
        self.view.take(told(1, ROW_LOG[:3] + ["f1 cancel 5 = refused 7", "f1 bad 3"], {4: ["m", "rider:ada"], 5: ["m", "rider:ada"]}))
        answers = [self.view.answer_to(who, "m") for who in ("rider:ada", "rider:bob")]
        self.assertEqual([answer and (answer.code, answer.number) for answer in answers], [(7, 4), None])

    def test_a_rider_from_waiting_to_the_drop_off(self) -> None:
        self.read(*ROW_LOG[:4])
        self.assertEqual(request_view(self.view, self.chart, self.times, 1)["state"], "waiting")
        self.assertEqual(waiting_marks(self.view), [[1, 2, 3, 1, 100, 400, 0]])
        self.read(*ROW_LOG[4:])
        said = request_view(self.view, self.chart, self.times, 1)
        # Vehicle 1 leaves 1 at 100, is at 2 after 60 seconds, stands for 20 and drives 60 more.
        self.assertEqual((said["state"], said["vehicle"], said["estimated_pickup"]["second"], said["estimated_arrival"]["second"]),
                         ("confirmed", 1, 160, 240))
        # 300 seconds of a day that is ten times as fast as life.
        self.assertEqual(said["latest_pickup"], {"second": 400, "time": "1970-01-01T00:17:10.000Z"})
        self.read("f2 at 1 2 190 = late 30", "f2 done 1 = picked 1")
        said = request_view(self.view, self.chart, self.times, 1)
        self.assertEqual((said["state"], said["picked_up"]["second"], said["estimated_arrival"]["second"], said.get("estimated_pickup")),
                         ("aboard", 190, 270, None))
        self.read("f2 at 1 3 270 = onmap", "f2 done 1 = dropped 1")
        said = request_view(self.view, self.chart, self.times, 1)
        self.assertEqual((said["state"], said["dropped_off"]["second"]), ("dropped", 270))
        self.assertEqual([(one.vehicle, one.seconds, one.broken) for one in self.view.late], [(1, 30, ())])

    def test_a_rider_who_is_away_hears_what_the_log_allows(self) -> None:
        self.read(*ROW_LOG)
        self.assertEqual(request_view(self.view, self.chart, self.times, 2)["reason"],
                         "No vehicle could take this ride within all limits for less than 900.")
        commit = committed_batch("9 cost 1300 seats 7:5:0:0 prices 7:590 8:900 pays 5:190 outcomes 7:confirmed 8:away".split())
        self.assertIn("perhaps 5, whose seats were worth more", away_reason(commit, 900))

    def test_a_driver_s_plan(self) -> None:
        self.read(*ROW_LOG)
        plan = vehicle_view(self.view, self.chart, self.times, 1)
        self.assertEqual([(stop["what"], stop["node"], stop["due"]["second"]) for stop in plan["stops"]],
                         [("pickup", 2, 160), ("drop-off", 3, 240)])
        self.assertEqual((plan["way"], plan["version"], plan["stops"][0]["latest"]["second"]), ([1, 2], 1, 400))
        self.assertEqual(plan_times(self.view.log.vehicles[2], 20, self.chart), [])

    def test_the_office_s_picture(self) -> None:
        self.read(*ROW_LOG, "f2 at 1 2 160 = onmap", "f1 clock 170 = now 170")
        self.assertEqual(office_picture(self.view, [1])["vehicles"], [[1, 2, 160, 1, 100, 1, 2, [[1, 1, 2], [1, 0, 3]]]])
        count = counters(self.view)
        self.assertEqual([count[name] for name in ("requests", "confirmed", "away", "driving", "idle", "opened", "committed", "refused")],
                         [2, 1, 1, 1, 1, 1, 1, 0])
        self.assertEqual(silent_view(self.view), {"count": 1, "vehicles": [{"vehicle": 1, "seconds": 10}]})
        vehicles, requests = self.view.take_changes()
        self.assertEqual((vehicles, requests), ({1}, {1, 2}))
        self.assertEqual(self.view.take_changes(), (set(), set()))

    def test_what_runs_out_and_when(self) -> None:
        watch = Watch()
        self.read(*ROW_LOG[:3])
        watch.mark(self.view, 100.0)
        self.read(*ROW_LOG[3:])
        watch.mark(self.view, 110.0)
        rooms = {room["name"]: room for room in watch.rooms(self.view)}
        # One batch in ten seconds: 1,999 more take 19,990; two requests: 99,998 more take 499,990.
        self.assertEqual(rooms["batches"], {"name": "batches", "used": 1, "most": 2_000, "seconds_left": 19_990})
        self.assertEqual(rooms["requests"]["seconds_left"], 499_990)
        self.assertIsNone(rooms["drivers' lines"]["seconds_left"])

    def test_what_needs_a_human(self) -> None:
        self.read(*ROW_LOG)
        self.assertEqual(alarms(self.view, 1.0), [])
        self.assertIn("No line of the log for 16 s", alarms(self.view, 16.0)[0])
        self.read("f1 batch = asked 2", "f1 batch = asked 3")
        self.assertIn("The desk falls behind: 2", alarms(self.view, 1.0)[0])
        said = {"said": "no 7 prices", "status": 7}
        self.assertEqual(alarms(self.view, 1.0, said)[1], "The audit says of the kept log: no 7 prices")


if __name__ == "__main__":
    unittest.main()
