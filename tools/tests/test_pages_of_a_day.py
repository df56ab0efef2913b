"""Tests of the courses of vehicles, the picture of their routes and the page of a day, over a row of four crossings by hand."""
import json
import os
import tempfile
import unittest
import xml.dom.minidom

from files_at_hand import ABOARD, EXAMPLES, ONE_VEHICLE, ROW_MAP, run, written

import day_page
import route_picture
from courses import Movement, moments_of, movement_of
from log_reading import open_reading
from route_drawing import Piece, beside, pieces_of

MORNING = [os.path.join(EXAMPLES, name) for name in ("morning.log", "fleet.txt", "map.gr")]


class Courses(unittest.TestCase):
    def setUp(self) -> None:
        scratch = tempfile.TemporaryDirectory()
        self.addCleanup(scratch.cleanup)
        self.folder = scratch.name
        self.files = [written(self.folder, "fleet.txt", ONE_VEHICLE), written(self.folder, "map.gr", ROW_MAP)]

    def movement(self, text: str) -> Movement:
        return movement_of(open_reading(written(self.folder, "log", text), *self.files))

    def test_reports_and_then_the_plan(self) -> None:
        movement = self.movement(ABOARD)
        course = movement.courses[1]
        self.assertEqual(course.points, [(0, 1), (60, 2), (120, 3), (180, 4), (240, 3)])
        self.assertEqual((course.planned, course.loads), (2, [(0, 0), (60, 1), (180, 0), (180, 1), (240, 0)]))
        self.assertEqual((movement.begin, movement.end), (0, 240))

    def test_pieces_with_and_without_riders(self) -> None:
        self.assertEqual(pieces_of(self.movement(ABOARD).courses[1]),
                         [Piece(False, False, (1, 2)), Piece(True, True, (2, 3, 4, 3))])

    def test_an_idle_vehicle_leaves_so_that_it_arrives_in_time(self) -> None:
        movement = self.movement("log 1 feeds 1 desks 1\nf1 at 1 3 500 = onmap\n")
        self.assertEqual(movement.courses[1].points, [(0, 1), (380, 1), (440, 2), (500, 3)])

    def test_a_driving_vehicle_that_is_slow_goes_at_an_even_pace(self) -> None:
        # From 2 at 60 to 4, which takes 120 s, by 300: after 120 of 240 seconds it is at 3.
        movement = self.movement(ABOARD + "f1 at 1 4 300 = late 120\n")
        self.assertEqual(movement.courses[1].points[:4], [(0, 1), (60, 2), (180, 3), (300, 4)])
        self.assertEqual(movement.late, [(0, "vehicle 1 is late by 120 s")])

    def test_times_off_duty(self) -> None:
        text = "log 1 feeds 1 desks 1\nf1 clock 5 = now 5\nf1 off 1 = duty\nf1 off 1 = duty\nf1 clock 9 = now 9\nf1 on 1 = duty\nf1 off 1 = duty\n"
        self.assertEqual(self.movement(text).courses[1].off, [(5, 9), (9, None)])

    def test_moments(self) -> None:
        movement = self.movement(ABOARD + "f1 request 5 1 2 1 600 300 = waiting\nf1 cancel 5 = cancelled\n")
        requests = movement.reading.log.requests
        self.assertEqual(moments_of(movement, requests[9]), {"asked": 0, "promised": 0, "picked": 180, "dropped": 240, "ended": None})
        self.assertEqual(moments_of(movement, requests[5])["ended"], 0)

    def test_a_way_is_drawn_to_the_right(self) -> None:
        # East on a page whose y goes down: to the right is down. Where the way turns south its corner lies within the turn; where it
        # turns back it is drawn on both sides.
        self.assertEqual(beside([(0, 0), (10, 0)], 3), [(0, 3), (10, 3)])
        self.assertEqual(beside([(0, 0), (10, 0), (10, 10)], 3), [(0, 3), (7, 3), (7, 10)])
        self.assertEqual(beside([(0, 0), (10, 0), (0, 0)], 3), [(0, 3), (10, 3), (10, -3), (0, -3)])


class Written(unittest.TestCase):
    def test_routes_of_the_morning(self) -> None:
        with tempfile.TemporaryDirectory() as folder:
            out = f"{folder}/routes.svg"
            self.assertEqual(run(route_picture.main, [*MORNING, out, "--vehicles", "1", "4"]), (0, "", ""))
            page = xml.dom.minidom.parse(out)
            texts = [node.firstChild.data for node in page.getElementsByTagName("text")]
            self.assertIn("vehicle 4: 2 rides, 07:00 to 07:15", texts)
            for request in ("101", "103", "104", "105"):
                self.assertEqual(texts.count(request), 2, "a pickup and a drop-off")

    def test_the_morning_to_play(self) -> None:
        with tempfile.TemporaryDirectory() as folder:
            out = f"{folder}/day.html"
            self.assertEqual(run(day_page.main, [*MORNING, out]), (0, "", ""))
            with open(out, encoding="utf-8") as file:
                page = file.read()
        self.assertNotIn("src=", page)
        day = json.loads(page.split("const day = ", 1)[1].split(";\n", 1)[0])
        requests = {request["id"]: request for request in day["requests"]}
        self.assertEqual((requests[105]["asked"], requests[105]["picked"], requests[105]["dropped"]), (25260, 25685, 26110))
        self.assertEqual((requests[109]["promised"], requests[109]["ended"]), (None, 25500))
        self.assertIn([25260, "vehicle 5 off duty"], day["events"])
        self.assertEqual((day["begin"], day["logEnd"], len(day["places"])), (25200, 26100, 30))

    def test_a_torn_log_is_drawn_with_a_note(self) -> None:
        with tempfile.TemporaryDirectory() as folder:
            torn = written(folder, "log", ABOARD + "f1 at")
            files = [torn, written(folder, "fleet.txt", ONE_VEHICLE), written(folder, "map.gr", ROW_MAP), f"{folder}/out"]
            for main in (route_picture.main, day_page.main):
                status, _, said = run(main, files)
                self.assertEqual((status, said), (0, f"{torn}:12: this line has no end; what stands before it is told\n"))


if __name__ == "__main__":
    unittest.main()
