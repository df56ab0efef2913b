"""Tests of osm_to_gr over a corner of a made town, whose distances can be worked out by hand."""
import contextlib
import io
import os
import sys
import tempfile
import unittest
from pathlib import Path

HERE = os.path.dirname(os.path.abspath(__file__))
sys.path.insert(0, os.path.dirname(HERE))

import osm_to_gr  # noqa: E402
import road_network  # noqa: E402

try:
    import osmium
except ImportError:  # pyosmium is not installed
    osmium = None

CORNER = os.path.join(HERE, "data", "corner.osm")

# 500 metres take 60 seconds at 30 and 36 at 50; 1,000 metres take 120 at 30 and 75 at 30 miles an hour.
STREETS = {
    (101, 102): 60, (102, 101): 60, (102, 103): 60, (103, 102): 60,
    (104, 105): 36, (105, 104): 36, (105, 106): 36, (106, 105): 36,
    (101, 104): 120, (104, 101): 120, (105, 102): 120, (103, 106): 75, (106, 103): 75, (104, 107): 60, (107, 104): 60,
}


@unittest.skipIf(osmium is None, "pyosmium is not installed")
class Corner(unittest.TestCase):
    def setUp(self):
        with tempfile.TemporaryDirectory() as folder, contextlib.redirect_stdout(io.StringIO()):
            self.status = osm_to_gr.main([CORNER, f"{folder}/map.gr", f"{folder}/table"])
            self.map = Path(f"{folder}/map.gr").read_text().splitlines()
            self.table = [line.split() for line in Path(f"{folder}/table").read_text().splitlines()]

    def test_streets(self):
        self.assertEqual(self.status, 0)
        ids = {fields[0]: int(fields[1]) for fields in self.table[1:]}
        arcs = [line.split()[1:] for line in self.map if line.startswith("a ")]
        self.assertEqual({(ids[tail], ids[head]): int(seconds) for tail, head, seconds in arcs}, STREETS)

    def test_the_problem_line(self):
        self.assertEqual([line for line in self.map if line.startswith("p")], ["p sp 7 15"])

    def test_the_table(self):
        self.assertEqual(self.table[0], ["node", "osm_id", "latitude", "longitude"])
        self.assertEqual(self.table[2], ["2", "102", "0.0000000", "10.0045000"])
        self.assertEqual([fields[1] for fields in self.table[1:]], ["101", "102", "103", "104", "105", "106", "107"])


class Tags(unittest.TestCase):
    def test_speeds(self):
        for maxspeed, speed in (("50", 50), ("30 mph", 30 * 1.609344), ("walk", 7), ("none", 130), ("signals", 30), ("0", 30), ("nan", 30), ("0.001", 30), ("9999", 30), ("", 30)):
            tags = {"highway": "residential", "maxspeed": maxspeed} if maxspeed else {"highway": "residential"}
            self.assertAlmostEqual(road_network.speed_of(tags), speed, msg=maxspeed)

    def test_directions(self):
        for tags, directions in (({}, (True, True)), ({"oneway": "yes"}, (True, False)), ({"oneway": "-1"}, (False, True)),
                                 ({"junction": "roundabout"}, (True, False)), ({"highway": "motorway"}, (True, False)),
                                 ({"highway": "motorway", "oneway": "no"}, (True, True))):
            self.assertEqual(road_network.directions_of({"highway": "residential", **tags}), directions, tags)

    def test_who_may_drive(self):
        for tags, is_open in (({}, True), ({"access": "private"}, False), ({"access": "no", "motor_vehicle": "yes"}, True),
                              ({"motor_vehicle": "no"}, False), ({"highway": "footway"}, False), ({"area": "yes"}, False)):
            self.assertEqual(road_network.is_open({"highway": "residential", **tags}), is_open, tags)


class Parts(unittest.TestCase):
    def test_two_rings_with_a_way_from_one_to_the_other(self):
        rings = {1: {2: 1}, 2: {3: 1}, 3: {1: 1, 4: 1}, 4: {5: 1}, 5: {4: 1}}
        self.assertEqual(road_network.strongly_connected(rings), {1, 2, 3})

    def test_a_row_of_one_way(self):
        self.assertEqual(len(road_network.strongly_connected({1: {2: 1}, 2: {3: 1}, 3: {}})), 1)

    def test_a_long_ring(self):
        ring = {node: {(node + 1) % 50_000: 1} for node in range(50_000)}
        self.assertEqual(len(road_network.strongly_connected(ring)), 50_000)


if __name__ == "__main__":
    unittest.main()
