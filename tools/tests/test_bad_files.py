"""Each tool over each kind of bad file: one line, status 2."""
import itertools
import os
import tempfile
import unittest
from typing import Callable, Dict, List, Sequence, Tuple

from files_at_hand import ABOARD, ONE_VEHICLE, ROW_MAP, bad_files, run, written

import day_page
import day_picture
import log_report
import osm_to_gr
import route_picture

Words = Callable[[Dict[str, str], str], List[str]]

# Each tool by its words, where one of the files at hand is put in another's place, and OUT is a file to write.
LOG_TOOLS: Sequence[Tuple[str, Callable, Words]] = (
    ("trip_log", log_report.main, lambda at, out: [at["log"], at["fleet"], at["map"], "--requests"]),
    ("day_picture", day_picture.main, lambda at, out: [at["log"], out, at["fleet"], at["map"]]),
    ("route_picture", route_picture.main, lambda at, out: [at["log"], at["fleet"], at["map"], out, "--places", at["places"]]),
    ("day_page", day_page.main, lambda at, out: [at["log"], at["fleet"], at["map"], out, "--places", at["places"]]),
)

# What is no log though its first lines are, and what is said of it.
WRONG_LOGS = (
    ("log 1 feeds 1 desks 1\nf1 clock 5 = now\n", ":2: no line of a log"),
    ("log 1 feeds 9 desks 1\n", ":1: no head of a log"),
    ("log 1 feeds 1", "no whole line"),
    ("log 1 feeds 1 desks 1\nf1 on 8 = duty\n", ":2: vehicle 8 is not in the fleet file"),
    ("log 1 feeds 1 desks 1\nf1 request 7 2 5 1 600 300 = waiting\n", ":2: node 5 is not on the map (1 to 4)"),
    ("log 1 feeds 1 desks 1\nf1 request 7 0 4 1 600 300 = waiting\n", ":2: node 0 is not on the map (1 to 4)"),
    ("log 1 feeds 1 desks 1\nf1 at 1 5 9 = onmap\n", ":2: node 5 is not on the map"),
    ("log 1 feeds 1 desks 1\n" + "f1 clock 5 = now 5 " * 8000 + "\n", ":2: no line of a log: it has more than 131,072 bytes"),
    ("log 2 feeds 1 desks 1\n", ":1: the log is of version 2, and the fleet file's `log` is 1"),
    ("log 1 feeds 1 desks 1\nf1 batch = asked 1\nd1 open 1 at 0 requests plans\n", ":3: the batch has other vehicles than the fleet file"),
    (ABOARD + "f1 request 7 2 4 1 600 300 = waiting\n", ":12: request 7 was accepted before"),
    (ABOARD.replace("9:1:1:1", "9:1:1:5"), ":11: vehicle 1 has 1 stops, and no places 1 and 5"),
    (ABOARD.replace("1@3", "1@4"), ":10: vehicle 1 has version 3, not 4"),
)
WRONG_FLEETS = (("vehicle 1 2 1\n", ":1: no line of a fleet file"), ("set penlty 5\n" + ONE_VEHICLE, ":1: no such setting: penlty"),
                ("vehicle 1 2 9 0\n", "vehicle 1 stands at node 9, and the map has 1 to 4"), ("\nset drive x\n", ":2: no line of a fleet file"),
                ("set drive 2000\n" + ONE_VEHICLE, "drive 2000 is out of its range of 0 to 1000"), ("# none\n", "no vehicle stands in it"))


class BadFiles(unittest.TestCase):
    def setUp(self) -> None:
        self.scratch = tempfile.TemporaryDirectory()
        self.addCleanup(self.scratch.cleanup)
        folder = self.folder = self.scratch.name
        self.good = {"log": written(folder, "log", ABOARD), "fleet": written(folder, "fleet.txt", ONE_VEHICLE),
                     "map": written(folder, "map.gr", ROW_MAP),
                     "places": written(folder, "map.co", "v 1 0 0\nv 2 60 0\nv 3 120 0\nv 4 180 0\n")}
        self.bad = {**bad_files(folder), "foreign": written(folder, "foreign", "Dear Sir,\nwe thank you for your letter.\n"),
                    "numbers": written(folder, "numbers", "1 2 3\n4 5 6\n")}

    def refuses(self, main: Callable, words: Sequence[str], what: str = "") -> None:
        status, out, said = run(main, words)
        self.assertEqual((status, out), (2, ""), said)
        self.assertEqual((said.count("\n"), "Traceback" in said), (1, False), said)
        self.assertIn(what, said)

    def test_each_tool_over_each_file(self) -> None:
        out = os.path.join(self.folder, "out")
        for name, main, words in LOG_TOOLS:
            used = [role for role, path in self.good.items() if path in words(self.good, out)]
            for role, kind in itertools.product(used, self.bad):
                with self.subTest(tool=name, role=role, kind=kind):
                    self.refuses(main, words({**self.good, role: self.bad[kind]}, out), self.bad[kind])

    def test_wrong_logs(self) -> None:
        for name, main, words in LOG_TOOLS:
            for number, (text, what) in enumerate(WRONG_LOGS):
                with self.subTest(tool=name, log=number):
                    path = written(self.folder, "wrong", text)
                    self.refuses(main, words({**self.good, "log": path}, os.path.join(self.folder, "out")), what)

    def test_wrong_fleets(self) -> None:
        for name, main, words in LOG_TOOLS:
            for number, (text, what) in enumerate(WRONG_FLEETS):
                with self.subTest(tool=name, fleet=number):
                    path = written(self.folder, "wrong", text)
                    self.refuses(main, words({**self.good, "fleet": path}, os.path.join(self.folder, "out")), what)

    def test_a_map_on_which_no_way_leads_along_a_plan(self) -> None:
        one_way = written(self.folder, "one_way.gr", "p sp 4 3\na 1 2 60\na 2 3 60\na 4 3 60\n")
        for name, main, words in LOG_TOOLS[:1] + LOG_TOOLS[2:]:
            with self.subTest(tool=name):
                self.refuses(main, words({**self.good, "map": one_way}, os.path.join(self.folder, "out")), "no way of this map")

    def test_a_place_to_write_that_is_not_there(self) -> None:
        for name, main, words in LOG_TOOLS[2:]:
            with self.subTest(tool=name):
                self.refuses(main, words(self.good, f"{self.folder}/nowhere/out"), "nowhere/out")

    def test_wrong_words(self) -> None:
        at = self.good
        words = [at["log"], at["fleet"], at["map"], f"{self.folder}/out"]
        for main, wrong, what in (
                (log_report.main, [], "required: log"), (log_report.main, words[:3] + ["--what"], "--what"),
                (day_picture.main, words[:1], "required: out"), (route_picture.main, words[:3], "required: out"),
                (route_picture.main, words + ["--vehicles", "2"], "--vehicles 2: no such vehicle"),
                (route_picture.main, words + ["--vehicles", "-1"], "required"),
                (route_picture.main, words + ["--vehicles", "x"], "x is no whole number"),
                (route_picture.main, words + ["--vehicles"] + ["1"] * 9, "at most 8"), (day_page.main, words[:3], "required: out")):
            with self.subTest(words=wrong):
                self.refuses(main, wrong, what if what != "required" else "")

    def test_extracts(self) -> None:
        out = [f"{self.folder}/new.gr", f"{self.folder}/new_nodes.txt"]
        for kind, path in self.bad.items():
            with self.subTest(kind=kind):
                self.refuses(osm_to_gr.main, [path, *out])
        self.refuses(osm_to_gr.main, [self.bad["foreign"], self.bad["foreign"], out[1]], "three files")
        self.refuses(osm_to_gr.main, [self.bad["foreign"]], "required: map, table")

    def test_files_of_places(self) -> None:
        for text, what in (("v 1 0 0\n", "node 2 of the map has no place"), ("v 9 0 0\n", ":1: node 9 is not on the map (1 to 4)"),
                           ("v 1 0\n", ":1: no place of a node"), ("v 1 nan 0\n", ":1: no place of a node"),
                           ("node osm_id latitude longitude\n1 5 x 0\n", ":2: no place of a node")):
            with self.subTest(text=text):
                path = written(self.folder, "wrong.co", text)
                self.refuses(day_page.main, LOG_TOOLS[3][2]({**self.good, "places": path}, f"{self.folder}/out"), what)


if __name__ == "__main__":
    unittest.main()
