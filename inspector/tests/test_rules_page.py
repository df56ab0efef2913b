"""The examples of docs/rules.md: its logs are right over its map, and its other numbers come out of the auditor's parts."""
import re
import sys
import tempfile
import unittest
from pathlib import Path

sys.path.insert(0, str(Path(__file__).resolve().parent))

from worked import FLEET, MAP, answer, verdict, write

from check_log import read_board
from offers import Market, Offers
from plans import Ride, Vehicle, driving, insert, keeps, times

PAGE = (Path(__file__).resolve().parents[2] / "docs/rules.md").read_text(encoding="utf-8")
BLOCKS = [re.sub(r"^    ", "", block, flags=re.M) for block in re.findall(r"(?:^    .*\n)+", PAGE, flags=re.M)]
LOGS = [block for block in BLOCKS if block.startswith("log ")]
SETTINGS = {"requests 7 9": "set batch 2\n", "requests 5 6": "vehicle 2 2 4 0\n"}


class Page(unittest.TestCase):
    def test_the_map_and_the_fleet(self):
        self.assertEqual(BLOCKS[:2], [MAP, FLEET])

    def test_each_log_is_right(self):
        self.assertEqual(len(LOGS), 9)
        for log in LOGS:
            more = "".join(line for sign, line in SETTINGS.items() if sign in log)
            fleet = more + FLEET if more.startswith("set") else FLEET + more
            self.assertEqual(verdict(log, fleet), "yes", log)

    def test_the_finished_log_and_two_that_are_wrong(self):
        log, = (log for log in LOGS if log.endswith("d1 end\n"))
        self.assertEqual(answer(log)[0], "yes entries 14 confirmed 1 away 0 picked 1 dropped 1 finished yes")
        self.assertEqual(verdict(log.replace("f1 end\nd1 end", "d1 end\nf1 end")), "no 14 actor")
        self.assertEqual(verdict(log.replace("f1 end", "f1 batch = asked 3\nf1 end")), "no 16 actor")

    def board(self, settings: str = ""):
        """Returns a board over the page's map and fleet with more settings."""
        with tempfile.TemporaryDirectory() as folder:
            return read_board(write(folder, "map", MAP), write(folder, "fleet", settings + FLEET))

    def test_times_and_promises(self):
        board = self.board("set dwell 30\n")
        for latest, longest, kept in ((60, 150, True), (59, 150, False), (60, 149, False)):
            plan = insert(board.vehicles[1], Ride(7, 2, 4, 1, 0, latest, longest), 0, 0, board.roads)
            self.assertEqual((times(plan, 0, 30), driving(plan, 30)), ([60, 210], 210))
            self.assertEqual(keeps(plan, 0, 30), kept)

    def test_insertion(self):
        rows = re.findall(r"(\d), (\d) \| ([+\-79 ]{11}) ", PAGE)
        self.assertEqual(len(rows), 6)
        board = self.board()
        plan = insert(board.vehicles[1], Ride(7, 2, 4, 1, 0, 600, 300), 0, 0, board.roads)
        for i, j, told in rows:
            stops = insert(plan, Ride(9, 3, 4, 1, 0, 600, 300), int(i), int(j), board.roads).stops
            self.assertEqual(" ".join(f"{'+' if stop.pickup else '-'}{stop.ride}" for stop in stops), told)

    def test_start_and_open(self):
        board = self.board("set lead 10\n")
        market = Market(board.settings, board.roads, 25)
        self.assertEqual(market.start_of(Vehicle(1, 2, 0, 1, 0)), 35)
        self.assertEqual(market.start_of(Vehicle(1, 2, 0, 1, 100)), 100)
        for ready, opened in ((25, True), (24, False)):
            driver = insert(Vehicle(1, 2, 0, 1, ready), Ride(7, 2, 4, 1, 0, 600, 300), 0, 0, board.roads)
            self.assertEqual((market.is_open(driver), market.start_of(driver)), (opened, ready))

    def test_the_table_of_offers(self):
        rows = re.findall(r"^\| (\d), (\d) \| [1-4 ]+ \| (\d+) \| (\d+) \| (\d+) \| (\d+) \|$", PAGE, flags=re.M)
        self.assertEqual(len(rows), 6)
        plain, waits = self.board(), self.board("set wait 2\n")
        plan = insert(plain.vehicles[1], Ride(7, 2, 4, 1, 0, 600, 300), 0, 0, plain.roads)
        ride = Ride(9, 3, 4, 1, 0, 600, 300)
        for i, j, seconds, cost, pickup, with_wait in ([int(number) for number in row] for row in rows):
            after = insert(plan, ride, i, j, plain.roads)
            self.assertEqual((driving(after, 0), times(after, 0, 0)[i]), (seconds, pickup))
            for board, expected in ((plain, cost), (waits, with_wait)):
                self.assertEqual(Offers(Market(board.settings, board.roads, 0), ride).cost_at(plan, i, j), expected)


if __name__ == "__main__":
    unittest.main()
