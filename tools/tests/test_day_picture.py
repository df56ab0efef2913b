"""Tests of what day_picture takes from the morning of examples/, and that it draws a page of it and of an empty day."""
import os
import tempfile
import unittest
from pathlib import Path

from files_at_hand import ABOARD, EXAMPLES, ONE_VEHICLE, ROW_MAP, run, written

import day_picture
from day_reading import figures_text, read_day
from log_reading import open_reading

try:
    import day_lanes
except ImportError:  # matplotlib is not installed
    day_lanes = None

MORNING, FLEET, MAP = (os.path.join(EXAMPLES, name) for name in ("morning.log", "fleet.txt", "map.gr"))


class Morning(unittest.TestCase):
    def setUp(self) -> None:
        self.day = read_day(open_reading(MORNING))

    def test_rides(self) -> None:
        bars = {bar.request: (vehicle, bar) for vehicle, bars in self.day.bars.items() for bar in bars}
        rides = {request: (vehicle, bar.confirmed, bar.picked, bar.end) for request, (vehicle, bar) in bars.items()}
        self.assertEqual(rides[105], (4, 25260, 25685, 26110))
        self.assertEqual(rides[111], (3, 26100, None, None))
        self.assertEqual([request for request, (_, bar) in bars.items() if bar.cancelled], [108])
        self.assertEqual([request for request, (_, bar) in bars.items() if bar.broken], [103])
        self.assertEqual([bar.latest for bar in self.day.bars[1]], [25500, 25500])

    def test_late_reports(self) -> None:
        self.assertEqual(self.day.late, [(4, 25475, 90)])

    def test_times_off_duty(self) -> None:
        self.assertEqual(self.day.off, {5: [(25260, 26100)]})

    def test_requests_that_wait(self) -> None:
        self.assertEqual(max(count for _, count in self.day.waiting), 3)
        self.assertEqual(self.day.waiting[-1], (26100, 0))

    def test_batches(self) -> None:
        self.assertEqual([(batch.cost, batch.confirmed, batch.away) for batch in self.day.batches],
                         [(925, 3, 0), (45, 1, 0), (1005, 2, 0), (900, 0, 1), (725, 2, 0)])

    def test_prices(self) -> None:
        self.assertEqual((sorted(self.day.seated_prices), self.day.other_prices), ([45, 145, 190, 355, 370, 380, 545, 860], [900]))

    def test_figures_of_the_log_alone(self) -> None:
        # 102 waits 55 s, 103 60, 105 425, and 101 and 104 none, as without the fleet file nothing is known of how long a vehicle stands.
        self.assertEqual(figures_text(self.day.figures), "served 5 of 10 who asked; waiting 108 s in the mean, 9 of 10 at most 425 s")

    def test_figures_by_the_map(self) -> None:
        # 101 waits 20 s: 560 s of five riders. 101 and 104 share vehicle 1. Empty are 55 s of vehicle 2 and of vehicle 4 60 to the Wharf and 80 to the Chapel.
        said = figures_text(read_day(open_reading(MORNING, FLEET, MAP)).figures)
        self.assertIn("waiting 112 s in the mean", said)
        self.assertIn("40.0 % of those served were pooled", said)
        self.assertIn("195 s empty", said)


@unittest.skipIf(day_lanes is None, "matplotlib is not installed")
class Pages(unittest.TestCase):
    def setUp(self) -> None:
        scratch = tempfile.TemporaryDirectory()
        self.addCleanup(scratch.cleanup)
        self.folder = scratch.name

    def test_the_morning(self) -> None:
        self.assertEqual(run(day_picture.main, [MORNING, f"{self.folder}/page", FLEET, MAP]), (0, "", ""))
        text = Path(f"{self.folder}/page.svg").read_text(encoding="utf-8")
        for words in ("90 s late", "entries 57 confirmed 8", "served 5 of 10", "off duty", "LATEST pickup", "promise broken"):
            self.assertIn(words, text)
        self.assertTrue(Path(f"{self.folder}/page.png").read_bytes().startswith(b"\x89PNG"))

    def test_a_day_on_which_nothing_happens(self) -> None:
        log = written(self.folder, "log", "log 1 feeds 1 desks 1\nf1 end\nd1 end\n")
        self.assertEqual(run(day_picture.main, [log, f"{self.folder}/page"]), (0, "", ""))

    def test_a_torn_log_is_drawn_with_a_note(self) -> None:
        torn = written(self.folder, "log", ABOARD + "f1 at")
        files = [written(self.folder, "fleet.txt", ONE_VEHICLE), written(self.folder, "map.gr", ROW_MAP)]
        status, _, said = run(day_picture.main, [torn, f"{self.folder}/page", *files])
        self.assertEqual((status, said), (0, f"{torn}:12: this line has no end; what stands before it is told\n"))

    def test_a_place_to_write_that_is_not_there(self) -> None:
        status, _, said = run(day_picture.main, [MORNING, f"{self.folder}/nowhere/page"])
        self.assertEqual((status, said.count("\n")), (2, 1))

    def test_rides_that_share_a_vehicle_stand_in_rows_of_their_own(self) -> None:
        bars = [day_lanes.Bar(1, 0, 10, 100), day_lanes.Bar(2, 50, 60, 150), day_lanes.Bar(3, 100, 110, 120)]
        self.assertEqual(day_lanes.rows_of(bars, 200), ([0, 1, 0], 2))

    def test_the_legend_has_each_colour_of_rides_that_share_a_row(self) -> None:
        # Half of black over white is grey 127.5, and half of black over that grey 63.75.
        self.assertEqual(day_lanes.over("#000000", 0.5), "#808080")
        self.assertEqual(day_lanes.over("#000000", 0.5, "#808080"), "#404040")
        self.assertEqual(len(day_lanes.legend_of(True, False)), len(day_lanes.legend_of(False, False)) + 3)


if __name__ == "__main__":
    unittest.main()
