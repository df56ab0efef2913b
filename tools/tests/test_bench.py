"""Tests of the scripts of bench/ that stand on the simulator or write days: their bad input, and a small division of a city."""
import contextlib
import io
import os
import sys
import tempfile
import unittest
from pathlib import Path

HERE = os.path.dirname(os.path.abspath(__file__))
ROOT = os.path.dirname(os.path.dirname(HERE))
sys.path[:0] = [os.path.dirname(HERE), os.path.join(ROOT, "bench")]

import assignment  # noqa: E402
import divide  # noqa: E402
import live  # noqa: E402
import write_day  # noqa: E402
import write_map  # noqa: E402
from player.files import InputError  # noqa: E402
from player.runs import default_program  # noqa: E402

PROGRAM = os.environ.get("RIDE_DISPATCH", default_program())


def said_by(main, *words):
    """The status and the lines of a script's main function."""
    with contextlib.redirect_stdout(io.StringIO()) as out:
        status = main([str(word) for word in words])
    return status, out.getvalue().splitlines()


class BadInput(unittest.TestCase):
    def test_is_one_line(self):
        for main, words in (
                (divide.main, ()), (divide.main, ("/nowhere/program",)), (divide.main, ("/bin/false", "--side", "x")),
                (divide.main, ("/bin/false", "--days", "1", "--side", "4", "--requests", "4")),
                (live.main, ()), (live.main, ("speed",)), (live.main, ("nothing", "/bin/true")), (live.main, ("speed", "/nowhere/program")),
                (live.main, ("speed", "/tmp")), (live.main, ("silence", "/bin/true")),
                (write_day.main, ()), (write_day.main, ("week",)), (write_day.main, ("city", "a")),
                (write_day.main, ("peak", "x", 2, "a", "b")), (write_map.main, ()), (assignment.main, ("x",))):
            with self.assertRaises(InputError, msg=words) as caught:
                said_by(main, *words)
            self.assertNotIn("\n", str(caught.exception))


class Days(unittest.TestCase):
    def test_a_peak(self):
        with tempfile.TemporaryDirectory() as folder:
            said_by(write_day.main, "peak", 30, 2, f"{folder}/fleet", f"{folder}/feed")
            fleet, feed = (Path(f"{folder}/{name}").read_text().splitlines() for name in ("fleet", "feed"))
        self.assertEqual((fleet[0], len(fleet), len(feed)), ("set batch 128", 1002, 2 * 129))
        self.assertEqual([number for number, line in enumerate(feed, 1) if line == "batch"], [129, 258])

    def test_the_city_cancels_with_each_request_behind_the_first_4000(self):
        feed = list(write_day.city_feed(write_day.random.Random(1)))
        self.assertEqual(sum(line == "batch" for line in feed), 2000)
        self.assertEqual(sum(line.startswith("cancel") for line in feed), 12_000)
        self.assertEqual(feed[feed.index("cancel 1") - 1].split()[:2], ["request", "4001"])


@unittest.skipUnless(os.access(PROGRAM, os.X_OK), "the program is not built")
class Divisions(unittest.TestCase):
    def test_a_small_city_is_repeated(self):
        words = (PROGRAM, "--side", "6", "--vehicles", "4", "--requests", "60", "--days", "1")
        status, lines = said_by(divide.main, *words)
        self.assertEqual((status, [line[:32].strip() for line in lines[2:]]), (0, list(divide.WAYS)))
        self.assertEqual(said_by(divide.main, *words), (status, lines))


if __name__ == "__main__":
    unittest.main()
