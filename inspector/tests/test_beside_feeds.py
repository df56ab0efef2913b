"""A log beside its feeds, which are changed one line at a time."""
import sys
import tempfile
import unittest
from pathlib import Path

sys.path[:0] = [str(Path(__file__).resolve().parent), str(Path(__file__).resolve().parents[1])]

from beside_feeds import main
from worked import LOG, call, write

EXAMPLES = Path(__file__).resolve().parents[2] / "examples"
FEED = "# a small day\nrequest 7 2 4 1 600 300\n\nbatch\n"


class BesideFeeds(unittest.TestCase):
    def beside(self, log: str | bytes, *feeds: str | bytes) -> tuple[list[str], int]:
        """Returns the lines and the status of the command over these texts."""
        with tempfile.TemporaryDirectory() as folder:
            paths = [write(folder, "log", log), *(write(folder, f"feed{n}", feed) for n, feed in enumerate(feeds))]
            told, status = call(main, *paths)
        return [line.strip() for line in told.splitlines()], status

    def test_the_feed_that_was_sent(self):
        self.assertEqual(self.beside(LOG, FEED), (["f1: 2 commands in the feed, 2 in the log", "log and feeds agree"], 0))
        self.assertEqual(self.beside(LOG, " request\t007 2 4 1 600 300 \r\nbatch")[1], 0)

    def test_the_example(self):
        texts = [(EXAMPLES / name).read_bytes() for name in ("morning.log", "morning.txt")]
        self.assertEqual(self.beside(*texts)[1], 0)

    def test_a_rider_who_is_left_out(self):
        lines, status = self.beside(LOG, FEED.replace("batch", "request 8 4 3 1 600 300\nbatch"))
        self.assertEqual(status, 1)
        self.assertIn("feed line 4, `request 8 4 3 1 600 300`, stands in no line of the log", lines)

    def test_a_command_that_nobody_sent(self):
        lines, status = self.beside(LOG.replace("f1 end", "f1 off 1 = duty\nf1 end"), FEED)
        self.assertEqual((status, lines[1]), (1, "log line 6, `off 1`, stands in no line of the feed"))

    def test_a_value_that_differs(self):
        lines, status = self.beside(LOG, FEED.replace("600 300", "500 300"))
        self.assertEqual((status, lines[1]), (
            1, "log line 2 says `request 7 2 4 1 600 300`, feed line 2 `request 7 2 4 1 500 300`"))

    def test_a_command_twice(self):
        lines, status = self.beside(LOG, FEED + "batch\n")
        self.assertEqual((status, lines[1]), (1, "feed line 5, `batch`, stands in no line of the log"))

    def test_the_order(self):
        lines, status = self.beside(LOG, "batch\nrequest 7 2 4 1 600 300\n")
        self.assertEqual((status, lines[1]), (1, "the order differs from feed line 1 and log line 2 on"))

    def test_bad_lines_are_known_by_their_number(self):
        log = LOG.replace("f1 end", "f1 bad 5\nf1 end")
        self.assertEqual(self.beside(log, FEED + "nonsense\n")[1], 0)
        self.assertEqual(self.beside(log, FEED + "\nnonsense\n")[1], 1)
        self.assertEqual(self.beside(log, FEED + "request 8 2 4 1 600 300 1\n")[1], 0)

    def test_a_cut_explains_what_is_behind_it(self):
        lines, status = self.beside(LOG.replace("f1 end", "f1 cut"), FEED + "clock 5\nclock 6\n")
        self.assertEqual((status, lines[0]), (0, "f1: 4 commands in the feed, 2 in the log; its reading was stopped, and 2 "
                                                 "commands behind that are not in the log"))
        self.assertEqual(self.beside(LOG.replace("f1 end", "f1 cut"), FEED.replace("600", "601") + "clock 5\n")[1], 1)
        self.assertEqual(self.beside(LOG, FEED + "clock 5\nclock 6\n")[1], 1)

    def test_a_feed_that_is_too_long(self):
        lines, status = self.beside(LOG.replace("f1 end", "f1 cut"), FEED + "\n" * 1_000_000 + "clock 5\n")
        self.assertEqual(status, 0)
        self.assertIn("the feed is too long, and 0 commands", lines[0])
        self.assertEqual(self.beside(LOG, FEED + "\n" * 1_000_000)[1], 1)

    def test_two_feeds(self):
        log = LOG.replace("feeds 1", "feeds 2").replace("f1 end", "f2 on 1 = duty\nf1 end\nf2 end")
        self.assertEqual(self.beside(log, FEED, "on 1\n")[1], 0)
        self.assertEqual(self.beside(log, "on 1\n", FEED)[1], 1)

    def test_bad_input(self):
        for log, *feeds in ((LOG, FEED, FEED), ("", FEED), ("log 1 feeds 1 desks 1\nx\n", FEED), (b"\xff\x00", FEED),
                            (LOG[:-1], FEED), (LOG.replace("f1 end", "f2 end"), FEED)):
            self.assertEqual(self.beside(log, *feeds), ([], 2))
        self.assertEqual(call(main, "/none", "/none"), ("", 2))
        self.assertEqual(call(main), ("", 2))


if __name__ == "__main__":
    unittest.main()
