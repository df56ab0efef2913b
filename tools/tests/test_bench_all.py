"""Tests of bench/all.py and of what it takes its figures with: with programs that only print, and with the built ones where they are there."""
import contextlib
import io
import itertools
import os
import sys
import tempfile
import unittest
from pathlib import Path
from unittest import mock

from files_at_hand import HERE, ROOT, run

sys.path.insert(0, os.path.join(ROOT, "bench"))

import all as figures  # noqa: E402
import day_sections as days  # noqa: E402
import live  # noqa: E402
import machine  # noqa: E402
import measuring  # noqa: E402
import part_sections as parts  # noqa: E402
import session_sections as sessions  # noqa: E402
import workshop  # noqa: E402
from player.files import InputError  # noqa: E402

STAND_IN = os.path.join(HERE, "data", "stand_in.py")
PROGRAM = os.environ.get("RIDE_DISPATCH", figures.PROGRAM)
BENCH = os.environ.get("RIDE_BENCH", figures.PARTS)
RESUME = os.environ.get("RIDE_RESUME", figures.RESUME)

GRIDS = "random 128 x 1000 cost 149781 best 297 microseconds\nproduct 128 x 1000 cost 357760 best 10134 microseconds\n"
PLACES = "sums 770500 and 770500\n120 place pairs: plain 2900 ns, by slack 730 ns, tables 7400 ns\n"
SHARED = ("no lock: 3200000 commands a second\none pass: 1000000 commands a second\ntwo passes: 590000 commands a second\n"
          "two passes and the scribe: 400000 commands a second\n")
BOOKINGS = "bookings 100000 released 50000 in 53 ms\n"
ROWS = "nodes 264346 arcs 738230\nfrom 1 reached 9 sum 70\nfrom 8812 reached 9 sum 44\nmean of 30 rows: 49100 microseconds\n"
SWEPT = ("packed in {packing} ms\nwanted 1000 rows 8 sum 77 by searches in 400000 us\n"
         "wanted 1000 rows 512 sum 5702, selected 9000 nodes in 3600 us, rows in 253000 us\n")
OURS = "nodes 264346 arcs 738230\nlinks 1495605, nodes contracted 264346, in 8400 ms\n" + SWEPT.format(packing=98)
THEIRS = "nodes 264346 arcs 738230\nlinks 1527743, nodes left 0, contracted in 9000 ms\n" + SWEPT.format(packing=32)
# A program of each word of ride_bench that only prints.
PRINTS = {"grids": GRIDS, "places": PLACES, "shared": SHARED, "bookings": BOOKINGS, "new_york": ROWS,
          "read_map": "nodes 30 arcs 87\n55600 microseconds\n", "": "hierarchy wanted 10 rows 4 sum 5702\n"}


def printer(folder, texts=None):
    """The path of a program that prints one of these texts, by its first word."""
    cases = "".join(f"'{word}') cat <<'END'\n{text}END\n;;\n" for word, text in (PRINTS if texts is None else texts).items())
    path = Path(folder, "printer")
    path.write_text(f"#!/bin/sh\ncase \"$1\" in\n{cases}*) echo refused >&2; exit 3;;\nesac\n")
    path.chmod(0o755)
    return str(path)


def said_by(*words):
    """The status of the script, its text, and what it says while it runs."""
    with contextlib.redirect_stdout(io.StringIO()) as out, contextlib.redirect_stderr(io.StringIO()) as err:
        status = figures.main([str(word) for word in words])
    return status, out.getvalue(), err.getvalue()


@contextlib.contextmanager
def without_peers():
    """Hides compilers and scipy."""
    with mock.patch.object(workshop.shutil, "which", return_value=None), mock.patch.object(workshop, "DEBIANS", "/nowhere/python3"):
        yield


class Commands(unittest.TestCase):
    def test_what_one_prints_and_takes(self):
        ran = measuring.run([sys.executable, "-c", "import time; print('three'); x = sum(range(10 ** 6)); time.sleep(0.2)"])
        self.assertEqual(ran.text, "three\n")
        self.assertTrue(0.2 <= ran.clock < 60 and 0 < ran.busy < ran.clock)

    def test_into_a_file(self):
        with tempfile.TemporaryDirectory() as folder:
            self.assertEqual(measuring.run(["echo", "a"], f"{folder}/out").text, "")
            self.assertEqual(Path(f"{folder}/out").read_text(), "a\n")

    def test_the_memory_of_a_small_one_is_not_that_of_this_process(self):
        held = bytearray(80 << 20)
        self.assertLess(measuring.run(["sleep", "0.1"]).memory, 30)
        self.assertEqual(len(held), 80 << 20)

    def test_the_memory_of_a_large_one(self):
        memory = measuring.run([sys.executable, "-c", "import time; x = bytearray(150 << 20); time.sleep(0.2)"]).memory
        self.assertTrue(150 <= memory < 250, memory)

    def test_faults_are_one_line(self):
        for words, said in ((["/nowhere/program"], "No such file"), (["/tmp"], "Permission denied"),
                            (["sh", "-c", "echo first >&2; echo last >&2; exit 3"], "sh -c ended with status 3: last"),
                            (["sh", "-c", "kill -9 $$"], "status -9")):
            with self.assertRaisesRegex(InputError, said) as caught:
                measuring.run(words)
            self.assertNotIn("\n", str(caught.exception))

    def test_turns(self):
        number = itertools.count(1)
        given = measuring.in_turn(3, {"a": lambda: next(number), "b": lambda: next(number)})
        self.assertEqual(given, {"a": [1, 4, 5], "b": [2, 3, 6]})


class Cells(unittest.TestCase):
    def test_values(self):
        self.assertEqual(measuring.each([66.04, 55.6, 55.58], "ms", 1), "66.0, 55.6 and 55.6 ms")
        self.assertEqual(measuring.each([297], "us", 0), "297 us")
        self.assertEqual(measuring.span([21.6, 0.061, 11.44], "s"), "0.06 to 22 s")
        self.assertEqual(measuring.span([1.31, 1.29], "s"), "1.3 s")
        self.assertEqual(measuring.number(2849.6), "2,850")
        self.assertEqual(measuring.quartiles([5.0]), [5.0] * 4)
        self.assertEqual(measuring.quartiles([4.0, 1.0, 3.0, 2.0, 5.0]), [1.0, 1.5, 3.0, 5.0])
        self.assertEqual((measuring.ratio(1, 4), measuring.ratio(1, 0)), ("0.25", "-"))
        self.assertEqual([measuring.in_words(count, "run", "runs") for count in (1, 2, 24)], ["One run", "Two runs", "24 runs"])

    def test_of_runs(self):
        runs = [measuring.Ran(11.44, 21.2, 64.6), measuring.Ran(11.5, 22.0, 64.1)]
        self.assertEqual(measuring.taken(runs), ["11.4 to 11.5 s", "21 to 22 s", "65 MB"])
        self.assertEqual(measuring.busiest_ratio(runs, [measuring.Ran(1, 42.4, 0)]), "0.50")

    def test_a_table_is_that_of_a_page(self):
        self.assertEqual(measuring.table(["", "C", ""], [["a b", "", ""], ["c", "1", "2"]]),
                         ["| | C | |", "|---|---|---|", "| a b | | |", "| c | 1 | 2 |"])
        with self.assertRaises(ValueError):
            measuring.table(["", "C"], [["a"]])
        with self.assertRaisesRegex(InputError, "nothing was printed"):
            measuring.table(["", "C"], [])

    def test_programs_that_do_not_agree(self):
        self.assertEqual(measuring.same("the sum", [3, 3]), 3)
        with self.assertRaisesRegex(InputError, "the sum: the programs print 3 and 4"):
            measuring.same("the sum", [3, 4])
        with self.assertRaisesRegex(InputError, "no line of the form"):
            measuring.found("^a$", "b\n")


class Machine(unittest.TestCase):
    def test_what_it_is(self):
        self.assertEqual(machine.model("model name\t: A Processor\nflags\t\t: fpu hypervisor lm\n"), "A Processor, of a virtual machine")
        self.assertEqual(machine.model("model name\t: A Processor\nflags\t\t: fpu lm\n"), "A Processor")
        self.assertEqual(machine.model("processor : 0\n"), "no name in /proc/cpuinfo")
        self.assertEqual(machine.megabytes("MemTotal:       2048000 kB\nMemAvailable: 1024 kB\n", "MemTotal"), "2,000 MB")

    def test_what_others_took(self):
        ticks = machine.TICKS
        stat = f"cpu  {ticks} {ticks} {ticks} {9 * ticks} {9 * ticks} {ticks} {ticks} {2 * ticks} 0 0\ncpu0 1 1 1 1\n"
        self.assertEqual(machine.work_of(stat), [5.0, 2.0])
        first, last = machine.Moment(10, 100, 1, 0), machine.Moment(20, 130, 26, 0.5)
        self.assertEqual(machine.others(first, last), 5)
        self.assertEqual(machine.others(first, first), 0)
        self.assertRegex(machine.meanwhile(first, last), r"^10 s by the clock, .* took 5\.0 s of processors, 0\.50 of \d+ at a time, and 0\.5 s")

    def test_a_watch(self):
        rows = dict(machine.Watch("a command", [sys.executable]).rows())
        self.assertEqual(list(rows), ["Taken", "Sources", "Programs", "Peers by", "Processors", "Memory", "Load averages",
                                      "While it ran"])
        self.assertIn("`a command`", rows["Taken"])
        self.assertRegex(rows["Load averages"], r"^[\d.]+ [\d.]+ [\d.]+ before, [\d.]+ [\d.]+ [\d.]+ after$")
        self.assertRegex(rows["Memory"], r"^[\d,]+ MB, of which [\d,]+ MB could be had at first$")

    def test_what_is_not_there(self):
        self.assertEqual((machine.said_by("/nowhere/rt"), machine.said_by("false")), ("", ""))
        with self.assertRaises(InputError):
            machine.read("/nowhere/stat")


class Workshops(unittest.TestCase):
    def test_commands_as_they_are_shown(self):
        with tempfile.TemporaryDirectory() as folder:
            shop = workshop.Workshop("/a/ride_dispatch", "/a/ride_bench", folder)
            shop.note(["/a/ride_dispatch", "replay", "--map", f"{workshop.EXAMPLES}/map.gr", "--feed", f"{folder}/feed"], f"{folder}/log")
            shop.note(["/a/ride_bench", "grids"])
            shop.note(["/a/ride_bench", "grids"])
            shop.note([sys.executable, f"{workshop.BENCH}/write_map.py", f"{folder}/map.gr"], os.devnull)
            shop.note(["awk", '$1 == "vehicle"', "x"])
            self.assertEqual(shop.commands, [
                "$program replay --map examples/map.gr --feed $files/feed > $files/log", "$bench grids",
                "python3 bench/write_map.py $files/map.gr > /dev/null", "awk '$1 == \"vehicle\"' x"])

    def test_what_is_made_is_made_once_and_shown_again(self):
        with tempfile.TemporaryDirectory() as folder:
            shop = workshop.Workshop("", "", folder)
            for _ in range(2):
                shop.begin()
                shop.once("sh", "-c", f"echo >> {folder}/made")
            self.assertEqual((len(shop.commands), Path(f"{folder}/made").read_text()), (1, "\n"))

    def test_peers_that_are_missing(self):
        shop = workshop.Workshop("", "", "/nowhere")
        with without_peers():
            self.assertEqual((shop.peer("dijkstra"), shop.scipy()), (None, None))
        self.assertEqual(shop.left_out, ["bench/dijkstra.cpp (g++ is not installed)", "scipy (/nowhere/python3: No such file or directory)"])


class Printed(unittest.TestCase):
    def test_by_the_words_of_ride_bench(self):
        self.assertEqual(parts.reading_of(PRINTS["read_map"]), ((30, 87), 55.6))
        self.assertEqual(parts.grids_of(GRIDS), {"random 128 x 1000": (149781, 297), "product 128 x 1000": (357760, 10134)})
        self.assertEqual(parts.grid_name("product 128 x 1000"), "products of row and column, 128 x 1,000")
        self.assertEqual(parts.places_of(PLACES), [2900, 730, 7400])
        self.assertEqual(list(parts.rates_of(SHARED)), list(parts.LOADS))
        self.assertEqual(parts.bookings_of(BOOKINGS), ((100_000, 50_000), 53))
        self.assertEqual(parts.rows_of(ROWS), (["from 1 reached 9 sum 70", "from 8812 reached 9 sum 44"], 49100))

    def test_by_hierarchies(self):
        swept = {1000: parts.Swept(5702, 9000, 3600, 253000)}
        self.assertEqual(parts.made_of(OURS), parts.Made(1495605, 264346, 8400, 98, swept))
        self.assertEqual(parts.made_of(THEIRS), parts.Made(1527743, 264346, 9000, 32, swept))
        left = "nodes 100000 arcs 400000\nlinks 5, nodes left 45307, contracted in 7 ms\npacked in 1 ms\n"
        self.assertEqual(parts.made_of(left), parts.Made(5, 54693, 7, 1, {}))
        rows = parts.hierarchy_rows({"ride_bench": [parts.made_of(OURS)] * 2, "C++": [parts.made_of(THEIRS)]})
        self.assertEqual(rows[0], ["contraction", "8.4 s", "9.0 s"])
        self.assertEqual(rows[-1], ["512 rows to about 1,000 nodes", "253 ms", "253 ms"])

    def test_by_the_peers(self):
        self.assertEqual(parts.reading_of("nodes 30 arcs 87 sum 7018\n45.6 milliseconds\n"), ((30, 87), 45.6))
        self.assertEqual(sessions.seconds_of_rows(measuring.Ran(0, 0, 0, "300 rows of 264346 nodes: 15200000 microseconds, 50666 a row\n")), 15.2)

    def test_by_a_drill(self):
        self.assertEqual(days.drill_name("drill nodes 1600 arcs 6240 vehicles 50 requests 400 batches 50 confirmed 1 away 2 dropped 1\n"),
                         "1,600 nodes, 50 vehicles, 400 requests in 50 batches")

    def test_what_does_not_agree(self):
        with self.assertRaisesRegex(InputError, "the sums of both searches"):
            parts.places_of(PLACES.replace("and 770500", "and 770501"))
        with self.assertRaisesRegex(InputError, "the sum of 512 rows to 1000 nodes"):
            parts.hierarchy_rows({"a": [parts.made_of(OURS)], "b": [parts.made_of(THEIRS.replace("5702", "5703"))]})


class Sections(unittest.TestCase):
    def test_they_are_chosen_in_the_order_of_the_page(self):
        self.assertEqual(figures.chosen(None), list(figures.SECTIONS))
        self.assertEqual(figures.chosen(["rows", "reading", "rows"]), ["reading", "rows"])
        status, text, _ = said_by("--list")
        self.assertEqual((status, [line.split()[0] for line in text.splitlines()]), (0, list(figures.SECTIONS)))

    def test_bad_input_is_one_line(self):
        for words in (("--only", "rows"), ("--bench", "/tmp", "--only", "rows"), ("--only", "nothing"), ("--only",), ("--quick", "1"),
                      ("--program", "/etc/passwd", "--only", "idle")):
            words = words if "--bench" in words else ("--bench", "/nowhere/ride_bench", *words)
            status, out, said = run(figures.main, words)
            self.assertEqual((status, out, said.count("\n")), (2, "", 1), words)

    def test_of_a_program_that_prints(self):
        with tempfile.TemporaryDirectory() as folder, without_peers():
            status, text, said = said_by("--quick", "--bench", printer(folder), "--only", "places", "pairings", "bookings", "shared", "rows",
                                         "reading", "hierarchies")
        self.assertEqual(status, 0, said)
        lines = text.splitlines()
        self.assertEqual([line[3:] for line in lines if line.startswith("## ")],
                         [figures.SECTIONS[name].title for name in ("reading", "pairings", "places", "shared", "bookings", "rows", "hierarchies")])
        for line in ("    $bench grids", "| Grid | Cost | `solve_grid` |", "| random, 128 x 1,000 | 149,781 | 297 us |",
                     "| `best_place_fast` | 0.73 us | 6 ns |", "| the board's own calls | 3.2 million |",
                     "| 100,000 booked, 50,000 released | 53 ms |", "| median | 49.1 ms |", "| 30 nodes, 87 arcs | 55.6 ms |",
                     "Left out: bench/assignment.c (gcc is not installed).", "| sum of 4 rows to 10 nodes | 5702 |"):
            self.assertIn(line, lines)

    def test_peers_stand_beside(self):
        slower = {"": "", "grids": GRIDS.replace("297", "594").replace("10134", "5067")}
        with tempfile.TemporaryDirectory() as folder:
            shop = workshop.Workshop("", printer(folder), folder)
            other = Path(folder, "other")
            other.mkdir()
            peer = [printer(other, slower), "grids"]
            with mock.patch.object(parts, "peer_words", return_value=None), mock.patch.object(workshop.Workshop, "scipy", return_value=peer):
                lines = parts.pairings(shop)
        self.assertEqual(lines[2:], ["| Grid | Cost | `solve_grid` | scipy | of scipy's |", "|---|---|---|---|---|",
                                     "| random, 128 x 1,000 | 149,781 | 297 and 297 us | 594 and 594 us | 0.50 |",
                                     "| products of row and column, 128 x 1,000 | 357,760 | 10,134 and 10,134 us | 5,067 and 5,067 us | 2.00 |"])

    def test_one_that_fails_says_why_and_the_others_go_on(self):
        with tempfile.TemporaryDirectory() as folder:
            program = printer(folder, {"places": "nothing\n", "bookings": BOOKINGS})
            status, text, said = said_by("--quick", "--bench", program, "--only", "places", "shared", "bookings")
        self.assertEqual(status, 1)
        self.assertIn("\nNOT MEASURED: no line of the form", text)
        self.assertRegex(text, r"\nNOT MEASURED: .*printer shared ended with status 3: refused\n")
        self.assertIn("\n| 100,000 booked, 50,000 released | 53 ms |", text)
        self.assertTrue(text.endswith(said), "the sections stand on standard error, and then behind the head")

    def test_what_was_measured_is_printed_where_somebody_stops_it(self):
        stopped = figures.Section("Stopped", "bench", mock.Mock(side_effect=KeyboardInterrupt))
        with tempfile.TemporaryDirectory() as folder, mock.patch.dict(figures.SECTIONS, {"shared": stopped}):
            status, text, _ = run(figures.main, ["--quick", "--bench", printer(folder), "--only", "places", "shared"])
        self.assertEqual(status, 130)
        self.assertIn("| `best_place_fast` | 0.73 us | 6 ns |\n", text)
        self.assertIn("| While it ran |", text)

    def test_a_session_goes_where_somebody_stops_it_before_its_pipes_are_open(self):
        with tempfile.TemporaryDirectory() as folder:
            program = Path(folder, "sleeper")
            program.write_text("#!/bin/sh\nexec sleep 60\n")
            program.chmod(0o755)
            with mock.patch.object(sessions.Session, "kill", autospec=True, side_effect=live.Live.kill) as killed, \
                    mock.patch.object(live, "open_feed", side_effect=KeyboardInterrupt), self.assertRaises(KeyboardInterrupt):
                sessions.Session(str(program), folder, (1, 1))
        process = killed.call_args[0][0].process
        self.assertEqual(process.returncode, -9)
        process.stdout.close()

    def test_sessions_of_the_stand_in(self):
        names = ["idle", "first_batches", "after_silence", "full_plans"]
        with without_peers():
            status, text, said = said_by("--quick", "--program", STAND_IN, "--only", *names)
        self.assertEqual(status, 0, said)
        for line in ("    program=tools/tests/data/stand_in.py", "| the fourth batch, from opening to commit | ",
                     "| after 0.5 s of silence | ", "| 30 crossings and 6 vehicles, after 0.5 s of silence | ",
                     "| three more, over 6 vehicles of 4 stops and 0 idle ones | "):
            self.assertIn(f"\n{line}", text)


class WithPrograms(unittest.TestCase):
    def quick(self, takes, option, program):
        names = [name for name, section in figures.SECTIONS.items() if section.takes == takes]
        status, text, said = said_by("--quick", option, program, "--only", *names)
        self.assertEqual(status, 0, said)
        self.assertEqual(text.count("\n## "), len(names))

    @unittest.skipUnless(os.access(PROGRAM, os.X_OK), "the program is not built")
    def test_sections_of_the_dispatcher(self):
        self.quick("program", "--program", PROGRAM)

    @unittest.skipUnless(os.access(PROGRAM, os.X_OK) and os.access(RESUME, os.X_OK), "the programs are not built")
    def test_sections_of_both_programs(self):
        self.quick("resume", "--resume", RESUME)

    @unittest.skipUnless(os.access(BENCH, os.X_OK), "the bench is not built")
    def test_sections_of_the_bench(self):
        self.quick("bench", "--bench", BENCH)


if __name__ == "__main__":
    unittest.main()
