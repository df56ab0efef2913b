"""Messages and the lines that they are played as, pipes, the kept log as it grows, and what a keeper reads of it."""
import asyncio
import contextlib
import fcntl
import io
import json
import os
import signal
import subprocess
import time
import unittest
from concurrent.futures import ThreadPoolExecutor
from dataclasses import replace
from pathlib import Path
from typing import List, Tuple

from room_tests import ROOT, ROW_LOG, WithFolder

from control_room import keeper, sessions
from control_room.day_clock import DayClock
from control_room.feed_player import FeedPlayer, Misplaced, Origin
from control_room.keeper import BROKE_OFF, CANNOT_START, Keeper
from control_room.kept_log import CannotStart, Kept, is_running, read_kept, what_stands_open
from control_room.log_tail import LogTail
from control_room.messages import FIRST_MARK, Gate, Message, is_of_message, read_message
from control_room.zones import Zone

CLOCK = DayClock(began=0, begin=0, speed=1)
ASK = {"from": 2, "to": 4, "seats": 1, "longest": 300, "by": 600_000}


def said(gate: Gate, who: str, word: str, numbers: dict, name: str = "") -> object:
    """Returns the line that a message is played as, after a way over its text."""
    return gate.line_for(read_message(Message(name or os.urandom(4).hex(), who, word, numbers).text()))


class Gates(unittest.TestCase):
    def test_a_request_has_the_number_of_its_message(self) -> None:
        gate = Gate(CLOCK, 1)
        self.assertEqual(said(gate, "rider:ada", "request", ASK), "request 1 2 4 1 600 300")
        self.assertIsNone(gate.line_for(read_message(b"torn")))
        self.assertEqual(said(gate, "office:eve", "request", ASK), "request 3 2 4 1 600 300")

    def test_places_for_wheelchairs_are_of_version_2(self) -> None:
        self.assertEqual(said(Gate(CLOCK, 2), "rider:ada", "request", ASK), "request 1 2 4 1 600 300 0")
        self.assertEqual(said(Gate(CLOCK, 2), "rider:ada", "request", {**ASK, "chairs": 2}), "request 1 2 4 1 600 300 2")
        self.assertIsNone(said(Gate(CLOCK, 1), "rider:ada", "request", {**ASK, "chairs": 2}))

    def test_a_rider_cancels_the_own_request_alone(self) -> None:
        gate = Gate(CLOCK, 1)
        said(gate, "rider:ada", "request", ASK)
        self.assertIsNone(said(gate, "rider:bob", "cancel", {"id": 1}))
        self.assertIsNone(said(gate, "rider:ada", "cancel", {"id": 2}))
        self.assertIsNone(said(gate, "driver:1", "cancel", {"id": 1}))
        self.assertEqual(said(gate, "rider:ada", "cancel", {"id": 1}), "cancel 1")
        self.assertEqual(said(gate, "office:eve", "cancel", {"id": 1}), "cancel 1")
        self.assertIsNone(said(gate, "office:eve", "cancel", {"id": FIRST_MARK}))

    def test_a_driver_reports_of_the_own_vehicle_alone(self) -> None:
        gate = Gate(CLOCK, 1)
        self.assertEqual(said(gate, "driver:7", "at", {"vehicle": 7, "node": 3, "time": 90_000}), "at 7 3 90")
        self.assertEqual(said(gate, "driver:7", "done", {"vehicle": 7}), "done 7")
        self.assertEqual(said(gate, "office:eve", "off", {"vehicle": 7}), "off 7")
        for who, word in (("driver:8", "done"), ("driver:07", "done"), ("rider:7", "done"), ("driver:7", "clock"), ("driver:7", "batch"),
                          ("driver:7", "request"), ("bridge:1", "done"), ("", "done")):
            self.assertIsNone(said(gate, who, word, {"vehicle": 7, **ASK}), (who, word))

    def test_a_message_that_is_sent_again_is_played_once(self) -> None:
        gate = Gate(CLOCK, 1)
        self.assertEqual(said(gate, "driver:7", "done", {"vehicle": 7}, "a"), "done 7")
        self.assertIsNone(said(gate, "driver:7", "done", {"vehicle": 7}, "a"))
        self.assertEqual(said(gate, "driver:7", "done", {"vehicle": 7}, "b"), "done 7")
        self.assertEqual(said(gate, "driver:8", "done", {"vehicle": 8}, "a"), "done 8")

    def test_texts_that_are_no_message(self) -> None:
        good = {"id": "a", "who": "driver:7", "word": "done", "numbers": {"vehicle": 7}}
        self.assertIsNotNone(read_message(json.dumps(good).encode()))
        others: List[Tuple[str, object]] = [
            ("id", 1), ("who", None), ("numbers", []), ("numbers", {"vehicle": -1}), ("numbers", {"vehicle": True}),
            ("numbers", {"vehicle": 10 ** 18}), ("numbers", {"vehicle": "7"}), ("numbers", {"vehicle": 7.0}), ("id", "x" * 2_000)]
        for part, value in others:
            self.assertIsNone(read_message(json.dumps({**good, part: value}).encode()), (part, value))
        for body in (b"", b"null", b"[]", b"{}", b"\xff\xfe", b"[" * 1_000):
            self.assertIsNone(read_message(body))
        self.assertIsNone(said(Gate(CLOCK, 1), "rider:ada", "request", {"from": 1}))

    def test_the_bridge_s_own_lines_are_known(self) -> None:
        self.assertFalse(is_of_message("clock", (5,)))
        self.assertFalse(is_of_message("batch", ()))
        self.assertFalse(is_of_message("cancel", (FIRST_MARK,)))
        self.assertFalse(is_of_message("end", ()))
        self.assertTrue(is_of_message("cancel", (7,)))
        self.assertTrue(is_of_message("bad", (7,)))


class Players(WithFolder, unittest.IsolatedAsyncioTestCase):
    def player(self) -> FeedPlayer:
        path = str(self.folder / "pipe")
        os.mkfifo(path)
        player = FeedPlayer("f2", path, Gate(CLOCK, 1))
        self.addCleanup(player.close)
        return player

    async def test_what_stands_before_the_mark_was_played(self) -> None:
        player = self.player()
        self.assertTrue(player.see("done", (1,)))
        self.assertFalse(player.see("cancel", (FIRST_MARK + 10 ** 17 - 1,)))  # an earlier bridge's mark
        self.assertTrue(player.see("bad", (3,)))
        self.assertFalse(player.played.done())
        self.assertFalse(player.see("cancel", (player.mark,)))
        self.assertEqual(await player.played, 2)

    async def test_messages_behind_those_that_were_played_are_lines(self) -> None:
        player = self.player()
        bodies = [Message(name, "driver:1", "done", {"vehicle": 1}).text() for name in ("a", "b", "b")]
        self.assertEqual([player.take(body, 1) for body in bodies], [None, "done 1", "not-said"])
        self.assertEqual(player.origin_of("done 1"), Origin("a", "driver:1", "done 1"))
        with self.assertRaises(Misplaced):
            player.origin_of("done 2")
        self.assertEqual(player.origin_of("bad 9"), Origin("b", "driver:1", None))
        self.assertIsNone(player.origin_of("done 1"))

    async def test_lines_come_whole_through_a_full_pipe(self) -> None:
        player = self.player()
        lines = [f"cancel {number}" for number in range(20_000)]  # more than the pipe holds
        writing = asyncio.create_task(player.write(lines))
        read = b""
        while not writing.done() or read.count(b"\n") < len(lines):
            await asyncio.sleep(0)
            try:
                read += os.read(player.pipe, 65_536)
            except BlockingIOError:
                await asyncio.sleep(0.001)
        self.assertEqual(read.decode().splitlines(), lines)


class Tails(WithFolder, unittest.IsolatedAsyncioTestCase):
    async def test_whole_lines_as_they_come(self) -> None:
        path = self.folder / "kept.log"
        path.write_bytes(b"one\ntw")
        tail = LogTail(str(path))
        self.assertEqual(await tail.lines(), ["one"])
        self.assertEqual(await tail.lines(0.05), [])
        waiting = asyncio.create_task(tail.lines())
        await asyncio.sleep(0.02)
        with open(path, "ab") as file:
            file.write(b"o\nthree\nfo")
        self.assertEqual(await asyncio.wait_for(waiting, 2), ["two", "three"])
        tail.sync()
        tail.close()


class KeptLogs(WithFolder):
    def test_what_stands(self) -> None:
        self.assertEqual(read_kept(str(self.folder / "none")), Kept(0, 0, False))
        self.assertFalse(is_running(str(self.folder / "none")))
        text = "".join(line + "\n" for line in ROW_LOG)
        zone = self.row_zone(ROW_LOG)
        self.assertEqual(read_kept(zone.kept_log), Kept(8, len(text), False))
        with open(zone.kept_log, "a") as kept:
            kept.write("f1 request 2 4")
        self.assertEqual(read_kept(zone.kept_log), Kept(8, len(text), False))
        self.assertEqual(what_stands_open(self.row_zone(ROW_LOG).kept_log), "8 lines, 1 confirmed, 1 vehicles with stops to serve")

    def test_a_log_is_over_where_all_have_ended(self) -> None:
        self.assertTrue(read_kept(str(ROOT / "examples/morning.log")).over)
        ends = ["f2 end", "f1 cut", "d1 end"]
        for many in range(4):
            self.assertEqual(read_kept(self.row_zone(ROW_LOG + ends[:many]).kept_log).over, many == 3)

    def test_what_is_no_log(self) -> None:
        for text in (b"hello\n", b"\xff\xfe\n", b"fleet refused 1 line 1\n", b"\n", b"log 1 feeds 2 desks 3\n"):
            (self.folder / "kept.log").write_bytes(text)
            with self.assertRaises(CannotStart):
                read_kept(str(self.folder / "kept.log"))
        (self.folder / "kept.log").write_bytes(b"log 1 feeds 2")  # A session that was killed as it began.
        self.assertEqual(read_kept(str(self.folder / "kept.log")), Kept(0, 0, False))


class Sessions(WithFolder):
    """Sessions that go on, by shell scripts in the place of the program; the trials have the program itself."""

    def setUp(self) -> None:
        super().setUp()
        self.held: List[int] = []
        self.text = "".join(line + "\n" for line in ROW_LOG)

    def zone(self, script: str) -> Zone:
        """Returns a zone whose session broke off in mid-line, and whose program is this script; its log is `$2`."""
        path = self.folder / "program"
        path.write_text("#!/bin/sh\n" + script)
        path.chmod(0o755)
        zone = replace(self.row_zone(), program=str(path), resume=str(path))
        Path(zone.kept_log).write_text(self.text + "f1 clock 1")
        holder = Keeper(zone)
        holder.hold()
        self.addCleanup(holder.let_go)
        self.held = holder.held
        return zone

    def go_on(self, zone: Zone) -> "subprocess.Popen[bytes]":
        process = sessions.go_on(zone, read_kept(zone.kept_log), self.held)
        assert process is not None
        self.addCleanup(process.wait)
        self.addCleanup(process.kill)
        return process

    def test_the_output_becomes_the_kept_log(self) -> None:
        zone = self.zone('head -n 8 "$2"; echo f1 clock 200 = now 200; exec sleep 60\n')
        with open(zone.kept_log) as before:
            process = self.go_on(zone)
            self.assertEqual(before.read(), self.text + "f1 clock 1")  # Who has the old file open reads what stood there.
        self.assertTrue(is_running(zone.kept_log))
        self.assertFalse(Path(zone.resumed_log).exists())
        self.assertEqual(Path(zone.path("session.pid")).read_text(), f"{process.pid}\n")
        process.kill()
        process.wait()
        self.assertEqual(Path(zone.kept_log).read_text(), self.text + "f1 clock 200 = now 200\n")
        self.assertFalse(is_running(zone.kept_log))

    def test_pipes_are_emptied_before(self) -> None:
        zone = self.zone('head -n 8 "$2"; exec sleep 60\n')
        os.write(self.held[0], b"01 1 6 1 400 300\nclock 7\n")
        os.write(self.held[1], b"x" * 60_000)
        sessions.empty(self.held[1])
        self.go_on(zone)
        self.assertEqual(Path(zone.kept_log).read_text(), self.text)
        os.set_blocking(self.held[0], False)
        with self.assertRaises(BlockingIOError):
            os.read(self.held[0], 1)

    def test_it_waits_for_the_bridge(self) -> None:
        zone = self.zone('head -n 8 "$2"; exec sleep 60\n')
        with open(zone.path("bridge.lock"), "w") as bridge, ThreadPoolExecutor(1) as pool:
            fcntl.flock(bridge, fcntl.LOCK_EX)
            going_on = pool.submit(self.go_on, zone)
            time.sleep(0.2)
            self.assertFalse(going_on.done() or Path(zone.resumed_log).exists())
            fcntl.flock(bridge, fcntl.LOCK_UN)
            going_on.result(20)
        self.assertTrue(is_running(zone.kept_log))

    def test_a_session_whose_keeper_died_meanwhile_is_taken_over(self) -> None:
        zone = self.zone("exit 9\n")
        with open(zone.resumed_log, "w") as output:
            fcntl.flock(output, fcntl.LOCK_EX)
            other = subprocess.Popen(["sh", "-c", f"sleep 0.3; head -n 8 {zone.kept_log}; exec sleep 60"], stdout=output)
        self.addCleanup(other.wait)
        self.addCleanup(other.kill)
        self.assertIsNone(sessions.go_on(zone, read_kept(zone.kept_log), self.held))
        self.assertEqual(Path(zone.kept_log).read_text(), self.text)
        self.assertTrue(is_running(zone.kept_log))

    def test_what_it_says_in_place_of_the_log_is_told(self) -> None:
        for status in sessions.REFUSALS:
            zone = self.zone(f"echo no 5 reply; exit {status}\n")
            with self.assertRaisesRegex(CannotStart, f"ride_resume says 'no 5 reply' with status {status}"):
                self.go_on(zone)
            self.assertEqual(Path(zone.kept_log).read_text(), self.text + "f1 clock 1")

    def test_an_end_before_the_old_lines_may_be_tried_again(self) -> None:
        for script in ("exit 1", 'head -n 3 "$2"; exit 6', 'head -n 3 "$2"; kill -KILL $$'):
            zone = self.zone(script + "\n")
            with self.assertRaises(sessions.BrokeOff):
                self.go_on(zone)
            self.assertEqual(Path(zone.kept_log).read_text(), self.text + "f1 clock 1")

    def test_another_text_never_becomes_the_kept_log(self) -> None:
        zone = self.zone('head -n 8 "$2" | tr 7 8; exec sleep 60\n')
        with self.assertRaisesRegex(CannotStart, "does not begin with the lines"):
            self.go_on(zone)
        self.assertEqual(Path(zone.kept_log).read_text(), self.text + "f1 clock 1")
        self.assertFalse(is_running(zone.resumed_log))

    def test_without_the_program_it_says_what_stands_open(self) -> None:
        zone = replace(self.zone(""), resume="")
        Path(zone.kept_log).write_text(self.text)
        with self.assertRaisesRegex(CannotStart, "ride_resume is not there.*8 lines, 1 confirmed, 1 vehicles with stops"):
            self.go_on(zone)
        with self.assertRaisesRegex(CannotStart, "No such file"):
            self.go_on(replace(zone, resume=str(self.folder / "none")))


class Keepers(WithFolder):
    def keep(self, program: str, log: str) -> Tuple[int, str]:
        """Returns the status of a keeper over this kept log, whose programs are this shell script, and what it says."""
        path = self.folder / "program"
        path.write_text("#!/bin/sh\n" + program)
        path.chmod(0o755)
        (self.folder / "kept.log").write_text(log)
        for name in (signal.SIGTERM, signal.SIGINT):
            self.addCleanup(signal.signal, name, signal.getsignal(name))
        with contextlib.redirect_stderr(io.StringIO()) as said:
            status = keeper.main(replace(self.row_zone(), program=str(path), resume=str(path)))
        return status, said.getvalue()

    def test_how_it_ends_says_whether_the_session_may_go_on(self) -> None:
        text, ends = "".join(line + "\n" for line in ROW_LOG), "f1 end\nf2 end\nd1 end\n"
        cases = [('echo log 1 feeds 2 desks 1; exit 0', "", 0), ('echo log 1 feeds 2 desks 1; kill -KILL $$', "", BROKE_OFF),
                 ('echo log 1 feeds 2 desks 1; exit 6', "log 1", BROKE_OFF), ("echo fleet refused 1 line 1; exit 4", "", CANNOT_START),
                 ("exit 1", "", CANNOT_START), ("exit 0", text + ends, CANNOT_START), ("exit 0", "hello\n", CANNOT_START),
                 ('cat "$2"; exit 0', text, 0), ('cat "$2"; kill -KILL $$', text, BROKE_OFF), ("exit 1", text, BROKE_OFF),
                 ("echo no 3 reply; exit 7", text, CANNOT_START)]
        for program, log, status in cases:
            ended, said = self.keep(program + "\n", log)
            self.assertEqual((ended, said.count("\n")), (status, 0 if status == 0 else 1), (program, log[-20:], said))


if __name__ == "__main__":
    unittest.main()
