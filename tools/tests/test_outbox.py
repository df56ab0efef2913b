"""Tests of the outbox: each command once and in order, whatever is killed, beside a session of the program and beside hand-made logs."""
import fcntl
import os
import random
import select
import signal
import struct
import subprocess
import sys
import tempfile
import termios
import time
import unittest

from files_at_hand import EXAMPLES, ROOT

from running.feed_lines import says_nothing, spelled

PROGRAM = os.environ.get("RIDE_DISPATCH", os.path.join(ROOT, "crates", "ride_dispatch", "out", "ride_dispatch"))
TOOL = [sys.executable, "-B", os.path.join(ROOT, "tools", "outbox.py")]
SEED = 46
PIECE = 10  # commands that a client gives at once
WORDS_OF_TOWN = ["--map", os.path.join(EXAMPLES, "map.gr"), "--fleet", os.path.join(EXAMPLES, "fleet.txt")]  # of a log of version 2

# Lines of a feed, and how a log of version 1 and one of version 2 spell them by docs/formats.md: "" for no answer, None for a bad line.
SPELLINGS = [
    (b"", "", ""), (b" \t ", "", ""), (b"\r", "", ""), (b"# a", "", ""), (b"  # a", "", ""), (b"#" * 300, "", ""),
    (b" " * 201, None, None), (b" #" + b"a" * 200, None, None), (b" " * 200, "", ""),
    (b"clock 7", "clock 7", "clock 7"), (b" clock\t007 \r", "clock 7", "clock 7"), (b"clock", None, None), (b"clock 7 8", None, None),
    (b"clock 7 # a", None, None), (b"Clock 7", None, None), (b"clock -7", None, None), (b"clock 7\r8", None, None),
    (b"clock " + b"0" * 17 + b"7", "clock 7", "clock 7"), (b"clock " + b"0" * 18 + b"7", None, None), (b"clock \xc2\xb2", None, None),
    (b"batch", "batch", "batch"), (b"batch 1", None, None), (b"at 1 2 3", "at 1 2 3", "at 1 2 3"), (b"tick 1", None, None),
    (b"request 1 2 3 4 5 6", "request 1 2 3 4 5 6", "request 1 2 3 4 5 6 0"),
    (b"request 1 2 3 4 5 6 7", None, "request 1 2 3 4 5 6 7"), (b"request 1 2 3 4 5", None, None), (b"clock 1\x0b", None, None),
]
HEAD = "log 1 feeds 2 desks 1\n"


class Lines(unittest.TestCase):
    def test_by_the_page_of_formats(self):
        for line, *dues in SPELLINGS:
            for version, due in zip((1, 2), dues):
                with self.subTest(line=line, version=version):
                    self.assertEqual("" if says_nothing(line) else spelled(line, version), due)

    @unittest.skipUnless(os.path.exists(PROGRAM), f"{PROGRAM} is not there (RIDE_DISPATCH names another)")
    def test_as_the_program_spells_them(self):
        with tempfile.NamedTemporaryFile() as feed:
            feed.write(b"".join(line + b"\n" for line, *_ in SPELLINGS))
            feed.flush()
            done = subprocess.run([PROGRAM, "replay", *WORDS_OF_TOWN, "--feed", feed.name], stdout=subprocess.PIPE, text=True, check=True)
        said = [line[3:] for line in done.stdout.splitlines() if line.startswith("f1 ")]
        answers = [None if line.startswith("bad ") else line.split(" = ")[0] for line in said[:-1]]
        self.assertEqual(answers, [due for *_, due in SPELLINGS if due != ""])


class AtHand(unittest.TestCase):
    """A folder with a pipe that is held, a log, and an outbox that is run there."""

    def setUp(self):
        folder = tempfile.TemporaryDirectory()
        self.addCleanup(folder.cleanup)
        self.folder = folder.name
        os.mkfifo(self.at("feed"))
        self.held = os.open(self.at("feed"), os.O_RDWR | os.O_NONBLOCK)
        self.addCleanup(lambda: os.close(self.held))

    def at(self, name):
        """Returns the path of a name in the folder."""
        return os.path.join(self.folder, name)

    def write(self, name, text):
        """Writes a file."""
        with open(self.at(name), "w", encoding="utf-8") as file:
            file.write(text)

    def words(self, *more):
        """Returns the words of an outbox."""
        return [*TOOL, self.at("feed"), self.at("log"), "--feed", "1", "--kept", self.at("kept"), "--pause", "0.002", *more]

    def outbox(self, text, words):
        """Returns the status of an outbox over these lines, what it prints, and what it says."""
        done = subprocess.run(words, input=text.encode(), stdout=subprocess.PIPE, stderr=subprocess.PIPE, timeout=60, check=False)
        self.assertNotIn(b"Traceback", done.stderr)
        return done.returncode, done.stdout.decode(), done.stderr.decode()

    def refused(self, status, part, text="", words=None):
        """Checks that an outbox says one line with this part, and ends with this status."""
        ended, _, said = self.outbox(text, words or self.words())
        self.assertEqual((ended, said.count("\n")), (status, 1), said)
        self.assertIn(part, said)


class HandMade(AtHand):
    def test_all_is_answered(self):
        self.write("log", HEAD + "f1 clock 7 = now 7\nf2 bad 1\nf1 bad 2\n")
        self.write("kept", "clock 07\ntick\n")
        self.assertEqual(self.outbox("", self.words()), (0, "kept 2\n1 clock 07 = now 7\n2 tick = bad 2\n", ""))
        self.assertEqual(self.outbox("", self.words("--after", "1")), (0, "kept 2\n2 tick = bad 2\n", ""))

    def test_what_waits_in_the_pipe_is_not_sent_twice(self):
        self.write("log", HEAD + "f1 clock 7 = now 7\n")
        self.write("kept", "clock 7\nclock 8\nclock 9\ncloc")
        with subprocess.Popen(self.words(), stdin=subprocess.PIPE, stdout=subprocess.PIPE, text=True) as tool:
            mark = self.read_pipe().decode()
            self.assertRegex(mark, r"\A\ncancel [5-9][0-9]{17}\n\Z")
            self.say(f"f1 clock 8 = now 8\nf1 {mark.strip()} = refused 7\n")  # so that `clock 8` was in the pipe, and `clock 9` never
            self.assertEqual(self.read_pipe(), b"clock 9\n")
            self.say("f1 clock 9 = now 9\n")
            said, _ = tool.communicate("")
        self.assertEqual((tool.returncode, said), (0, "kept 3\n1 clock 7 = now 7\n2 clock 8 = now 8\n3 clock 9 = now 9\n"))

    def read_pipe(self):
        """Returns what is written into the pipe next."""
        self.assertTrue(select.select([self.held], [], [], 20)[0])
        return os.read(self.held, 65_536)

    def say(self, text):
        """Adds lines to the log."""
        with open(self.at("log"), "a", encoding="ascii") as log:
            log.write(text)

    def test_a_command_is_kept_before_it_is_written(self):
        self.write("log", HEAD)
        with subprocess.Popen(self.words(), stdin=subprocess.PIPE, stdout=subprocess.DEVNULL) as tool:
            tool.stdin.write(b"# a\n\nclock 7\n")
            tool.stdin.flush()
            self.assertEqual(self.read_pipe(), b"clock 7\n")
            with open(self.at("kept"), "rb") as kept:
                self.assertEqual(kept.read(), b"clock 7\n")
            tool.kill()

    def test_another_writer_is_found_out(self):
        self.write("kept", "clock 7\n")
        for said in ("f1 clock 8 = now 8\n", "f1 bad 1\n", "f1 clock 7 = now 7\nf1 batch = asked 1\n"):
            self.write("log", HEAD + said)
            self.refused(2, "another writes into this feed")

    def test_a_feed_that_has_ended(self):
        for last, kept in (("cut", 1), ("end", 1)):
            self.write("log", HEAD + f"f1 clock 7 = now 7\nf1 {last}\n")
            self.write("kept", "clock 7\nclock 8\n")
            self.refused(6, f"({last}); {kept} commands have no answer")

    def test_of_words_and_files(self):
        self.write("log", HEAD)
        self.refused(2, "required", words=TOOL)
        self.refused(2, "no whole number from 1 to 2", words=[*self.words(), "--feed", "3"])
        self.refused(2, "no named pipe", words=[*TOOL, self.at("log"), self.at("log"), "--feed", "1", "--kept", self.at("kept")])
        self.refused(2, "No such file", words=[*TOOL, self.at("feed"), self.at("none"), "--feed", "1", "--kept", self.at("kept")])
        self.write("log", "p sp 4 6\n")
        self.refused(2, "head of one: p sp 4 6")
        self.write("log", "log 1 feeds 1 desks 1\n")
        self.refused(2, "none of f2", words=[*self.words(), "--feed", "2"])


@unittest.skipUnless(os.path.exists(PROGRAM), f"{PROGRAM} is not there (RIDE_DISPATCH names another)")
class Killed(AtHand):
    """A session of the program, and an outbox that is killed at random moments."""

    def begin(self):
        """Returns a running session, whose drivers' feed is held too."""
        self.given = {}  # how many commands each outbox was given, by process
        os.mkfifo(self.at("drivers"))
        drivers = os.open(self.at("drivers"), os.O_RDWR | os.O_NONBLOCK)
        with open(self.at("log"), "wb") as log:
            session = subprocess.Popen([PROGRAM, "serve", *WORDS_OF_TOWN, "--riders", self.at("feed"), "--drivers", self.at("drivers"),
                                        "--workers", "1", "--desks", "1"], stdout=log)
        self.addCleanup(session.wait)
        self.addCleanup(session.kill)
        self.until(lambda: os.path.getsize(self.at("log")))
        return session, drivers

    def until(self, holds, seconds=20):
        """Waits until this holds, at most for so many seconds."""
        end = time.monotonic() + seconds
        while not holds() and time.monotonic() < end:
            time.sleep(0.005)

    def waiting(self):
        """Returns how many bytes wait in the pipe."""
        return struct.unpack("i", fcntl.ioctl(self.held, termios.FIONREAD, bytes(4)))[0]

    def kept(self):
        """Returns the commands that an outbox kept, as a client that was interrupted finds them."""
        try:
            with open(self.at("kept"), encoding="ascii") as file:
                return [line[:-1] for line in file if line.endswith("\n") and not line.startswith("#")]
        except FileNotFoundError:
            return []

    def test_at_random_moments(self):
        draw, (session, drivers) = random.Random(SEED), self.begin()
        commands = [f"clock {second}" if second % 3 else f"done {second}" for second in range(1, 40_001)]  # a `done` twice shows
        for _ in range(10):
            with open(self.at("said"), "wb") as said, subprocess.Popen(self.words(), stdin=subprocess.PIPE, stdout=said) as tool:
                os.set_blocking(tool.stdin.fileno(), False)
                self.until(lambda: os.path.getsize(self.at("said")))
                self.feed(tool, commands, draw.uniform(0, 0.1))
                session.send_signal(signal.SIGCONT)
                self.feed(tool, commands, draw.uniform(0, 0.3))
                session.send_signal(signal.SIGSTOP)
                self.until(lambda: self.feed(tool, commands, draw.uniform(0, 0.05)) or self.waiting(), 2)
                tool.kill()
        session.send_signal(signal.SIGCONT)
        rest = "".join(command + "\n" for command in commands[len(self.kept()):])
        status, said, _ = self.outbox(rest, self.words())
        self.assertEqual(status, 0)
        self.assertEqual([line.split(" = ")[0] for line in said.splitlines()[1:]],
                         [f"{number} {command}" for number, command in enumerate(commands, 1)])
        self.assertEqual(self.on_the_log(), commands)
        self.end(session, drivers)

    def feed(self, tool, commands, seconds):
        """Gives an outbox the commands that it has not kept, a few at a time, for so many seconds."""
        end = time.monotonic() + seconds
        begin = self.given.setdefault(tool.pid, len(self.kept()))
        while time.monotonic() < end:
            piece = "".join(command + "\n" for command in commands[begin:begin + PIECE]).encode()
            try:
                begin += PIECE if os.write(tool.stdin.fileno(), piece) else 0  # below 4,096 bytes, which a pipe takes whole
            except BlockingIOError:
                pass
            time.sleep(0.002)
        self.given[tool.pid] = begin

    def on_the_log(self):
        """Returns the commands of the log's first feed, without marks: cancellations, of which the client has none."""
        with open(self.at("log"), encoding="ascii") as log:
            said = [line[3:].split(" = ")[0] for line in log if line.startswith("f1 ")]
        self.assertGreater(sum(command.startswith("cancel ") for command in said), 0)  # commands were left in the pipe
        return [command for command in said if not command.startswith("cancel ")]

    def end(self, session, drivers):
        """Ends both feeds, and audits the log."""
        os.close(drivers)
        os.close(self.held)
        self.held = os.open(os.devnull, os.O_RDONLY)
        self.assertEqual(session.wait(60), 0)
        done = subprocess.run([PROGRAM, "audit", *WORDS_OF_TOWN, "--log", self.at("log")], stdout=subprocess.PIPE, text=True, check=True)
        self.assertRegex(done.stdout, r"\Ayes .* finished yes\n\Z")


if __name__ == "__main__":
    unittest.main()
