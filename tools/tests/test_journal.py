"""Tests of the journal: what is passed on is on the disk, whatever is killed, full or closed; its heads are those of the inspector."""
import hashlib
import os
import random
import resource
import select
import shutil
import subprocess
import sys
import tempfile
import time
import unittest
from unittest import mock

from files_at_hand import ABOARD, ROOT

from running.journaling import Journal, open_log

TOOL = [sys.executable, "-B", os.path.join(ROOT, "tools", "journal.py")]
SEAL = [sys.executable, "-B", os.path.join(ROOT, "inspector", "seal.py")]
SEED = 46


def sha(text: bytes) -> bytes:
    """Returns the SHA-256 of a text."""
    return hashlib.sha256(text).digest()


class AtHand(unittest.TestCase):
    """A folder, and a journal that is run in it."""

    def setUp(self):
        folder = tempfile.TemporaryDirectory()
        self.addCleanup(folder.cleanup)
        self.folder = folder.name

    def at(self, name):
        """Returns the path of a name in the folder."""
        return os.path.join(self.folder, name)

    def text(self, name):
        """Returns a file's bytes."""
        with open(self.at(name), "rb") as file:
            return file.read()

    def write(self, name, text):
        """Writes a file."""
        with open(self.at(name), "wb") as file:
            file.write(text)

    def journal(self, text, *words, **how):
        """Returns the status of a journal over these bytes, what it passes on, and what it says in how many lines."""
        how = {"stdout": subprocess.PIPE, **how}
        done = subprocess.run([*TOOL, *words], input=text, stderr=subprocess.PIPE, cwd=self.folder, timeout=60, check=False, **how)
        said = done.stderr.decode()
        self.assertNotIn("Traceback", said)
        return done.returncode, done.stdout, said

    def refused(self, status, part, text, *words, **how):
        """Checks that a journal says one line with this part, and ends with this status."""
        ended, _, said = self.journal(text, *words, **how)
        self.assertEqual((ended, said.count("\n")), (status, 1), said)
        self.assertIn(part, said)


class Lines(AtHand):
    def test_are_kept_and_passed_on(self):
        log = ABOARD.encode()
        self.assertEqual(self.journal(log, "log"), (0, log, ""))
        self.assertEqual(self.text("log"), log)

    def test_a_torn_end_of_the_input_is_no_line(self):
        status, passed, said = self.journal(b"log 1 feeds 1 desks 1\nf1 ba", "log")
        self.assertEqual((status, passed, self.text("log")), (0, b"log 1 feeds 1 desks 1\n", b"log 1 feeds 1 desks 1\n"))
        self.assertIn("5 bytes", said)

    def test_an_empty_input(self):
        self.assertEqual(self.journal(b"", "log"), (0, b"", ""))
        self.assertEqual(self.text("log"), b"")

    def test_no_line_is_passed_on_before_it_is_on_the_disk_and_what_waits_shares_a_sync(self):
        lines = [b"f1 clock %d = now %d\n" % (second, second) for second in range(100)]
        source, feed = os.pipe()
        passed, target = os.pipe()
        log = open_log(self.at("log"), False)
        early = []

        def sync(handle):
            early.append((bool(select.select([passed], [], [], 0)[0]), os.pread(handle, 10_000, 0)))

        os.write(feed, b"".join(lines))
        os.close(feed)
        with mock.patch("running.kept_file.os.fdatasync", sync):
            Journal(log, None, source, target).run()
        self.assertEqual(early, [(False, b"".join(lines))])
        self.assertEqual(os.read(passed, 10_000), b"".join(lines))
        for handle in (source, passed, target):
            os.close(handle)
        log.close()


class Again(AtHand):
    def test_a_log_with_lines_is_refused(self):
        self.write("log", b"log 1 feeds 1 desks 1\n")
        self.refused(2, "not empty", b"f1 bad 1\n", "log")
        self.assertEqual(self.text("log"), b"log 1 feeds 1 desks 1\n")

    def test_a_torn_line_is_moved_away(self):
        self.write("log", b"log 1 feeds 1 desks 1\nf1 bad 1\nf1 ba")
        status, passed, said = self.journal(b"f1 bad 2\n", "log", "--again")
        self.assertEqual((status, passed, said.count("\n")), (0, b"f1 bad 2\n", 1))
        self.assertEqual(self.text("log"), b"log 1 feeds 1 desks 1\nf1 bad 1\nf1 bad 2\n")
        self.assertEqual(self.text("log.torn"), b"f1 ba\n")

    def test_a_log_without_a_whole_line_is_begun_anew(self):
        self.write("log", b"log 1 fe")
        self.assertEqual(self.journal(b"log 1 feeds 1 desks 1\n", "log", "--again")[0], 0)
        self.assertEqual(self.text("log"), b"log 1 feeds 1 desks 1\n")

    def test_a_second_head_is_refused(self):
        self.write("log", b"log 1 feeds 1 desks 1\n")
        self.refused(2, "head of another log", b"log 1 feeds 1 desks 1\n", "log", "--again")
        self.assertEqual(self.text("log"), b"log 1 feeds 1 desks 1\n")

    def test_a_kill_at_any_moment_loses_nothing_that_was_passed_on(self):
        draw, lines = random.Random(SEED), [b"f1 clock %d = now %d\n" % (second, second) for second in range(20_000)]
        kept = []
        for _ in range(8):
            with subprocess.Popen([*TOOL, self.at("log"), "--again"], stdin=subprocess.PIPE, stdout=subprocess.PIPE,
                                  stderr=subprocess.DEVNULL) as tool:
                passed = self._feed_and_kill(tool, lines[len(kept):], draw.uniform(0.05, 0.3))
            stands = self.text("log").splitlines(keepends=True)
            self.assertEqual(stands, lines[:len(stands)])
            self.assertLessEqual(len(kept) + passed.count(b"\n"), len(stands))
            kept = stands
        self.assertGreater(len(kept), 100)

    def _feed_and_kill(self, tool, lines, seconds):
        """Returns what a journal passes on of lines that come at once, until it is killed."""
        os.set_blocking(tool.stdin.fileno(), False)
        end, passed, text = time.monotonic() + seconds, b"", b"".join(lines[:4_000])
        while time.monotonic() < end:
            try:
                text = text[os.write(tool.stdin.fileno(), text[:500]):]
            except BlockingIOError:
                pass
            if select.select([tool.stdout], [], [], 0.0005)[0]:
                passed += os.read(tool.stdout.fileno(), 65_536)
        tool.kill()
        return passed + tool.stdout.read()


class Heads(AtHand):
    def test_the_chain_of_two_lines_by_hand(self):
        first = sha(sha(b"ride_dispatch log chain 1") + sha(b"log 1 feeds 1 desks 1\n"))
        second = sha(first + sha(b"f1 bad 1\n"))
        self.journal(b"log 1 feeds 1 desks 1\n", "log", "--chain", "heads")
        self.journal(b"f1 bad 1\n", "log", "--again", "--chain", "heads")
        due = [f"ride_dispatch head 1 line {line} chain {head.hex()}\n" for line, head in ((1, first), (2, second))]
        self.assertEqual(self.text("heads").decode(), "".join(due))

    def test_heads_that_a_crash_took_are_made_again(self):
        self.journal(ABOARD.encode(), "log", "--chain", "heads")
        whole = self.text("heads")
        self.write("heads", whole[:40])
        self.journal(b"", "log", "--again", "--chain", "heads")
        self.assertEqual(self.text("heads"), whole)

    def test_another_log_or_one_that_lost_lines_is_refused(self):
        lines = ABOARD.encode().splitlines(keepends=True)
        self.journal(b"".join(lines), "log", "--chain", "heads")
        self.write("short", b"".join(lines[:-1]))
        self.write("other", b"".join(lines).replace(b"f1 at 1 2 60", b"f1 at 1 2 61"))
        self.refused(2, f"{len(lines) - 1} lines", b"", "short", "--again", "--chain", "heads")
        self.refused(2, "not the log of heads", b"", "other", "--again", "--chain", "heads")
        self.refused(2, "no file of heads", b"", "log", "--again", "--chain", "short")
        self.refused(2, "not empty", b"", "new", "--chain", "heads")

    @unittest.skipUnless(shutil.which("ssh-keygen"), "ssh-keygen is not installed")
    def test_the_inspector_checks_a_signed_head_of_the_journal(self):
        self.journal(ABOARD.encode(), "log", "--chain", "heads")
        line = ABOARD.count("\n")
        os.mkdir(self.at("seals"))
        head = self.at(f"seals/head_{line:07}")
        self.write(head, self.text("heads").splitlines(keepends=True)[-1])
        subprocess.run(["ssh-keygen", "-q", "-t", "ed25519", "-N", "", "-C", "", "-f", self.at("operator")], check=True)
        subprocess.run([*SEAL, "heads", self.at("log"), self.at("seals"), "--key", self.at("operator")], check=True,
                       stdout=subprocess.DEVNULL)  # which ends with status 1 where the journal's head is another
        self.write("signers", b"operator " + self.text("operator.pub"))
        words = [*SEAL, "check-heads", self.at("log"), self.at("seals"), "--signers", self.at("signers")]
        done = subprocess.run(words, stdout=subprocess.PIPE, text=True, check=False)
        self.assertEqual((done.returncode, done.stdout), (0, f"lines {line} heads 1, the last after line {line}: all hold\n"))


class Faults(AtHand):
    def test_of_outputs(self):
        log = ABOARD.encode()
        with open("/dev/full", "wb") as full:
            self.refused(6, "standard output: No space left", log, "log", stdout=full)
        self.assertEqual(self.text("log"), log)
        self.refused(6, "standard output: Bad file descriptor", log, "closed", preexec_fn=lambda: os.close(1))

    def test_of_a_reader_that_has_gone(self):
        reads, writes = os.pipe()
        os.close(reads)
        self.refused(6, "standard output: Broken pipe", ABOARD.encode(), "log", stdout=writes)
        os.close(writes)
        self.assertEqual(self.text("log"), ABOARD.encode())

    def test_a_full_disk_leaves_whole_lines(self):
        limit = 50  # bytes of a file; the lines below come to 62
        first, more = b"log 1 feeds 1 desks 1\nf1 bad 1\n", b"f1 bad 2\nf1 bad 3\nf1 bad 4\n"
        self.write("log", first)
        self.refused(6, "log: File too large", more, "log", "--again",
                     preexec_fn=lambda: resource.setrlimit(resource.RLIMIT_FSIZE, (limit, limit)))
        self.assertEqual(self.text("log"), first)

    def test_of_words_and_files(self):
        self.refused(2, "required: LOG", b"")
        self.refused(2, "Is a directory", b"", self.folder)
        self.refused(2, "No such file or directory", b"", "none/log")
        self.refused(2, "no regular file", b"", "/dev/null")
        self.refused(2, "another program appends to it", b"", "log", "--chain", "log")
        self.refused(2, "more than 131,072 bytes", b"x" * 200_000, "log")
        self.assertIn("journal.py day.log --chain day.heads", self.journal(b"", "--help")[1].decode())


if __name__ == "__main__":
    unittest.main()
