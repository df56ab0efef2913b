"""Seals: chains by hand, and whole rounds with a key of the test's own."""
import hashlib
import json
import shutil
import subprocess
import sys
import tempfile
import unittest
from pathlib import Path

sys.path.insert(0, str(Path(__file__).resolve().parent))

from worked import LOG, MAP, call, write

from chain import Head, heads, read_head, receipt_of
from seal import main
from texts import Ended


def sha(text: bytes) -> bytes:
    """Returns the SHA-256 of a text."""
    return hashlib.sha256(text).digest()


class Chain(unittest.TestCase):
    def test_the_chain_of_two_lines(self):
        first = sha(sha(b"ride_dispatch log chain 1") + sha(b"a\n"))
        second = sha(first + sha(b"b\n"))
        self.assertEqual(list(heads([b"a\n", b"b\n"])), [Head(1, first), Head(2, second)])

    def test_a_head_is_a_line(self):
        head = Head(17, bytes(32))
        self.assertEqual(head.text(), b"ride_dispatch head 1 line 17 chain " + b"0" * 64 + b"\n")
        self.assertEqual(read_head(head.text(), ""), head)
        for text in (b"", head.text()[:-1], head.text() * 2, b"\xff" * 9, head.text().replace(b"17", b"017")):
            self.assertRaises(Ended, read_head, text, "")

    def test_foreign_receipts(self):
        for told in (None, 5, [], {}, {"before": "0" * 64, "links": [], "text": "", "head": "", "signature": "", "line": True},
                     {"before": "0" * 63, "links": ["x"], "text": 5, "line": 1}):
            self.assertRaises(Ended, receipt_of, told, "")


@unittest.skipUnless(shutil.which("ssh-keygen"), "ssh-keygen is not installed")
class Rounds(unittest.TestCase):
    def setUp(self):
        folder = tempfile.TemporaryDirectory()
        self.addCleanup(folder.cleanup)
        self.folder = folder.name
        self.log, self.map = write(self.folder, "log", LOG), write(self.folder, "map.gr", MAP)
        for name in ("operator", "other"):
            words = ["ssh-keygen", "-q", "-t", "ed25519", "-N", "", "-C", "", "-f", self.at(name)]
            subprocess.run(words, check=True)
        public = Path(self.at("operator.pub")).read_text()
        self.signers = write(self.folder, "signers", f"operator {public}")

    def at(self, name: str) -> str:
        """Returns the path of a name in the test's folder."""
        return str(Path(self.folder) / name)

    def seal(self, *words: str, text: bytes = b"") -> tuple[str, int]:
        """Returns what the command writes and its status."""
        return call(main, *words, text=text)

    def check(self, command: str, *words: str) -> tuple[str, int]:
        """Returns what a check says and its status."""
        return self.seal(command, *words, "--signers", self.signers)

    def sealed(self, key: str = "operator") -> str:
        """Signs heads after lines 3, 6 and 7 of the log and returns their folder."""
        told, status = self.seal("heads", "-", self.at("seals"), "--every", "3", "--key", self.at(key), text=LOG.encode())
        self.assertEqual((told.count("head_"), status), (3, 0))
        return self.at("seals")

    def test_heads(self):
        seals = self.sealed()
        self.assertEqual(self.check("check-heads", self.log, seals), (
            "lines 7 heads 3, the last after line 7: all hold\n", 0))
        other = write(self.folder, "other", LOG.replace("asked 1", "asked 2"))
        self.assertEqual(self.check("check-heads", other, seals), ("the log differs before its head of line 3\n", 1))
        shorter = write(self.folder, "shorter", "".join(LOG.splitlines(keepends=True)[:6]))
        self.assertEqual(self.check("check-heads", shorter, seals), (
            "the log ends at line 6, before its head of line 7\n", 1))

    def test_heads_are_not_signed_over_those_of_another_log(self):
        seals = self.sealed()
        self.assertEqual(self.seal("heads", self.log, seals, "--every", "3", "--key", self.at("operator"))[1], 0)  # begun anew
        other = write(self.folder, "other", LOG.replace("asked 1", "asked 2"))
        self.assertEqual(self.seal("heads", other, seals, "--every", "3", "--key", self.at("operator")), ("", 1))
        self.assertEqual(self.check("check-heads", self.log, seals)[1], 0)

    def test_the_longest_line_of_a_log_and_a_longer_one(self):
        head = LOG.splitlines(keepends=True)[0]
        for length, status in ((131_072, 0), (131_073, 2)):
            log = write(self.folder, "long", head + "x" * length + "\n")
            self.assertEqual(self.seal("heads", log, self.at(f"seals_{length}"), "--key", self.at("operator"))[1], status)

    def test_heads_of_another_key(self):
        self.assertEqual(self.check("check-heads", self.log, self.sealed("other"))[1], 1)

    def test_a_receipt(self):
        seals = self.sealed()
        for line in range(1, 8):
            told, status = self.seal("receipt", self.log, seals, str(line))
            self.assertEqual(status, 0)
            receipt = write(self.folder, "receipt", told)
            said, status = self.check("check-receipt", receipt)
            self.assertEqual((said.strip().split(": ")[-1], status), (LOG.splitlines()[line - 1], 0))

    def test_a_receipt_with_another_line(self):
        told = json.loads(self.seal("receipt", self.log, self.sealed(), "2")[0])
        for name, value in (("text", told["text"].replace("600", "900")), ("line", 3), ("links", []),
                            ("before", "0" * 64), ("head", told["head"].replace("line 3", "line 4"))):
            receipt = write(self.folder, "receipt", json.dumps({**told, name: value}))
            self.assertEqual(self.check("check-receipt", receipt)[1], 1, name)

    def test_a_receipt_of_another_log(self):
        other = write(self.folder, "other", LOG.replace("asked 1", "asked 2"))
        self.assertEqual(self.seal("receipt", other, self.sealed(), "2"), ("", 1))

    def test_a_manifest(self):
        manifest = self.at("manifest.json")
        self.assertEqual(self.seal("manifest", manifest, "--key", self.at("operator"), self.map, self.log)[1], 0)
        self.assertEqual(self.check("check-manifest", manifest, self.map, self.log), (
            "2 of 2 files are those of the manifest, which has 2\n", 0))
        other = write(self.folder, "log", LOG + "\n")
        said, status = self.check("check-manifest", manifest, other)
        self.assertEqual((said.splitlines()[0], status), (f"{other} is none of the manifest's files", 1))
        Path(manifest).write_text(Path(manifest).read_text().replace("map.gr", "mop.gr"))
        self.assertEqual(self.check("check-manifest", manifest, self.map), (
            "the manifest is not signed by this identity\n", 1))

    def test_bad_input(self):
        seals = self.sealed()
        for words in ((), ("x",), ("heads", "/none", seals, "--key", self.at("operator")),
                      ("heads", self.log, seals, "--key", "/none"), ("heads", self.log, seals, "--key", self.log),
                      ("heads", self.log, seals, "--every", "0", "--key", self.at("operator")),
                      ("heads", self.log, self.log, "--key", self.at("operator")),
                      ("receipt", self.log, seals, "8"), ("receipt", self.log, seals, "-1"),
                      ("receipt", self.log, self.folder, "1"), ("check-receipt", self.log, "--signers", self.signers),
                      ("check-receipt", "/none", "--signers", self.signers),
                      ("check-heads", self.log, seals, "--signers", "/none"),
                      ("check-manifest", self.map, self.map, "--signers", self.signers),
                      ("manifest", self.at("m"), "--key", self.at("operator"), "/none")):
            with self.subTest(words):
                self.assertEqual(self.seal(*words), ("", 2))


if __name__ == "__main__":
    unittest.main()
