"""Bad input of any kind to each command: one line on standard error and its status, never a traceback."""
import shutil
import subprocess
import sys
import tempfile
import unittest
from pathlib import Path

sys.path[:0] = [str(Path(__file__).resolve().parent), str(Path(__file__).resolve().parents[1])]

import beside_feeds
import check_log
import explain
import seal
from worked import call, write

EXAMPLES = Path(__file__).resolve().parents[2] / "examples"
FILES = {"MAP": "map.gr", "FLEET": "fleet.txt", "LOG": "morning.log", "FEED": "morning.txt"}
MORNING = (EXAMPLES / FILES["LOG"]).read_bytes()
UNREADABLE = "/proc/self/mem"  # its first byte cannot be read, also not by the superuser
TEXTS = {
    "foreign": b"%PDF-1.4\nnothing of ours\n", "binary": bytes(range(256)) * 50, "empty": b"", "torn": MORNING[:len(MORNING) // 2],
    "a line without end": b"x" * 200_000, "JSON of another kind": b'{"links": [1], "files": 3}', "JSON that is too deep": b"[" * 100_000}
KINDS = ["missing", "a folder", "unreadable", *TEXTS]
UNREAD = dict.fromkeys(KINDS[:3], 5)
SIGNED = {kind: 1 for kind in TEXTS}  # no such signer there: what is checked does not hold

# The words of a command that is right, the one of them that is replaced by bad files, the status where it is no 2.
TABLE = [
    (check_log, "MAP FLEET LOG", "MAP", {**dict.fromkeys(KINDS, 3), **UNREAD}),
    (check_log, "MAP FLEET LOG", "FLEET", {**dict.fromkeys(KINDS, 4), **UNREAD, "empty": 7}),
    (check_log, "MAP FLEET LOG", "LOG", {**dict.fromkeys(KINDS, 7), **UNREAD}),
    (explain, "MAP FLEET LOG 109", "MAP", {}), (explain, "MAP FLEET LOG 109", "FLEET", {}),
    (explain, "MAP FLEET LOG 109", "LOG", {}), (explain, "MAP FLEET LOG 109", "109", {}),
    (beside_feeds, "LOG FEED", "LOG", {}), (beside_feeds, "LOG FEED", "FEED", dict.fromkeys(TEXTS, 1)),
    (seal, "heads LOG NEW --key KEY", "LOG", {"torn": 0}), (seal, "heads LOG NEW --key KEY", "KEY", {}),
    (seal, "heads LOG NEW --key KEY", "NEW", {"missing": 0, "a folder": 0}),
    (seal, "heads LOG NEW --key KEY --every 20", "20", {}),
    (seal, "receipt LOG SEALS 33", "LOG", {}), (seal, "receipt LOG SEALS 33", "SEALS", {}), (seal, "receipt LOG SEALS 33", "33", {}),
    (seal, "check-receipt RECEIPT --signers SIGNERS", "RECEIPT", {}),
    (seal, "check-receipt RECEIPT --signers SIGNERS", "SIGNERS", SIGNED),
    (seal, "check-heads LOG SEALS --signers SIGNERS", "LOG", {"torn": 1}),
    (seal, "check-heads LOG SEALS --signers SIGNERS", "SEALS", {}),
    (seal, "check-heads LOG SEALS --signers SIGNERS", "SIGNERS", SIGNED),
    (seal, "manifest OTHER --key KEY MAP", "KEY", {}), (seal, "manifest OTHER --key KEY MAP", "MAP", dict.fromkeys(TEXTS, 0)),
    (seal, "check-manifest MANIFEST --signers SIGNERS MAP", "MANIFEST", {}),
    (seal, "check-manifest MANIFEST --signers SIGNERS MAP", "SIGNERS", SIGNED),
    (seal, "check-manifest MANIFEST --signers SIGNERS MAP", "MAP", dict.fromkeys(TEXTS, 1))]


@unittest.skipUnless(shutil.which("ssh-keygen") and Path(UNREADABLE).exists(), "needs ssh-keygen and /proc")
class BadInput(unittest.TestCase):
    def setUp(self):
        kept = tempfile.TemporaryDirectory()
        self.addCleanup(kept.cleanup)
        self.folder = kept.name
        self.good = {name: str(EXAMPLES / file) for name, file in FILES.items()}
        self.good |= {name: f"{self.folder}/{name}" for name in ("KEY", "NEW", "SEALS", "RECEIPT", "MANIFEST", "OTHER", "SIGNERS")}
        subprocess.run(["ssh-keygen", "-q", "-t", "ed25519", "-N", "", "-C", "", "-f", self.good["KEY"]], check=True)
        Path(self.good["SIGNERS"]).write_text("operator " + Path(self.good["KEY"] + ".pub").read_text())
        self.call(seal, "heads LOG SEALS --key KEY --every 20")
        Path(self.good["RECEIPT"]).write_text(self.call(seal, "receipt LOG SEALS 33")[0])
        self.call(seal, "manifest MANIFEST --key KEY MAP")
        self.bad = {"missing": f"{self.folder}/none", "a folder": f"{self.folder}/folder", "unreadable": UNREADABLE}
        self.bad |= {kind: write(self.folder, kind, text) for kind, text in TEXTS.items()}

    def call(self, command, words: str, **replaced: str) -> tuple[str, int]:
        """Returns what a command writes over these words, and its status; it writes one line where that is no 0."""
        return call(command.main, *(replaced.get(word, self.good.get(word, word)) for word in words.split()))

    def test_each_file_of_each_command(self):
        for command, words, word, statuses in TABLE:
            self.assertEqual(self.call(command, words)[1], 0, words)
            for kind, path in self.bad.items():
                for folder in (self.bad["missing"], self.bad["a folder"]):
                    shutil.rmtree(folder, ignore_errors=True)
                Path(self.bad["a folder"]).mkdir()
                with self.subTest(words, word=word, kind=kind):
                    told, status = self.call(command, words, **{word: path})
                    self.assertEqual(status, statuses.get(kind, 2))
                    self.assertTrue(status in (0, 1, 3, 4, 7) or not told)

    def test_folders_of_foreign_heads(self):
        for text in (b"", b"ride_dispatch head 1 line 20 chain \n", bytes(range(256)), Path(self.good["SEALS"], "head_0000020").read_bytes()):
            folder = tempfile.mkdtemp(dir=self.folder)
            write(folder, "head_0000020", text)  # and no signature beside it
            for words in ("receipt LOG SEALS 3", "check-heads LOG SEALS --signers SIGNERS"):
                with self.subTest(words, text=text):
                    self.assertEqual(self.call(seal, words, SEALS=folder), ("", 2))

    def test_too_few_words_and_too_many(self):
        for command, words, *_ in TABLE:
            for wrong in (words.rsplit(" ", 1)[0], words.split(" ", 1)[0], "", words + " --none", words + " more" * 9):
                if command is seal and " ".join(wrong.split()[:1]) in ("manifest", "check-manifest") and wrong.endswith("more"):
                    continue  # as many files as one likes
                with self.subTest(wrong):
                    self.assertEqual(self.call(command, wrong), ("", 2))


if __name__ == "__main__":
    unittest.main()
