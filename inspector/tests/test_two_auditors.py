"""Both auditors over a few drawn logs; checks/two_auditors.py compares as many as one likes."""
import random
import subprocess
import sys
import unittest
from pathlib import Path

sys.path.insert(0, str(Path(__file__).resolve().parent))

import drawn_days
import mutations
from worked import LOG

COMMAND = Path(__file__).resolve().parents[2] / "checks/two_auditors.py"


class Mutations(unittest.TestCase):
    def test_each_kind_changes_some_log(self):
        lines = LOG.splitlines(keepends=True)
        lines[1] = "f1 request 8 3 4 1 600 300 = waiting\n" + lines[1]
        text = LOG.replace("requests 7", "requests 8 7").replace("prices 7:180", "prices 8:9 7:180").replace(
            "f1 end", "f1 at 1 2 70 = late 10\nf1 end").encode().splitlines(keepends=True)
        for kinds in (mutations.MEANING_KINDS, mutations.SPELLING_KINDS):
            for name, change in kinds.items():
                changed = [change(random.Random(seed), text) for seed in range(40)]
                self.assertTrue(any(one != text for one in changed), name)


@unittest.skipUnless(drawn_days.program_path(), "the program is not built")
class TwoAuditors(unittest.TestCase):
    def test_no_log_differs(self):
        ran = subprocess.run([sys.executable, str(COMMAND), "--logs", "40", "--seed", "5"], capture_output=True, text=True,
                             check=False)
        self.assertEqual((ran.stdout.splitlines()[-1], ran.returncode), ("40 logs, 0 differences", 0))


class Words(unittest.TestCase):
    def test_words_that_are_not_in_order(self):
        for words in (["--logs", "0"], ["--logs", "x"], ["x"]):
            ran = subprocess.run([sys.executable, str(COMMAND), *words], capture_output=True, text=True, check=False)
            self.assertEqual((ran.stdout, ran.returncode, ran.stderr.count("\n")), ("", 2, 1))


if __name__ == "__main__":
    unittest.main()
