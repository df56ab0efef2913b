"""Tests of the words of the checks over built programs: what is not in order is one line and status 2."""
import pathlib
import subprocess
import sys
import tempfile
import unittest

CHECKS = pathlib.Path(__file__).resolve().parents[1]


class Words(unittest.TestCase):
    def test_words_that_are_not_in_order(self) -> None:
        with tempfile.TemporaryDirectory() as folder:
            plain = pathlib.Path(folder) / "plain"
            plain.write_text("")
            for name, some in {
                "statuses.py": (["/nowhere"], [folder], ["/bin/true", "--only", "plan"], ["/bin/true", "more"], ["/bin/true", "--resume", "/nowhere"],
                                [str(plain)]),
                "waiting.py": (["/nowhere"], [folder], ["/bin/true", "--only", "of_no_check"], ["/bin/true", "more"], ["/bin/true", "--resume", folder],
                               [str(plain)]),
                "words.sh": (["/nowhere"], [folder], [str(plain)], ["/bin/true", "/nowhere"], ["/bin/true", str(plain)]),
                "messages.sh": (["/nowhere"], [folder], [str(plain)], ["/bin/true", "/nowhere"], ["/bin/true", str(plain)]),
            }.items():
                for words in some:
                    ran = subprocess.run([*([sys.executable, "-B"] if name.endswith(".py") else []), str(CHECKS / name), *words], text=True,
                                         capture_output=True, timeout=60, check=False)
                    said = [line for line in ran.stdout.splitlines() if "is left out" not in line]  # where ride_resume is not built
                    self.assertEqual((ran.returncode, said, ran.stderr.count("\n")), (2, [], 1), (name, words, ran.stderr))


if __name__ == "__main__":
    unittest.main()
