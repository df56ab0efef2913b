"""Each edit that must fail finds the line that it turns, once, in the file that it names: those of the gate and those of checks/edits."""
import pathlib
import unittest

TOP = pathlib.Path(__file__).resolve().parent.parent.parent


def edits() -> list[tuple[pathlib.Path, pathlib.Path]]:
    """Returns each edit with the folder of its crate."""
    of_gate = [(path, path.parent.parent) for path in TOP.glob("crates/*/must-fail/*.edit")]
    others = [(path, TOP / "crates" / path.parent.name) for path in TOP.glob("checks/edits/*/*.edit")]
    return sorted(of_gate + others)


def lost_lines(edit: pathlib.Path, crate: pathlib.Path) -> list[str]:
    """Returns the lines that an edit turns and that do not stand in its file exactly once."""
    source, lost = "", []
    for line in edit.read_text(encoding="utf-8").splitlines():
        kind, _, text = line.partition(": ")
        if kind == "file":
            path = crate / text.strip()
            source = path.read_text(encoding="utf-8") if path.is_file() else ""
        elif kind == "old" and source.count(text) != 1:
            lost.append(f"{edit.relative_to(TOP)}: stands {source.count(text)} times: {text.strip()}")
    return lost


class Edits(unittest.TestCase):
    def test_each_finds_its_line_once(self) -> None:
        found = edits()
        self.assertGreater(len(found), 200)
        self.assertEqual([lost for edit, crate in found for lost in lost_lines(edit, crate)], [])


if __name__ == "__main__":
    unittest.main()
