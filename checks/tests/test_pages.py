"""What the pages name stands in the definitions."""
import pathlib
import re
import sys
import unittest

TOP = pathlib.Path(__file__).resolve().parents[2]
sys.path.insert(0, str(TOP / "checks"))

from headline import MARK, read_modules  # noqa: E402 (the folder of the checks comes first)

NAMED = re.compile(r"`([A-Z]\w*)?\.(?!antt`|rt`)([a-z]\w*)[`.]")  # a field, and no file


def fields_of_records() -> dict[str, set[str]]:
    """Returns the fields of all records of a name, in whichever crates they stand."""
    fields: dict[str, set[str]] = {}
    for module in read_modules().values():
        for definition in module.definitions.values():
            named = [found[1] for line in definition.lines if (found := re.match(r"  pub (\w+) :", line))]
            if named:
                fields.setdefault(definition.name, set()).update(named)
    return fields


def named_in(line: str) -> list[tuple[str, str]]:
    """Returns the fields that a line of a page names, each with its record: `IsRun.ended`, and behind it `.complete` alone."""
    named, record = [], ""
    for found in NAMED.finditer(line):
        record = found[1] or record
        named.append((record, found[2]))
    return named


class Fields(unittest.TestCase):
    def test_a_field_alone_is_one_of_the_record_before_it(self) -> None:
        self.assertEqual(named_in("`IsRun.ended`, `.complete`; `Does`"), [("IsRun", "ended"), ("IsRun", "complete")])

    def test_pages_name_fields_that_stand(self) -> None:
        fields = fields_of_records()
        gone = []
        for page in sorted((TOP / "docs").glob("*.md")):
            for number, line in enumerate(page.read_text(encoding="utf-8").partition(MARK)[0].split("\n"), 1):
                gone += [f"{page.name}:{number}: {record}.{field}" for record, field in named_in(line)
                         if record in fields and field not in fields[record]]
        self.assertGreater(len(fields), 100)
        self.assertEqual(gone, [])


if __name__ == "__main__":
    unittest.main()
