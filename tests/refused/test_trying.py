"""What is tried is what an edit file says, and all that it stands on counts."""

import tempfile
import unittest
from pathlib import Path

from .trying import below, edited, files_of

LISTED = "# the lowest\ntext:\ntape staticlib: text io\nother:\n"


class Trying(unittest.TestCase):
    def setUp(self):
        room = tempfile.TemporaryDirectory()
        self.addCleanup(room.cleanup)
        self.root = Path(room.name)
        (self.root / "crates.txt").write_text(LISTED, encoding="utf-8")
        (self.root / "crates/tape/src").mkdir(parents=True)
        (self.root / "crates/tape/out").mkdir()
        self.code = self.root / "crates/tape/src/lib.rt"
        self.code.write_text("one\ntwo\ntwo\n", encoding="utf-8")

    def applied(self, text):
        return edited(self.root / "crates/tape", text), self.code.read_text(encoding="utf-8")

    def test_the_crates_below(self):
        self.assertEqual(below(self.root, "tape"), ["tape", "text"])

    def test_what_the_kit_makes_is_no_part_of_a_crate(self):
        (self.root / "crates/tape/out/lib.rt").write_text("", encoding="utf-8")
        self.assertEqual(files_of(self.root, "tape"), [self.code])

    def test_an_edit_of_two_lines(self):
        self.assertEqual(self.applied("# words\nfile: src/lib.rt\nold: one\nnew:  three\nold: three\nnew:\n"), (None, " \ntwo\ntwo\n"))

    def test_a_text_that_stands_twice_or_nowhere(self):
        for old, times in (("two", 2), ("four", 0)):
            fault, text = self.applied(f"file: src/lib.rt\nold: {old}\nnew: five\n")
            self.assertIn(f"has {times} times '{old}'", fault)
            self.assertEqual(text, "one\ntwo\ntwo\n")


if __name__ == "__main__":
    unittest.main()
