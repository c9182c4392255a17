"""Tests of what reads the tables of docs/cases and writes those of tests."""

import tempfile
import unittest
from pathlib import Path

from scripts.cases.tables import cells, constant, difference, text


class Tables(unittest.TestCase):
    def test_cells_of_a_row(self):
        self.assertEqual(cells("| one | two |"), ["one", "two"])
        self.assertEqual(cells(r"| `a \| b` |  |"), [r"`a \| b`", ""])
        for line in ("", "| one", "one | two", "|---|---|", "text"):
            self.assertIsNone(cells(line), line)

    def test_text_of_a_cell(self):
        for cell, wanted in (("(empty)", ""), ("`a b`", "a b"), ("`` a`b ``", "a`b"), (r"`a \| b`", "a | b"), ("`` ` ``", "`")):
            self.assertEqual(text(cell), wanted)
        for cell in ("a", "`a", "`a` b"):
            with self.assertRaises(AssertionError):
                text(cell)

    def test_constant(self):
        self.assertEqual(constant("Words.", "WORDS", ["a", "b"]), '/// Words.\npub(crate) const WORDS: &str = r#"\na\nb\n"#;\n')
        self.assertEqual(constant("Words.", "WORDS", ["a"], escapes=True), '/// Words.\npub(crate) const WORDS: &str = "\na\n";\n')
        for lines, escapes in ((['"#'], False), (['"'], True), (["\t"], False)):
            with self.assertRaises(AssertionError):
                constant("Words.", "WORDS", lines, escapes)

    def test_first_line_that_differs(self):
        with tempfile.TemporaryDirectory() as folder:
            path = Path(folder) / "file"
            self.assertEqual(difference(path, "a\n"), 1)
            path.write_text("a\nb\n", encoding="utf8")
            for other, wanted in (("a\nb\n", None), ("a\nc\n", 2), ("a\n", 2), ("a\nb\nc\n", 3), ("b\nb\n", 1)):
                self.assertEqual(difference(path, other), wanted)
