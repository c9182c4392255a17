"""Tests of what reads and writes chunk images, by the images of docs/cases that were worked out by hand."""

import random
import shutil
import unittest

from scripts.cases.case_sessions import Program
from scripts.cases.chunk_images import PARAGRAPH, SENTENCE, Damage, Row, Schema, Span, Taken, Unreadable, answer, image_of, look, short
from scripts.cases.directories import directories
from scripts.cases.drawn_images import changed, drawn
from scripts.cases.image_page import cases, change, digits, spread
from scripts.cases.image_runs import columns, configuration, drawn_cases, root, run, wanted

KNOWN = 301


class Images(unittest.TestCase):
    def test_the_page(self):
        found = list(cases())
        for case in found:
            self.assertEqual(answer(case.schema, case.data), case.wanted, case.place)
        self.assertGreaterEqual(len(found), KNOWN)

    def test_images_are_written_as_the_page_has_them(self):
        whole = {case.schema: case.data for case in reversed(list(cases())) if case.wanted == "ok"}
        hello = Row(7, 1, [], [{1: b"hello", 2: b"world"}], [])
        one = Row(1, 1, [5], [{1: b"a", 2: SENTENCE, 3: b"b"}, {1: b"a"}], [Span(0, 1, 3, 1)])
        two = Row(2, 3, [-1], [{}, {1: b"b", 2: b"b"}], [Span(1, 2, 2, 0), Span(1, 1, 1, 1)])
        gaps = Row(1, 1, [], [{1: b"x", 2: SENTENCE, 3: b"x", 4: PARAGRAPH, 5: b"x"}], [])
        for schema, rows in ((Schema(1), [hello]), (Schema(2, 1, 2), [one, two]), (Schema(1, 0, 1), [gaps])):
            self.assertEqual(image_of(schema, rows).hex(" "), whole[schema].hex(" "))

    def test_short_numbers(self):
        for value, spelled in ((0, "00"), (127, "7f"), (128, "80 01"), (65536, "80 80 04"), (2**32 - 1, "ff ff ff ff 0f")):
            self.assertEqual(short(value).hex(" "), spelled)
            taken = Taken(bytes.fromhex(spelled))
            self.assertEqual((taken.short(), taken.is_done()), (value, True))
        for spelled in ("", "80", "80 00", "ff 80 00", "80 80 80 80 10"):
            with self.assertRaises(Unreadable):
                Taken(bytes.fromhex(spelled)).short()

    def test_images_that_are_drawn(self):
        draws, seen = random.Random(3), set()
        for _ in range(300):
            schema, rows = drawn(draws)
            data = image_of(schema, rows)
            self.assertEqual(answer(schema, data), "ok")
            seen.add(answer(schema, changed(draws, schema, data)).partition(": ")[2])
        self.assertGreaterEqual(len(seen), 8)

    def test_damage_is_raised(self):
        with self.assertRaises(Damage) as damage:
            look(Schema(1), b"SRCHUNK1")
        self.assertEqual((damage.exception.place, damage.exception.kind), (8, "sizes"))

    def test_changes_of_the_page(self):
        for part, wanted in (
            ("as is", "0102"), ("at 1: ff", "01ff"), ("at 1 add 03 04", "01030402"), ("at 0 drop 1", "02"), ("from 1: 09 09", "010909"),
            ("more ⟨00 × 2⟩", "01020000"), ("first 1", "01"),
        ):
            self.assertEqual(change(b"\x01\x02", part).hex(), wanted)
        self.assertEqual(spread("first ⟨0..2⟩"), ["first 0", "first 1", "first 2"])
        self.assertEqual(digits("01, 02\n⟨ab cd × 2⟩"), bytes.fromhex("0102abcdabcd"))
        for wrong in ("at 2: 01", "nothing", "first x"):
            with self.assertRaises((AssertionError, ValueError)):
                change(b"\x01\x02", wrong)


class Directories(unittest.TestCase):
    def test_roots(self):
        """Against the slots of docs/cases/directories.md."""
        found = {(one.index, one.about): next(one.whole_files()) for one in directories() if "0" in one.files}
        first = found["one", "slot 0 of number 1; the log 2 with one record"]["0"]
        self.assertEqual(root(b"field title\n", 0, 3, (0, 2), []), first)
        chunk = next(files["0"] for (_, about), files in found.items() if about.startswith("the root names a chunk"))
        self.assertEqual(root(b"field title\n", 0, 5, (0, 2), [(3, 99, [0, 4])]), chunk)

    def test_configurations(self):
        schema = Schema(1, 1, 2)
        self.assertEqual(columns(schema), [("field", "f0"), ("bigint", "a0")])
        lines = configuration(schema).split("\n")
        self.assertEqual(lines[4:-2], ["rt_field = f0", "rt_attr_bigint = a0", "html_strip = 1", "index_zones = z0, z1"])

    def test_what_is_wanted(self):
        rows = [Row(1, 2**40, [], [{}], []), Row(2, 2**40 + 1, [], [{}], [])]
        well = image_of(Schema(1), rows[:1])
        self.assertEqual(wanted(Schema(1), well), "0 pieces: 1 documents, 1 disk chunks, 0 log records\n")
        self.assertEqual(wanted(Schema(1), image_of(Schema(1), rows)), "5 searchd: index pieces: file 3 at 52: born\n")
        self.assertEqual(wanted(Schema(2), well), "5 searchd: index pieces: file 3 at 8: sizes\n")

    def test_a_program_that_does_nothing(self):
        nothing = Program(shutil.which("true"), 10)
        for case in [next(cases()), *drawn_cases(3, 1)]:
            self.assertIsNotNone(run(nothing, case))
