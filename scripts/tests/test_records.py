"""Tests of what reads logs and directories."""

import unittest

from scripts.cases.chunk_images import Row, Schema, image_of
from scripts.cases.directories import Directory, change, cut, digits, directories, files_of, put, spread, stands, written_out
from scripts.cases.directory_runs import read_otherwise
from scripts.cases.image_runs import root
from scripts.cases.log_records import Found, Words, first_document
from scripts.cases.stored import stands_for

# the log that docs/FILES.md draws
LOG = bytes.fromhex(
    "01 23000000 0100000000000000 01000000 01 0700000000000000 02000000 00 05 68656c6c6f 00 05 776f726c64 00000000 00"
)


def with_id_one(log):
    """A log whose document has the id 1, which is the one that the reader looks for."""
    return log[:18] + b"\x01" + log[19:]


class Logs(unittest.TestCase):
    def test_the_first_document(self):
        found = first_document(with_id_one(LOG))
        self.assertEqual(found, Found([Words(b"hello", 1, ""), Words(b"world", 2, "")], []))

    def test_boundaries_attributes_and_spans(self):
        words = "02000000 00 01 61 02 01 62" + "00000000"
        spans = "01000000 0000 0300 01000000 03000000"
        payload = bytes.fromhex("01000000 01 0100000000000000" + "00" * 16 + words + spans)
        log = b"\x01" + len(payload).to_bytes(4, "little") + bytes.fromhex("0100000000000000") + payload + b"\0"
        found = first_document(log, 2, 2)
        self.assertEqual(found, Found([Words(b"a", 1, ""), Words(b"b", 3, "p")], [(3, 1, 3)]))

    def test_what_is_no_such_record(self):
        log = with_id_one(LOG)
        for wrong in (LOG, b"\0" + log[1:], log[:30], log[:1] + b"\x22" + log[2:], log[:5] + b"\x02" + log[6:]):
            with self.assertRaises(AssertionError):
                first_document(wrong)


class Directories(unittest.TestCase):
    def test_bytes(self):
        self.assertEqual(digits("01 02,03 ⟨00×3⟩"), "010203⟨00×3⟩")
        self.assertEqual(written_out("01⟨ab×3⟩02"), "01ababab02")
        for wrong in ("1", "0g", "⟨0×3⟩"):
            with self.assertRaises(AssertionError):
                digits(wrong)

    def test_changes(self):
        self.assertEqual(cut("010203", 1, 1), "01")
        self.assertEqual(cut("010203", 1, 2), "0102-1")
        self.assertEqual(put("010203", 1, "ff"), "01ff03")
        with self.assertRaises(AssertionError):
            put("010203", 2, "ffff")
        with self.assertRaises(AssertionError):
            cut("010203", 1, 3)
        files = {"2": "0102"}
        for part, wanted in (
            ("2 more 03", {"2": "010203"}), ("2 at 0: ff", {"2": "ff0203"}), ("2 from 1: 09", {"2": "ff09"}),
            ("2 cut 1", {"2": "ff"}), ("0: 0a 0b", {"2": "ff", "0": "0a0b"}), ("2 gone", {"0": "0a0b"}),
        ):
            change(files, part)
            self.assertEqual(files, wanted)

    def test_rows(self):
        named = {"base": {"2": "0102", "0": "0a"}}
        self.assertEqual(files_of("no files", named), {})
        self.assertEqual(files_of("as base; 2 more 03", named), {"0": "0a", "2": "010203"})
        self.assertEqual(named["base"]["2"], "0102")
        self.assertEqual(spread("2: ⟨fe..ff⟩ 00"), ["2: fe 00", "2: ff 00"])
        self.assertEqual(spread("2 cut ⟨1..2⟩"), ["2 cut ⟨1..2⟩"])

    def test_files_that_lack_some_bytes(self):
        one = Directory("p", "part", "one", "", {"2": "010203-2", "0": "⟨ff×2⟩"}, "")
        found = [{number: data.hex() for number, data in files.items()} for files in one.whole_files()]
        self.assertEqual(found, [{"2": lacking, "0": "ffff"} for lacking in ("010203", "0102", "01")])

    def test_what_they_stand_for(self):
        self.assertEqual(stands("2 at 13: log gate"), "2 at 13: log gate")
        self.assertEqual(stands("number 1, through 0, above 1: 7 born 1 (⟨a␣ × 2⟩)"), "number 1, through 0, above 1: 7 born 1 (⟨a ×2⟩)")
        with self.assertRaises(AssertionError):
            stands("2 at 13: nothing known")


class Stored(unittest.TestCase):
    def test_another_answer_than_the_page_has(self):
        one = next(directories())
        files = next(one.whole_files())
        self.assertEqual(read_otherwise(one, files), [])
        self.assertEqual(len(read_otherwise(one._replace(stands="empty index"), files)), 1)

    def test_directories(self):
        text, schema = b"field title\n", Schema(1)
        image = image_of(schema, [Row(7, 1, [], [{1: b"a", 2: 1, 3: "ж".encode()}], [])])
        log = with_id_one(LOG)
        named = {0: root(text, 1, 4, (0, 2), [(3, len(image), [])]), 2: log[:5] + b"\x02" + log[6:], 3: image}
        self.assertEqual(stands_for(schema, text, named), "number 2, through 1, above 1, chunks 1: 1 born 2 (hello world); 7 born 1 (a ¶ \\u{436})")
        for files, wanted in (
            ({}, "empty index"), (named | {0: b"\0" + named[0][1:]}, "empty index"), (named | {0: named[0][:-1]}, "0 at 0: root length"),
            (named | {3: image[:-1]}, "3 at 0: chunk length"), (named | {2: log[:9]}, "2 at 0: record length"), (named | {2: LOG}, ""),
        ):
            found = stands_for(schema, text, files)
            self.assertEqual(found, wanted or "number 1, through 1, above 0, chunks 1: 7 born 1 (a ¶ \\u{436})")
