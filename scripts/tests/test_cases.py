"""Tests of what reads the pages of cases, and of what compares replies with them."""

import tempfile
import unittest
from pathlib import Path

from scripts.cases.case_pages import Script, Step, blocks, step, texts, written_out
from scripts.cases.case_sessions import Bytes, Wrong, compare, payload_of, short, taken, told_by_case, whole_packet
from scripts.cases.command_words import meant, word
from scripts.cases.evaluation_runs import keywords, quoted, weight
from scripts.cases.jobs_between import FLUSH, MOST_CHUNKS, OPTIMIZE, as_in_memory, states
from scripts.cases.replies import Strange
from scripts.cases.runs import lost
from scripts.cases.texts import written_words
from scripts.tests.test_packets import ERR, OK, stream

PAGE = """# A page

## How it is written

Words.

## A part

### `section`

Set `s`.

| text | reply |
|---|---|
| `a` | `OK 1` |
| `b \\| c` | `OK 0` |

```
code
```

## Next
"""


class Pages(unittest.TestCase):
    def test_blocks(self):
        with tempfile.TemporaryDirectory() as folder:
            path = Path(folder) / "page.md"
            path.write_text(PAGE, encoding="utf8")
            found = [block for block in blocks(path) if block.rows]
        self.assertEqual([(block.part, block.section, block.columns) for block in found], [("A part", "section", ("text", "reply"))])
        self.assertEqual(found[0].rows, [(f"{path}:15", ["`a`", "`OK 1`"]), (f"{path}:16", ["`b \\| c`", "`OK 0`"])])
        self.assertIn("Set `s`.", found[0].words)

    def test_texts_written_out(self):
        for short_text, wanted in (
            ("a⟨byte 0a⟩b", b"a\nb"), ("⟨00 ff⟩", b"\x00\xff"), ("⟨3 times ab⟩", b"ababab"), ("⟨(#) × 3⟩", b"(1), (2), (3)"),
            ("⟨(#) × 5..6⟩", b"(5), (6)"), ("⟨SELECT #; × 2⟩", b"SELECT 1; SELECT 2;"), ("⟨FACET # × 2⟩", b"FACET 1 FACET 2"),
        ):
            self.assertEqual(written_out(short_text), wanted)

    def test_steps(self):
        made = step("p:1", "p:1", ("client", "packet", "replies"), ["B", "`COM_PING`", "`2: OK 0; 10: EOF; 3: OK 1`"])
        self.assertEqual(made, Step("p:1", "p:1", "B", "COM_PING", "OK 0; EOF; 3: OK 1"))
        last = step("p:1", "p:1", ("packet", "last bytes"), ["`a`", "`⟨00⟩`"])
        self.assertTrue(last.by_bytes and last.by_end)
        self.assertEqual([it.packet for it in texts("p:1", ["`a`", "`OK 0`", "`b`", "`OK 1`"])], ["a", "b"])
        with self.assertRaises(AssertionError):
            step("p:1", "p:1", ("query", "found"), ["`a`", "`b`"])


class Sessions(unittest.TestCase):
    def test_payloads(self):
        for packet, wanted in (
            ("SELECT 1", b"\x03SELECT 1"), ("COM_PING", b"\x0e"), ("COM_QUIT", b"\x01"), ("COM_INIT_DB a", b"\x02a"),
            ("COM_SET_OPTION 1", b"\x1b\x01\x00"), ("COM_UNKNOWN 255", b"\xff"), ("COM_UNKNOWN", b""), ("COM_FIELD_LIST a", b"\x04a"),
        ):
            self.assertEqual(payload_of(packet), wanted)
        self.assertEqual(whole_packet(3, b"ab"), b"\x02\0\0\x03ab")

    def test_compare(self):
        asked = Step("p:1", "p:1", "A", "x", "OK 1")
        data = stream(OK)
        self.assertIsNone(compare(asked, Bytes(data).take))
        self.assertEqual(compare(asked, Bytes(stream(ERR)).take), Wrong("p:1", "p:1", "x", "ERR 1064 42000 no", "OK 1"))
        whole = asked._replace(wanted=f"⟨{data.hex()}⟩", by_bytes=True)
        self.assertIsNone(compare(whole, Bytes(data).take))
        self.assertIsNotNone(compare(whole._replace(wanted=f"⟨{data[1:].hex()}⟩"), Bytes(data).take))
        self.assertIsNone(compare(whole._replace(wanted=f"⟨{data[1:].hex()}⟩", by_end=True), Bytes(data).take))
        with self.assertRaises(Strange):
            compare(asked, Bytes(data[:-1]).take)

    def test_what_is_told(self):
        wrong = [Wrong("p:1", "a", "x", "1", "2"), Wrong("p:2", "a", "y", "3", "4"), Wrong("p:3", "", "z", "5", "6")]
        self.assertEqual(told_by_case(wrong), ["p:1: x ⇒ 1, wanted 2\np:2: y ⇒ 3, wanted 4", "p:3: z ⇒ 5, wanted 6"])
        self.assertLess(len(short("x" * 10000)), 600)
        self.assertEqual(lost({"a": 3, "b": 1, "c": 1}, {"a": 1, "b": 2}), {"a": 2, "c": 1})

    def test_taken(self):
        pieces = [b"ab", b"c", b""]
        self.assertEqual(taken(lambda most: pieces.pop(0), 4), b"abc")
        self.assertEqual(taken(Bytes(b"abcd").take, 3), b"abc")


class JobsBetween(unittest.TestCase):
    INDEXES = "index rt\n{\n}\nindex Other {\n}"

    def script(self, *packets):
        return Script(self.INDEXES, [Step(f"p:{number}", "p:1", "A", packet, "OK 0") for number, packet in enumerate(packets, 1)])

    def test_where_jobs_stand(self):
        whole = self.script("INSERT INTO rt (id) VALUES (1)", "SELECT id FROM rt", "SHOW META;", "SELECT 1; COMMIT", "COM_PING", "COM_QUIT")
        own, *others = states(whole)
        self.assertEqual(own, whole)
        for script, job in zip(others, (FLUSH, OPTIMIZE), strict=True):
            both = f"{job} rt; {job} Other"
            sent = [both, whole.steps[0].packet, both, *(step.packet for step in whole.steps[1:4]), both, "COM_PING", "COM_QUIT"]
            self.assertEqual([step.packet for step in script.steps], sent)
            self.assertEqual({step.case for step in script.steps}, {"p:1"})
            self.assertEqual([step.wanted for step in script.steps if step.packet == both], ["OK 0; OK 0"] * 3)
        for packet in ("FLUSH RTINDEX rt", "BEGIN; optimize index rt"):
            self.assertEqual(states(self.script(packet)), [self.script(packet)])

    def test_chunks_are_never_full(self):
        flushed = states(self.script(*["COMMIT"] * 40))[1]
        self.assertEqual([step.packet.count(FLUSH) for step in flushed.steps[:-2:2]].index(0), MOST_CHUNKS - 1)

    def test_what_is_shown_of_chunks(self):
        shown = "Variable_name, Value | index_type, rt | indexed_documents, {} | disk_chunks, {}"
        for job, documents, count, is_right in (
            (FLUSH, 3, 0, False), (FLUSH, 3, 1, True), (FLUSH, 3, 7, True), (FLUSH, 0, 0, True), (FLUSH, 0, 2, True), (FLUSH, 3, 17, False),
            (OPTIMIZE, 3, 0, False), (OPTIMIZE, 3, 1, True), (OPTIMIZE, 3, 2, False), (OPTIMIZE, 0, 0, True), (OPTIMIZE, 0, 1, False),
        ):
            asked = Step("p:1", "p:1", "A", "SHOW INDEX rt STATUS", "", after=job)
            said = as_in_memory(asked, shown.format(documents, count))
            self.assertEqual(said == shown.format(documents, 0), is_right, (job, documents, count))

    def test_the_status_of_a_job(self):
        own, asked = (Step("p:1", "p:1", "A", packet, "", after=FLUSH) for packet in (f"{FLUSH} rt; {FLUSH} b", "COM_PING"))
        self.assertEqual(as_in_memory(own, "11: OK 0; 3: OK 0"), "OK 0; OK 0")
        self.assertEqual(as_in_memory(own, "11: OK 0; ERR 1064 42000 no"), "OK 0; ERR 1064 42000 no")
        self.assertEqual(as_in_memory(asked, "3: OK 0"), "3: OK 0")


class Words(unittest.TestCase):
    def test_words_of_a_line(self):
        for written, wanted in (("--docs", b"--docs"), ("'a b'", b"a b"), ("⟨x × 3⟩y", b"xxxy"), ("⟨byte ff⟩⟨byte 00⟩", b"\xff\0")):
            self.assertEqual(word(written), wanted)
        self.assertEqual(meant("Usage"), (None, {}))
        self.assertEqual(meant("serve config=F listen='a b'"), ("serve", {"config": "F", "listen": "a b"}))
        with self.assertRaises(AssertionError):
            meant("serve")

    def test_words_of_a_field(self):
        self.assertEqual(written_words("a@1 (sentence)@2 b@3 (paragraph)@4 c@5"), "a 1, b 3s, c 5p")
        self.assertEqual(written_words("-"), "")

    def test_keywords_of_a_query(self):
        for query, wanted in (
            ('"a b"~3 | C', ["a", "b", "c"]), ("@title[5] a NEAR/3 b", ["a", "b"]), ("ZONE:(h1,th) a SENTENCE b", ["a", "b"]),
            ('"a b c"/0.5 MAYBE -d', ["a", "b", "c", "d"]), ("@@relaxed @!(title,x) я", ["я"]),
        ):
            self.assertEqual(keywords(query), wanted)

    def test_weights(self):
        # two words in a row in the field 0 and the second one alone in the field 1; a hit is query, word, field, position
        hits = [(1, 0, 0, 4), (2, 1, 0, 5), (2, 1, 1, 9)]
        for ranker, weights, wanted in (
            ("none", [1, 1], 1), ("wordcount", [1, 1], 3), ("wordcount", [3, 5], 11), ("proximity", [1, 1], 3), ("proximity", [3, 5], 11),
            ("matchany", [1, 1], (2 + 1 * 2 * 2) + 1), ("fieldmask", [9, 9], 3),
            ("positions", [3, 5], 4 * 3 + 9 * 5),
        ):
            self.assertEqual(weight(ranker, 2, weights, hits), wanted, ranker)
        self.assertEqual(quoted("it's \\"), "'it\\'s \\\\'")
