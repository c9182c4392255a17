"""Tests of the readers by which hostile packets are judged: what they say of the cases of docs/cases."""

import re
import unittest

from scripts.cases.case_pages import Page, written_out
from scripts.cases.packet_runs import Packets
from scripts.cases.query_cases import DOCUMENT, FIELDS, ZONES, rows
from scripts.cases.query_runs import written_out as query_of
from scripts.cases.tables import read
from scripts.gate.hostile_packets import Short, difference
from scripts.gate.long_texts import MADE_OF, made
from scripts.readers.lines import Answer, bad_response, line
from scripts.readers.queries import query_fault
from scripts.readers.sessions import ROWS, Session, Store, index

# The log of an index isn't known to the readers: what is said of a full one, and what comes of it. Nor is what an expression is.
FULL = re.compile(r"jobs\.md:66\d")
LONG = 100000


def stores_of(configuration):
    """The stores of a configuration, with its fields, attributes and zones."""
    stores = {}
    for name, lines in re.findall(r"index (\w+)\s*\{(.*?)\}", configuration, re.DOTALL):
        keys = re.findall(r"^\s*(\w+) = (.*)$", lines.lower(), re.MULTILINE)
        fields = [value for key, value in keys if key == "rt_field"]
        attributes = {value: key[8:] for key, value in keys if key.startswith("rt_attr_")}
        zones = [zone.strip() for key, value in keys if key == "index_zones" for zone in value.split(",")]
        stores[name.lower()] = Store(index(name.lower(), fields, attributes, zones))
    return stores


def is_told(told, wanted):
    """Whether replies are those that a page has, whose rows needn't be told."""
    pattern = "; ".join(re.escape(reply).replace(re.escape(ROWS), ".*?") for reply in told)
    return re.fullmatch(pattern, wanted, re.DOTALL) is not None


def is_short(script):
    """Whether none of its packets is so long that reading it takes a second."""
    return all(len(written_out(step.packet)) < LONG for step in script.steps)


class Statements(unittest.TestCase):
    def script(self, script):
        stores, sessions, tried = stores_of(script.configuration), {}, 0
        for step in script.steps:
            if step.packet.startswith("COM_"):
                sessions.pop(step.client if step.packet == "COM_QUIT" else None, None)
                continue
            session = sessions.setdefault(step.client, Session(stores))
            told = session.replies(written_out(step.packet))
            if not (step.by_bytes or step.by_end or FULL.search(step.place) or "expr" in step.packet.lower()):
                self.assertTrue(is_told(told, written_out(step.wanted).decode()), f"{step.place}: {told}")
                tried += 1
        return tried

    def test_pages(self):
        for name, least in (("statements", 400), ("selects", 900), ("transactions", 800), ("jobs", 200), ("groups", 700)):
            tried = sum(self.script(script) for script in Page(name).scripts if is_short(script))
            self.assertGreaterEqual(tried, least, name)


class Queries(unittest.TestCase):
    def test_page(self):
        tried = 0
        for row in rows(read(DOCUMENT)):
            if row.table == "default":
                text, wanted = query_of(row.text).encode(), row.fault and query_of(row.fault.removeprefix("query: "))
                self.assertEqual(query_fault(text, FIELDS[row.schema], ZONES.get(row.schema, [])), wanted, row.place)
                tried += 1
        self.assertGreaterEqual(tried, 900)


class Lines(unittest.TestCase):
    def test_responses(self):
        for place, payload, bad in Packets().responses:
            self.assertEqual(bad_response(payload), bad, place)

    def test_lines(self):
        for page in (Page("statements"), Packets()):
            for case in page.lines:
                told = line(written_out(case.sent), stores_of(page.configurations["two"])).answers
                self.assertIsNone(difference(written_out(case.written), told), case.place)

    def test_numbers(self):
        whole = b"\1\0\0\0\x0e"
        response = Packets().parts[0][1]
        self.assertEqual(line(response[:-1], {}), ([], len(response) - 1))
        self.assertEqual(line(whole, {}), ([Answer(1, ["ERR 1156 08S01 packet out of order"])], 4))
        told = line(response + b"\xff\xff\xff\xff", {})
        self.assertEqual(told.answers[1], Answer(0, ["ERR 1153 08S01 packet above 8388608 bytes"]))
        told = line(response + whole + b"\1\0\0\0\1" + whole, {})
        self.assertEqual((len(told.answers), told.read), (2, len(response) + 10))


class LongTexts(unittest.TestCase):
    def test_what_is_answered(self):
        for name, (*_, wanted) in MADE_OF.items():
            text = made(name, 150000)
            reply = Session({"rt": Store(index("rt", ["title"], {"a0": "bigint"}))}).replies(text)[0]
            self.assertEqual(reply.startswith("ERR "), wanted is not None, name)
            if wanted:
                self.assertEqual(reply, "ERR 1064 42000 " + wanted.format(length=len(text)), name)


class Differences(unittest.TestCase):
    def setUp(self):
        page = Packets()
        (_, response, accepted), (_, ping, pong), *_ = page.parts
        self.written, self.told = page.greeting + accepted + pong, line(response + ping, {}).answers

    def test_what_differs(self):
        self.assertIsNone(difference(self.written, self.told))
        for written in (self.written[:-1], b""):
            self.assertRaises(Short, difference, written, self.told)
        for written in (self.written + b"\0", self.written[:-11] + b"\7\0\0\2" + self.written[-7:]):
            self.assertIsNotNone(difference(written, self.told), written)
        for told in (self.told[:-1], [self.told[0], Answer(1, ["OK 1"])], [self.told[0], Answer(1, [ROWS])]):
            self.assertIsNotNone(difference(self.written, told), told)


if __name__ == "__main__":
    unittest.main()
