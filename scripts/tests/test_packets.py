"""Tests of what reads packets and what tells replies, by the bytes of the protocol's documentation."""

import unittest

from scripts.cases import replies
from scripts.cases.case_sessions import Bytes
from scripts.clients import packets

OK = bytes.fromhex("00 01 00 02 00 00 00")
EOF = bytes.fromhex("fe 00 00 02 00")
MORE = bytes.fromhex("fe 00 00 0a 00")
ERR = b"\xff\x28\x04#42000no"
# the definition of a column `id` of unsigned 64-bit numbers
COLUMN = bytes.fromhex("03 646566 00 00 00 02 6964 02 6964 0c 3f00 14000000 08 2000 00 0000")


def stream(*payloads, first=1):
    """Packets with these payloads, numbered from one on."""
    return b"".join(
        len(payload).to_bytes(3, "little") + bytes([(first + place) % 256]) + payload for place, payload in enumerate(payloads)
    )


def told(data):
    return replies.told(Bytes(data).take)


class Packets(unittest.TestCase):
    def test_split(self):
        data = stream(b"ab", b"", first=0)
        self.assertEqual(packets.split(data + b"\x05\0"), ([(0, b"ab"), (1, b"")], b"\x05\0"))
        self.assertEqual(packets.split(data[:5]), ([], data[:5]))

    def test_numbers(self):
        for spelled, wanted in (("fa", 250), ("fc fb00", 251), ("fd 000001", 65536), ("fe 00000001 00000000", 2**24)):
            data = bytes.fromhex(spelled)
            self.assertEqual(packets.number(b"x" + data + b"y", 1), (wanted, 1 + len(data)))

    def test_texts(self):
        self.assertEqual(packets.texts(b"\x01a\xfb\x00\x02bc"), ["a", None, "", "bc"])

    def test_reader(self):
        reader = packets.Reader()
        greeting = b"\x0a5.6\0" + (7).to_bytes(4, "little") + b"rest"
        lines = [reader.read(payload) for payload in (greeting, OK, b"\x01", COLUMN, EOF, b"\x015", EOF, ERR, OK)]
        self.assertEqual([line[:10].strip() for line in lines], "greeting,OK,result set,column,EOF,row,EOF,ERR,OK".split(","))
        self.assertEqual(lines[0], "greeting   version 5.6, connection 7")
        self.assertEqual(lines[1], "OK         1 affected, insert id 0, status 2, 0 warnings")
        self.assertEqual(lines[5], "row        '5'")
        self.assertEqual(lines[7], "ERR        1064 42000: no")


class Replies(unittest.TestCase):
    def test_replies(self):
        three = bytes.fromhex("00 00 00 03 00 00 00")
        for payloads, wanted in (
            ([OK], "OK 1"),
            ([three], "3: OK 0"),
            ([EOF], "EOF"),
            ([ERR], "ERR 1064 42000 no"),
            ([b"\x01", COLUMN, EOF, b"\x015", b"\x00", EOF], "id | 5 | ''"),
            ([b"\x01", COLUMN, MORE, MORE, OK], "id; OK 1"),
            ([b"\x01", COLUMN.replace(b"\x08\x20", b"\x08\x00"), EOF, EOF], "id:Whole"),
        ):
            data = stream(*payloads)
            self.assertEqual(told(data), (wanted, data))

    def test_it_takes_no_more_than_the_reply(self):
        source = Bytes(stream(OK) + b"rest")
        replies.told(source.take)
        self.assertEqual(source.rest(), b"rest")

    def test_numbers_of_packets_go_on_after_255(self):
        rows = [b"\x015"] * 300
        text, _ = told(stream(b"\x01", COLUMN, EOF, *rows, EOF))
        self.assertEqual(text, "id" + " | 5" * 300)

    def test_what_is_no_reply(self):
        for data in (
            stream(OK, first=2),
            stream(b""),
            stream(OK[:-1]),
            stream(OK[:-1] + b"\x01"),
            stream(EOF + b"\0"),
            stream(b"\xff\x28\x04"),
            stream(b"\x01\0"),
            stream(b"\x01", COLUMN[:-1], EOF, EOF),
            stream(b"\x01", COLUMN, EOF, MORE),
            stream(b"\x01", COLUMN, EOF, b"\xfb", EOF),
            stream(b"\x01", COLUMN, EOF, b"\x015\x016", EOF),
            stream(b"\x01", COLUMN, EOF, b"\x025", EOF),
            stream(b"\x01", COLUMN, EOF),
        ):
            with self.assertRaises(replies.Strange, msg=data.hex(" ")):
                told(data)
