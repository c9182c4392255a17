"""Tests of how runs with a refused allocation are judged."""

import unittest

from scripts.gate.refused_memory import FAULT, REFUSED, Ran, wrong_in

PACKETS = (("a",), ("b", "c"), ("d",))
DONE = (0, "")


def whole(packets):
    """The run of these packets with all memory: each statement is answered by itself."""
    return Ran(DONE, ("OK", *("; ".join(statements) for statements in packets)), str(packets), 9)


class Trial:
    """A program of which a run is known."""

    def __init__(self, ran):
        self.ran = ran

    def run(self, packets, refused):
        return self.ran

    def without(self, packets):
        return whole(packets)


def without(*packets):
    return str(packets)


class Judging(unittest.TestCase):
    def judged(self, end, replies, found):
        return wrong_in(Trial(Ran(end, replies, found, 9)), PACKETS, 1)

    def test_right(self):
        doubt = f"{REFUSED}: commit in doubt"
        for end, replies, found in (
            (DONE, whole(PACKETS).replies, str(PACKETS)),
            (FAULT, (), "()"),
            (FAULT, whole(PACKETS).replies, str(PACKETS)),
            (DONE, ("",), "()"),
            (DONE, (f"2: {REFUSED}",), "()"),
            (DONE, ("OK", REFUSED, "b; c", "d"), without(("b", "c"), ("d",))),
            (DONE, ("OK", "a", f"b; {REFUSED}", "d"), without(("a",), ("b",), ("d",))),
            (DONE, ("OK", "a", REFUSED), without(("a",))),
            (DONE, ("OK", "a", "b; c", doubt), str(PACKETS)),
            ((4, "searchd: host fault\nsearchd: reading file 0 of the folder rt\n"), (), "()"),
            (DONE, ("OK", "ERR 1105 HY000 disk fault: nothing was changed", "b; c", "d"), without(("b", "c"), ("d",))),
            (DONE, ("OK", "a", "b; c", "ERR 1105 HY000 disk fault: commit in doubt"), without(("a",), ("b", "c"))),
        ):
            self.assertIsNone(self.judged(end, replies, found), replies)

    def test_wrong(self):
        doubt = f"{REFUSED}: commit in doubt"
        for end, replies, found in (
            ((-11, ""), (), "()"),
            ((4, "searchd: host fault\nsearchd: listening at a: b\n"), (), "()"),
            ((4, "searchd: host fault\n"), ("OK", "a"), "()"),
            (DONE, whole(PACKETS).replies, "()"),
            (DONE, ("OK", "a", "b; c"), without(("a",), ("b", "c"))),
            (DONE, ("OK", "a", "b; e", "d"), str(PACKETS)),
            (DONE, ("OK", REFUSED, "b; c", "d"), str(PACKETS)),
            (DONE, ("OK", REFUSED, "b; c", REFUSED), without(("b", "c"))),
            (DONE, ("OK", "a", f"b; c; {REFUSED}", "d"), str(PACKETS)),
            (DONE, ("OK", "a", "b; c", doubt), without(("a",), ("b", "c"))),
        ):
            self.assertIsNotNone(self.judged(end, replies, found), replies)
