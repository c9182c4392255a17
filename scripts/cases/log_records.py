"""Reads the first document of a log, as docs/FILES.md draws its bytes."""

from typing import NamedTuple

ENDS = ("", "s", "p")


class Words(NamedTuple):
    """A word with its position, and the letter of the boundary before it."""

    word: bytes
    position: int
    end: str


class Found(NamedTuple):
    """The words of a field, and its spans: zone, first and last position."""

    words: list
    spans: list


class Taken:
    """Bytes, of which numbers are taken from the front on."""

    def __init__(self, data):
        self.data, self.at = data, 0

    def bytes(self, size):
        self.at += size
        assert self.at <= len(self.data), "the record ends too early"
        return self.data[self.at - size : self.at]

    def number(self, size):
        return int.from_bytes(self.bytes(size), "little")


def words(taken):
    """The words of a field."""
    found, position = [], 0
    for _ in range(taken.number(4)):
        end = taken.number(1)
        position += 2 if end else 1
        found.append(Words(taken.bytes(taken.number(1)), position, ENDS[end]))
    return found


def first_document(log, fields=None, attributes=0):
    """The words and spans of the first field of the document that the first record puts."""
    taken = Taken(log)
    assert taken.number(1) == 1, "the gate isn't open"
    end = taken.number(4) + 13
    assert taken.number(8) == 1 and taken.number(4) == 1 and taken.number(1) == 1 and taken.number(8) == 1, "another record"
    taken.bytes(8 * attributes)
    first, *others = [words(taken) for _ in range(fields or 1)]
    spans = [tuple(taken.number(size) for size in (2, 2, 4, 4)) for _ in range(taken.number(4))]
    assert taken.at == end and not any(others) and all(span[0] == 0 for span in spans), "other fields"
    return Found(first, [span[1:] for span in spans])
