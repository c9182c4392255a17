"""Reads the images of docs/cases/chunk_images.md, each with its schema and the answer that is wanted."""

import re
from typing import NamedTuple

from scripts.cases.case_pages import blocks
from scripts.cases.chunk_images import Schema
from scripts.cases.directories import written_out
from scripts.cases.tables import text

DOCUMENT = "docs/cases/chunk_images.md"
COLUMNS = ("changes", "answer", "why")
CUT = re.compile(r"first ⟨(\d+)\.\.(\d+)⟩")


class Case(NamedTuple):
    """An image: its place on the page, its schema, its bytes and the answer."""

    place: str
    schema: Schema
    data: bytes
    wanted: str


def digits(spelled):
    """Bytes as the page spells them."""
    return bytes.fromhex(written_out(re.sub(r"[ ,\n]", "", spelled)))


def at(data, place, new, gone):
    """Bytes with new ones in the place of some that begin at a place."""
    assert place + gone <= len(data), (place, gone)
    return data[:place] + new + data[place + gone :]


# The parts that change an image: what they say, and the bytes that they make of it.
CHANGES = {
    r"as is": lambda data: data,
    r"at (\d+): (.*)": lambda data, place, new: at(data, int(place), digits(new), len(digits(new))),
    r"at (\d+) add (.*)": lambda data, place, new: at(data, int(place), digits(new), 0),
    r"at (\d+) drop (\d+)": lambda data, place, count: at(data, int(place), b"", int(count)),
    r"from (\d+): (.*)": lambda data, place, new: data[: int(place)] + digits(new),
    r"more (.*)": lambda data, new: data + digits(new),
    r"first (\d+)": lambda data, size: data[: int(size)],
}


def change(data, part):
    (how, said), = [(how, said) for form, how in CHANGES.items() if (said := re.fullmatch(form, part))]
    return how(data, *said.groups())


def spread(changes):
    """The changes of each image of a row."""
    cut = CUT.fullmatch(changes)
    return [f"first {size}" for size in range(int(cut[1]), int(cut[2]) + 1)] if cut else [changes]


def cases():
    """All images, from the top of the page."""
    image = None
    for block in blocks(DOCUMENT):
        image = digits(block.code) if block.code else image
        if block.columns != COLUMNS:
            continue
        schema = Schema(*map(int, (block.section or block.part).rpartition(": ")[2].split()))
        for place, (changes, wanted, _) in block.rows:
            for each in spread(text(changes)):
                data = image
                for part in each.split("; "):
                    data = change(data, part)
                yield Case(place, schema, data, wanted)
