"""Reads the lines of docs/cases/runs.md, and the bytes that they name."""

from typing import NamedTuple

from scripts.cases.tables import read

DOCUMENT = "docs/cases/runs.md"
PLAIN = "index rt;{;type = rt;path = .;rt_field = title;};"
# The parts of the page, and how many lines each is known to have.
KNOWN = {
    "Runs: checks": 22,
    "Runs: directories that can't be read": 18,
    "Runs: words, and what fails": 30,
    "Runs: texts": 8,
    "Runs: selftests": 8,
    "Runs: sessions": 11,
    "Cuts": 1,
    "Serving: connections one after the other": 5,
    "Serving: two connections at once": 4,
    "Serving: how many at once": 3,
    "Folders": 5,
}


class Line(NamedTuple):
    """A line: its place, its parts, and what it comes to."""

    place: str
    parts: list
    wanted: str


def page():
    """The lines of each part, and the bytes of each name."""
    found, names = {}, {}
    head, is_inside = "", False
    for number, line in enumerate(read(DOCUMENT).split("\n"), 1):
        if line == "```":
            is_inside = not is_inside
        elif line.startswith("## ") and not is_inside:
            head = line[3:]
        elif is_inside and head == "Names":
            name, _, digits = line.partition(" = ")
            names[name] = bytes.fromhex(digits)
        elif is_inside:
            left, _, wanted = line.partition(" ⇒ ")
            parts = [part.strip() for part in left.split("|")]
            found.setdefault(head, []).append(Line(f"runs.md:{number}", parts, wanted))
    return found, names


class Bytes:
    """Bytes as lines write them."""

    def __init__(self, names):
        self.names = names

    def one(self, words):
        """Those behind `0x`, those of a name, or else the packet of a query with this text."""
        if words.startswith("0x"):
            return bytes.fromhex(words[2:])
        if words in self.names:
            return self.names[words]
        text = words.encode()
        return (len(text) + 1).to_bytes(3, "little") + b"\0\x03" + text

    def all(self, words):
        return b"".join(self.one(part) for part in words.split("; ")) if words else b""

    def line(self, words):
        """What is sent over a line, and what is written."""
        sent, arrow, written = f" {words} ".partition(" => ")
        assert arrow or not words, words
        return self.all(sent.strip()), self.all(written.strip())


def text_of(written, indexes):
    """The bytes of a configuration."""
    if not written:
        of = "".join("index {0} {{\ntype = rt\npath = {0}\nrt_field = title\n}}\n".format(name) for name in indexes)
        return of.encode()
    if written.startswith("0x"):
        return bytes.fromhex(written[2:])
    words, _, length = written.partition(" to ")
    text = (PLAIN if words == "PLAIN" else words).replace("~;", "\r\n").replace(";", "\n").encode()
    return text if not length else (text + b"#").ljust(int(length))
