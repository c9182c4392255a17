"""Reads the lists of words of docs/cases/words.md, and what they stand for."""

import re
from typing import NamedTuple

from scripts.cases.tables import cells, read, text

DOCUMENT = "docs/cases/words.md"
TEXTS = ("How it is written", "What the rules are")
BYTES = r"(?:⟨byte [0-9a-f]{2}⟩)+"
VALUE = rf"(?:'[^']*'|⟨. × \d+⟩|{BYTES}|\S)+"
MEANT = rf"Usage|\w+(?: \w+={VALUE})+"
PART = rf"'[^']*'|⟨. × \d+⟩|{BYTES}|."
WORD = rf"(?:'[^']*'|⟨. × \d+⟩|{BYTES}|[^ '])+"


class List(NamedTuple):
    """Some words, the mode that they stand for, None for `Usage`, and the values of its options."""

    place: str
    words: list
    mode: str
    values: dict


def spelled(part):
    """The bytes of a part of a word."""
    if part.startswith("⟨byte "):
        return bytes.fromhex("".join(re.findall("byte (..)", part)))
    times = re.fullmatch(r"⟨(.) × (\d+)⟩", part)
    return (times.group(1) * int(times.group(2)) if times else part.strip("'") if part.startswith("'") else part).encode()


def word(written):
    return b"".join(spelled(part) for part in re.findall(PART, written))


def meant(written):
    """The mode and the values of its options."""
    assert re.fullmatch(MEANT, written), written
    if written == "Usage":
        return None, {}
    mode, *options = re.findall(rf"(?<= )\w+={VALUE}|^\w+", written)
    return mode, {name: word(value).decode() for name, value in (option.split("=", 1) for option in options)}


def lists():
    """All lists, from the top of the page."""
    head = ""
    for number, line in enumerate(read(DOCUMENT).split("\n"), 1):
        if line.startswith("## "):
            head = line[3:]
        row = cells(line)
        if not head or head in TEXTS or row is None or row[0] == "words":
            continue
        given, wanted = row
        given = "" if given == "(none)" else text(given)
        yield List(f"words.md:{number}", [word(one) for one in re.findall(WORD, given)], *meant(text(wanted)))
