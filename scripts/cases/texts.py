"""Reads the lines of docs/cases/texts.md, and the words of the documents of docs/cases/evaluation.md as lines of the same kind."""

import re
from typing import NamedTuple

from scripts.cases.evaluation_cases import DOCUMENT as EVALUATION
from scripts.cases.evaluation_cases import sets_and_queries
from scripts.cases.tables import read

DOCUMENT = "docs/cases/texts.md"
# Beside the parts of the page: the fields of that document.
EVALUATED = "Fields of docs/cases/evaluation.md"
RT = "index rt {\ntype = rt\npath = p\nrt_field = f\n"
# The parts, and how many lines each is known to have.
KNOWN = {
    "Configurations: whole texts": 60,
    "Configurations: lines, by the kind alone": 52,
    "Configurations: changes of one": 15,
    "Configurations: limits": 23,
    "Configurations: the order of kinds": 36,
    "Indexes": 2,
    "Character tables": 43,
    "Fields: words and spans": 31,
    "Fields: plain texts": 10,
    "Fields: a table with `!`": 1,
    "Fields: the last position": 7,
    "Fields: long texts": 3,
    "Fields: bytes of a word": 4,
    EVALUATED: 45,
}


class Line(NamedTuple):
    """A line: its place, the text as it is written, and what is said of it."""

    place: str
    text: str
    wanted: str


def spelled(part):
    """The bytes of what stands between `⟨` and `⟩`."""
    times = re.fullmatch("(.*) × ([0-9]+)", part, re.S)
    if times:
        return b"".join(lines(times.group(1).replace("№", str(number))) for number in range(int(times.group(2))))
    if part.startswith("U+"):
        return chr(int(part[2:], 16)).encode()
    return {"CR": b"\r", "tab": b"\t", "rt": RT.encode()}.get(part) or bytes.fromhex(part[1:])


def lines(text):
    return text.replace("¶", "\n").encode()


def written_out(text):
    """The bytes of a text."""
    outside, *others = text.split("⟨")
    found = [lines(outside)]
    for part in others:
        inside, _, after = part.partition("⟩")
        found += [spelled(inside), lines(after)]
    return b"".join(found)


def page():
    """The lines of each part of the page."""
    found = {head: [] for head in KNOWN if head != EVALUATED}
    head, is_inside = "", False
    for number, line in enumerate(read(DOCUMENT).split("\n"), 1):
        if line == "```":
            is_inside = not is_inside
        elif is_inside:
            text, _, wanted = line.partition(" ⇒ ")
            found[head].append(Line(f"texts.md:{number}", text, wanted))
        elif line.startswith("## "):
            head = line[3:]
    return found


def written_words(words):
    """Words and boundaries as the lines write them: `a 1, b 3s`, by the letter of the boundary before the word."""
    written, boundary = [], ""
    for sign in words.split(" ") if words != "-" else []:
        word, position = sign.rsplit("@", 1)
        if word in ("(sentence)", "(paragraph)"):
            boundary = word[1]
        else:
            written.append(f"{word} {position}{boundary}")
            boundary = ""
    return ", ".join(written)


def written_spans(spans):
    return ", ".join(span.replace("@", " ") for span in spans.split(" ") if span != "-")


def evaluated():
    """The fields of documents with their words and spans, each with `html_strip` and `index_sp` before it."""
    sets, _ = sets_and_queries(read(EVALUATION))
    for name, (about, documents, rows) in sets.items():
        sp, strip = about.split("; ")[2:]
        texts = dict(documents)
        for place, words, spans in rows:
            number, field = place.split(".")
            text = texts[number][int(field)]
            if text:
                wanted = f"{written_words(words)} ⇒ {written_spans(spans)}"
                yield Line(f"evaluation.md, {name} {place}", f"{strip} {sp} {text}", wanted)


def all_parts():
    """The lines of each part, and the fields of the other document."""
    return page() | {EVALUATED: list(evaluated())}
