"""Asks a session for the documents of docs/cases/directories.md, and knows what each reply shows.

What is wanted follows from the documents as the page writes them and from the rules of EXTENDED_QUERIES.md. By the ranker
`wordcount` a document weighs as much as it has hits, so that a word with a position limit tells how often it stands up to there.
"""

import re
from itertools import product
from typing import NamedTuple

from scripts.cases.chunk_images import Schema
from scripts.cases.directories import written_out
from scripts.cases.evaluation_runs import quoted

FIELDS = {"one": ["title"], "two": ["title", "body"]}
VALUES = {"one": [], "two": ["gid", "price", "flag", "seen"]}
ATTRIBUTES = {"gid": "uint", "price": "bigint", "flag": "bool", "seen": "timestamp"}
ZONES = ["z0", "z1"]
DOCUMENT = re.compile(r"(\d+) born \d+ ((?:\([^()]*\))+)([^\[]*)(.*)")
# The characters of the longest word that is asked for, and of how long a field each position is tried.
LONGEST_WORD = 42
SHORT = 12
# SENTENCE and PARAGRAPH look at each pair of places: words with more of them aren't asked for together.
MOST_PAIRS = 100_000


class Field(NamedTuple):
    """A field: the positions of each word, the places at which sentences and paragraphs end, and the last position."""

    words: dict
    ends: dict
    last: int
    spans: list  # the zone, the first and the last position of each


class Shown(NamedTuple):
    """A document."""

    number: int
    fields: list
    values: list


def configuration(index, characters):
    """The configuration of an index whose words have these characters, each folded to itself."""
    columns = [f"rt_field = {field}" for field in FIELDS[index]]
    columns += [f"rt_attr_{ATTRIBUTES[value]} = {value}" for value in VALUES[index]]
    table = ", ".join(f"U+{ord(character):X}" for character in sorted(characters))
    options = [f"charset_table = {table}", "html_strip = 1", "index_sp = 1", f"index_zones = {', '.join(ZONES)}"]
    return "\n".join([f"index {index}", "{", "type = rt", f"path = {index}", *columns, *options, "}", ""])


def schema_of(index):
    """How much an index has of each kind, and the text that its root has of its columns."""
    fields, values = FIELDS[index], VALUES[index]
    text = "".join(f"field {name}\n" for name in fields) + "".join(f"{ATTRIBUTES[name]} {name}\n" for name in values)
    return Schema(len(fields), len(values), len(ZONES)), text.encode()


def field(text, spans):
    """A field as the page writes it."""
    words, ends, at = {}, {}, 0
    for piece in written_out(text).split():
        at += 1
        if piece in ".¶":
            ends[at] = piece
        else:
            word = re.sub(r"\\u\{(.*?)\}", lambda code: chr(int(code.group(1), 16)), piece)
            words.setdefault(word, []).append(at)
    return Field(words, ends, at, spans)


def document(text):
    number, fields, values, spans = DOCUMENT.fullmatch(text).groups()
    texts = re.findall(r"\(([^()]*)\)", fields)
    of = [tuple(map(int, span)) for span in re.findall(r"\[(\d+) (\d+) (\d+) (\d+)\]", spans)]
    fields = [field(text, [span[1:] for span in of if span[0] == place]) for place, text in enumerate(texts)]
    return Shown(int(number), fields, values.split())


def parts_of(field, word, ends):
    """The numbers of the parts of a field in which a word stands, where parts end at these places."""
    places = sorted(at for at, end in field.ends.items() if end in ends)
    numbers, number = set(), 0
    for at in field.words.get(word, []):
        while number < len(places) and places[number] < at:
            number += 1
        numbers.add(number)
    return numbers


def spans_of(field, word, zone):
    """The spans of a zone in which a word stands."""
    places = field.words.get(word, [])
    return {span for span in field.spans if span[0] == zone and any(span[1] <= at <= span[2] for at in places)}


def in_zone(field, word, zone):
    """How often a word stands in a zone."""
    spans = [span for span in field.spans if span[0] == zone]
    return sum(any(first <= at <= last for _, first, last in spans) for at in field.words.get(word, []))


def phrase_hits(field, one, two):
    """How many hits a phrase of two words has: each has its places that lie inside some run of both."""
    seconds = set(field.words.get(two, []))
    inside = {place for at in field.words.get(one, []) if at + 1 in seconds for place in (at, at + 1)}
    return sum(at in inside for word in (one, two) for at in field.words.get(word, []))


def escaped(word):
    """A word as it is asked for."""
    return re.sub(r"([ -/:-@\[-`{-~])", r"\\\1", word)


class Documents:
    """The documents that a directory stands for."""

    def __init__(self, index, told):
        self.index = index
        self.all = [document(text) for text in told.split("; ")] if told != "none" else []

    def words(self):
        """The words that can be asked for, each once."""
        every = {word for one in self.all for field in one.fields for word in field.words}
        return sorted(word for word in every if len(word) <= LONGEST_WORD)

    def characters(self):
        return {character for word in self.words() for character in word} or {"a"}

    def asked(self, query, amounts):
        """A query with what it shows: the amount of each document that has one."""
        shown = [f" | {one.number}, {int(amount)}" for one, amount in zip(self.all, amounts) if amount]
        matches = f"FROM {self.index} WHERE MATCH({quoted(query)}) ORDER BY id ASC"
        return f"SELECT id, WEIGHT() {matches} OPTION ranker = wordcount", "id, weight()" + "".join(shown)

    def found(self, query, finds):
        """A query with the ids of the documents that it finds."""
        shown = [f" | {one.number}" for one, is_found in zip(self.all, finds) if is_found]
        return f"SELECT id FROM {self.index} WHERE MATCH({quoted(query)}) ORDER BY id ASC", "id" + "".join(shown)

    def questions(self):
        """What is sent to a session, each with its reply."""
        columns = ", ".join(["id", *VALUES[self.index]])
        rows = [f" | {', '.join([str(one.number), *one.values])}" for one in self.all]
        yield f"SELECT {columns} FROM {self.index} ORDER BY id ASC", columns + "".join(rows)
        words = self.words()
        for word in words:
            if " " in word:  # a blank of the table is one of each limit
                counts = [sum(len(field.words.get(word, [])) for field in one.fields) for one in self.all]
                yield self.asked(escaped(word), counts)
                return
        for place, name in enumerate(FIELDS[self.index]):
            fields = [one.fields[place] for one in self.all]
            for word in words:
                yield from self.of_word(f"@{name}", fields, word)
            is_long = any(field.last > SHORT for field in fields)
            for one, two in product(words, words):
                if is_long:
                    yield self.of_neighbours(f"@{name}", fields, one, two)
                if sum(len(field.words.get(one, [])) * len(field.words.get(two, [])) for field in fields) <= MOST_PAIRS:
                    yield from self.of_pair(f"@{name}", fields, one, two)

    def of_word(self, limit, fields, word):
        """Where a word stands in a field of the documents."""
        places = [field.words.get(word, []) for field in fields]
        last = max(field.last for field in fields)
        asked = range(1, last + 2) if last <= SHORT else (1, 2, 3, last // 2, last - 1, last)
        yield self.asked(f"{limit} {escaped(word)}", map(len, places))
        for most in asked:
            yield self.asked(f"{limit}[{most}] {escaped(word)}", [sum(at <= most for at in some) for some in places])
        yield self.asked(f"{limit} ^{escaped(word)}", [1 in some for some in places])
        yield self.asked(f"{limit} {escaped(word)}$", [field.last in some for field, some in zip(fields, places)])
        for zone, name in enumerate(ZONES):
            yield self.asked(f"{limit} ZONE:{name} {escaped(word)}", [in_zone(field, word, zone) for field in fields])

    def of_neighbours(self, limit, fields, one, two):
        """How often two words stand one behind the other in a field of the documents."""
        counts = [phrase_hits(field, one, two) for field in fields]
        return self.asked(f'{limit} "{escaped(one)} {escaped(two)}"', counts)

    def of_pair(self, limit, fields, one, two):
        """What two words share in a field of the documents."""
        for operator, ends in (("SENTENCE", ".¶"), ("PARAGRAPH", "¶")):
            finds = [parts_of(field, one, ends) & parts_of(field, two, ends) for field in fields]
            yield self.found(f"{limit} {escaped(one)} {operator} {escaped(two)}", finds)
        for zone, name in enumerate(ZONES):
            finds = [spans_of(field, one, zone) & spans_of(field, two, zone) for field in fields]
            yield self.found(f"{limit} ZONESPAN:{name} {escaped(one)} {escaped(two)}", finds)
