"""Trees of extended queries: reads their written form, and says what they find in a document.

A document is a list of fields, each with its words at their positions, the ends of its sentences and paragraphs, and its spans
of zones (`Field`). What a tree finds there are occurrences, as (field, first, last), and hits, as (query, word, field, position),
by the rules of docs/EXTENDED_QUERIES.md and of docs/cases/evaluation.md; both are sets. Nothing of it is taken from the program.
A word with `*` behind it is a prefix, by the rules of docs/EXTENDED_QUERIES.md: it is found where a word stands that begins with it.
"""

import re
from decimal import Decimal
from typing import NamedTuple

LIMIT = re.compile(r"@(!\*|\*|\([^)]*\))(?:\[(\d+)\])? (?:ZONE:\(([^)]*)\) )?")
SPAN = re.compile(r"ZONESPAN:\(([^)]*)\) ")
NUMBER = re.compile(r"~(\d+)|/(0\.\d+)|/(\d+)")
JOIN = re.compile(r"(\||MAYBE|<<|NEAR/\d+|SENTENCE|PARAGRAPH) ")


class Field(NamedTuple):
    """What a field of a document has."""

    words: list  # each with its position, in their order
    sentences: list  # the positions that ends of sentences take, those of paragraphs too
    paragraphs: list
    spans: list  # (zone, first, last)


class Limit(NamedTuple):
    """Which places of a word count."""

    fields: frozenset  # None: all
    positions: int = 65535
    zones: frozenset = None

    def allows(self, document, names, field, position):
        if self.fields is not None and names[field] not in self.fields or position > self.positions:
            return False
        spans = document[field].spans
        return self.zones is None or any(zone in self.zones and first <= position <= last for zone, first, last in spans)


ALL = Limit(None)


class Key(NamedTuple):
    """A keyword: its number from 1, those of words from 0, what it is, and where it may stand."""

    query: int
    numbers: dict
    word: str
    limit: Limit
    start: bool
    end: bool
    negated: bool
    prefix: bool = False

    def takes(self, word):
        return word.startswith(self.word) if self.prefix else word == self.word

    def places(self, document, names, within):
        """Its places as field and position, each with the number of the word that stands there."""
        found = {}
        for field, has in enumerate(document):
            for word, position in has.words:
                if self.takes(word) and self.limit.allows(document, names, field, position):
                    first = not self.start or position == has.words[0][1]
                    last = not self.end or position == has.words[-1][1]
                    inside = all(field == span[0] and span[1] <= position <= span[2] for span in within)
                    found |= {(field, position): self.numbers[word]} if first and last and inside else {}
        return found


class Found(NamedTuple):
    """What is found: occurrences and hits, and whether it matches."""

    matches: bool
    places: frozenset = frozenset()
    hits: frozenset = frozenset()


NOTHING = Found(False)


def made(places, hits):
    """What is found where occurrences are made of others: hits are kept that lie inside one of them."""
    inside = frozenset(
        hit for hit in hits if any(field == hit[2] and first <= hit[3] <= last for field, first, last in places)
    )
    return Found(bool(places), frozenset(places), inside)


class Word(NamedTuple):
    key: Key

    def find(self, about, within):
        places = self.key.places(*about[:2], within)
        occurrences = frozenset((field, position, position) for field, position in places)
        return Found(bool(places), occurrences, hits_at(self.key, places))


def hits_at(key, places):
    return frozenset((key.query, number, field, position) for (field, position), number in places.items())


class Quoted(NamedTuple):
    """Keywords between quotes: a phrase, `~` and a number, `/` and a number or a share."""

    keys: list
    sign: str
    number: Decimal

    def find(self, about, within):
        listed = [(key, key.places(*about[:2], within)) for key in self.keys]
        hits = frozenset().union(*(hits_at(key, places) for key, places in listed))
        if self.sign == "/":
            return self.quorum(listed, hits)
        return made(self.runs(listed) if self.sign == "" else self.windows(listed), hits)

    def quorum(self, listed, hits):
        having = sum(bool(places) for _, places in listed)
        needed = len(listed) * self.number if self.number < 1 else min(self.number, len(listed))
        if having < needed:
            return NOTHING
        return Found(True, frozenset((field, at, at) for _, places in listed for field, at in places), hits)

    def runs(self, listed):
        (_, first), *rest = listed
        return [
            (field, at, at + len(rest))
            for field, at in first
            if all((field, at + step) in places for step, (_, places) in enumerate(rest, 1))
        ]

    def windows(self, listed):
        ends = {place for _, places in listed for place in places}
        reach = int(self.number) + len(listed)
        found = []
        for field, first in ends:
            for other, last in ends:
                if field == other and first <= last and last + 1 - first < reach and self.holds(listed, field, first, last):
                    found.append((field, first, last))
        return found

    def holds(self, listed, field, first, last):
        """Whether a window has each word as often as it is listed."""
        for word in {key.word for key, _ in listed}:
            of_word = [places for key, places in listed if key.word == word]
            held = {at for places in of_word for other, at in places if other == field and first <= at <= last}
            if len(held) < len(of_word):
                return False
        return True


class And(NamedTuple):
    items: list  # each with whether it is negated

    def find(self, about, within):
        found = [(negated, node.find(about, within)) for negated, node in self.items]
        if any(negated == its.matches for negated, its in found):
            return NOTHING
        parts = [its for negated, its in found if not negated]
        return Found(
            True, frozenset().union(*(its.places for its in parts)), frozenset().union(*(its.hits for its in parts))
        )


class Joined(NamedTuple):
    """Two parts joined by an operator, with the number of NEAR."""

    operator: str
    left: object
    right: object

    def find(self, about, within):
        if self.operator in ("SENTENCE", "PARAGRAPH") and not about[2]:
            return And([(False, self.left), (False, self.right)]).find(about, within)
        left, right = self.left.find(about, within), self.right.find(about, within)
        if self.operator in ("|", "MAYBE"):
            matches = left.matches or self.operator == "|" and right.matches
            return Found(True, left.places | right.places, left.hits | right.hits) if matches else NOTHING
        pairs = ((one, two) for one in left.places for two in right.places if one[0] == two[0])
        return made([self.hull(*pair) for pair in pairs if self.together(about[0], *pair)], left.hits | right.hits)

    def hull(self, one, two):
        return one[0], min(one[1], two[1]), max(one[2], two[2])

    def together(self, document, one, two):
        """Whether a pair of one field goes together."""
        if self.operator == "<<":
            return one[2] < two[1]
        if self.operator.startswith("NEAR/"):
            gap = two[1] - one[2] if one[2] < two[1] else one[1] - two[2]
            return 0 < gap <= int(self.operator[5:])
        field, first, last = self.hull(one, two)
        ends = document[field].sentences if self.operator == "SENTENCE" else document[field].paragraphs
        return not any(first < end < last for end in ends)


class Spanned(NamedTuple):
    """What is found inside one span of some zones."""

    zones: frozenset
    node: object

    def find(self, about, within):
        spans = [
            (field, first, last)
            for field, has in enumerate(about[0])
            for zone, first, last in has.spans
            if zone in self.zones
        ]
        found = [self.node.find(about, [*within, span]) for span in spans]
        return Found(
            any(its.matches for its in found),
            frozenset().union(*(its.places for its in found)),
            frozenset().union(*(its.hits for its in found)),
        )


class Everything(NamedTuple):
    """The query without a word."""

    def find(self, about, within):
        return Found(True)


class Tree:
    """A query, by its written form; where it has prefixes it is asked of documents that have these words and no others.

    Words are numbered by first use. A prefix uses all words that begin with it, in their order, or the empty one where none does.
    """

    def __init__(self, written, words=()):
        self.text, self.at, self.keys, self.limit, self.negated, self.numbers = written, 0, [], ALL, False, {}
        self.root = self.node() if written else Everything()
        assert self.at == len(written), f"{written} at {self.at}"
        self.expanded = sum(len(found) for key, found in self.used(words) if key.prefix)
        for _, found in self.used(words):
            for word in found or [""]:
                self.numbers.setdefault(word, len(self.numbers))

    def used(self, words):
        """The keywords with the words that each uses."""
        return [(key, sorted(filter(key.takes, set(words))) if key.prefix else [key.word]) for key in self.keys]

    def words(self):
        """The distinct words, by first use."""
        return list(dict.fromkeys(key.word for key in self.keys))

    def shown(self):
        """The distinct keywords, as SHOW META tells them, by first use."""
        return list(dict.fromkeys((key.word, key.prefix) for key in self.keys))

    def find(self, document, names, reads_sentences):
        return self.root.find((document, names, reads_sentences), [])

    def take(self, sign):
        taken = self.text.startswith(sign, self.at)
        self.at += len(sign) if taken else 0
        return taken

    def match(self, pattern):
        found = pattern.match(self.text, self.at)
        self.at = found.end() if found else self.at
        return found

    def node(self):
        if self.take("( "):
            return self.group()
        if self.text.startswith("(", self.at):
            self.at += 1
            span = self.match(SPAN)
            node = Spanned(frozenset(span[1].split(",")), self.node()) if span else self.limited()
            assert self.take(")"), f"{self.text} at {self.at}"
            return node
        if self.take('"'):
            return self.quoted()
        return Word(self.word())

    def limited(self):
        """A part with the limits over it."""
        fields, positions, zones = self.match(LIMIT).groups()
        named = {"*": None, "!*": frozenset()}
        fields = named[fields] if fields in named else frozenset(fields[1:-1].split(","))
        outer = self.limit
        self.limit = Limit(fields, int(positions or 65535), zones and frozenset(zones.split(",")))
        node = self.node()
        self.limit = outer
        return node

    def group(self):
        """What stands between parentheses: items, or parts that are joined."""
        items = [self.item()]
        node = items[0][1]
        while not self.take(" )"):
            assert self.take(" "), f"{self.text} at {self.at}"
            join = self.match(JOIN)
            if join:
                node = Joined(join[1], node, self.node())
            else:
                items.append(self.item())
        return And(items) if len(items) > 1 else node

    def item(self):
        negated, outer = self.take("-"), self.negated
        self.negated = outer or negated
        node = self.node()
        self.negated = outer
        return negated, node

    def quoted(self):
        keys = [self.word()]
        while not self.take('"'):
            assert self.take(" "), f"{self.text} at {self.at}"
            keys.append(self.word())
        number = self.match(NUMBER)
        sign = number[0][0] if number else ""
        return Quoted(keys, sign, Decimal(number[0][1:]) if number else None)

    def word(self):
        """A keyword with its marks, and its escapes taken away."""
        start, word = self.take("^"), ""
        while self.at < len(self.text) and self.text[self.at] not in ' )"$*':
            self.at += self.text[self.at] == "\\"
            word += self.text[self.at]
            self.at += 1
        assert word, f"{self.text} at {self.at}"
        end = self.take("$")
        prefix = not end and self.take("*")
        key = Key(len(self.keys) + 1, self.numbers, word, self.limit, start, end, self.negated, prefix)
        self.keys.append(key)
        return key
