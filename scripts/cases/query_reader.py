"""Reads the text of MATCH: gives the query's written form, as docs/cases/extended_queries.md has it, or its first fault.

By the rules of docs/EXTENDED_QUERIES.md alone; nothing of it is taken from the program. With a shortest length of prefixes
above 0 a word directly followed by `*` is a prefix. A text is cut into pieces from left to right (`Pieces`), which are read by
the grammar, one function for each of its lines (`Reading`).
"""

import re
from typing import NamedTuple

BLANKS = " \t\r\n"
# The kinds of faults in the order in which they count at one place.
KINDS = (
    "unclosed quote", "syntax error", "only NOT", "unknown field", "unknown zone", "name too long", "number out of range",
    "nesting above 32", "too many keywords", "ZONESPAN before operator", "prefix too short",
)
NAME = r"[A-Za-z_][A-Za-z0-9_]*"
TAG = r"[A-Za-z][A-Za-z0-9_:-]*"
FIELDS = re.compile(rf"@(!?)(\*|{NAME}|\({NAME}(?:,{NAME})*\))(?:\[([0-9]+)\])?")
ZONES = re.compile(rf"(ZONE|ZONESPAN):({TAG}|\({TAG}(?:,{TAG})*\))")
NAMED = re.compile(r"(MAYBE|SENTENCE|PARAGRAPH|NEAR/([0-9]+))(?![^ \t\r\n()\"])")
NUMBER = re.compile(r"~([0-9]+)|/0+\.([0-9]+)|/([0-9]+)")
WORD, CUT, KEYS, DEEP, LONGEST, MOST = re.compile(r"\w", re.ASCII), 42, 255, 32, 64, 65535
# The operators that stand on one line of the grammar: a left argument of the same line has no parentheses of its own.
LINES = ({"|", "MAYBE"}, {"<<", "NEAR"}, {"SENTENCE"}, {"PARAGRAPH"})


class Fault(NamedTuple):
    place: int
    order: int
    name: str = ""

    def __str__(self):
        return f"{KINDS[self.order]} at {self.place}" + (f" `{self.name}`" if self.name else "")


def fault(place, kind, name=""):
    return Fault(place, KINDS.index(kind), name)


class Index(NamedTuple):
    """What of an index a query is read by."""

    fields: list
    zones: list = []
    fold: object = str.lower  # of a character, None for one that the table hasn't
    min_prefix: int = 0


class Piece(NamedTuple):
    kind: str
    place: int
    value: object = None
    faults: tuple = ()


def out_of_range(digits):
    """Whether a number that is there isn't 1 to the greatest one; it may have very many digits."""
    return digits is not None and (len(digits.lstrip("0")) not in range(1, 6) or int(digits[-5:]) > MOST)


class Pieces:
    """The pieces of a text, from left to right."""

    def __init__(self, text, index):
        self.text, self.index, self.at, self.list, self.relaxed, self.behind = text, index, 0, [], False, None
        if re.match(r"@@relaxed(?!\w)", text, re.ASCII):
            self.relaxed, self.at = True, len("@@relaxed")
        while self.at < len(text):
            self.step()
        self.list.append(Piece("end", self.bytes(len(text))))

    def bytes(self, at):
        return len(self.text[:at].encode())

    def folded(self, at):
        return self.index.fold(self.text[at]) if at < len(self.text) else None

    def add(self, kind, length, value=None, faults=()):
        place = self.bytes(self.at)
        self.list.append(Piece(kind, place, value, tuple(fault(place, *one) for one in faults)))
        self.at += length

    def step(self):
        sign = self.sign(self.at)
        if sign:
            sign()
        elif not self.word():
            self.at += 2 if self.text[self.at] == "\\" else 1

    def sign(self, at, in_word=False):
        """What takes the piece that begins here and is no word, or None."""
        text, here, last = self.text, self.text[at], self.text[at - 1 : at]
        starts = at == 0 or last in BLANKS
        if here == '"':
            return self.quoted
        if here in "()|":
            return lambda: self.add(here, 1)
        if text.startswith("<<", at):
            return lambda: self.add("<<", 2)
        if here in "-!" and (starts or last in '(|"') and text[at + 1 : at + 2] not in ("", *BLANKS):
            return lambda: self.add("not", 1)
        if here == "@" and FIELDS.match(text, at):
            return lambda: self.fields(FIELDS.match(text, at))
        if not in_word and at != self.behind and last != "^" and ZONES.match(text, at):
            return lambda: self.zones(ZONES.match(text, at))
        if (starts or last in '()"') and NAMED.match(text, at):
            return lambda: self.named(NAMED.match(text, at))
        return None

    def word(self):
        """A word with its marks, where one begins here."""
        start = self.text[self.at] == "^"
        at = self.at + start
        if at == len(self.text) or self.text[at] in "^$" or start and self.sign(at):
            return False
        word, at = self.run(at, len(self.text), True)
        if not word:
            return False
        end = self.text.startswith("$", at)
        prefix = not end and self.index.min_prefix > 0 and self.text.startswith("*", at)
        short = [("prefix too short",)] if prefix and len(word) < self.index.min_prefix else []
        self.behind = at
        self.add("word", at + (end or prefix) - self.at, (start, word, end, prefix), short)
        return True

    def run(self, at, end, outside):
        """The word that begins here, empty where none does, and its end."""
        word = ""
        while at < end:
            here = self.text[at]
            if outside and (here in "^$" or self.sign(at, bool(word))):
                break
            if outside and here == "*" and word and self.index.min_prefix > 0:
                break
            length = 2 if here == "\\" else 1
            folded = self.folded(at + length - 1) if at + length <= end else None
            if folded is None:
                break
            word, at = word + folded, at + length
        return word[:CUT], at

    def quoted(self):
        end = self.text.find('"', self.at + 1)
        if end < 0:
            return self.add("unclosed", len(self.text) - self.at)
        at, words = self.at + 1, []
        while at < end:
            word, after = self.run(at, end, False)
            words += [word] if word else []
            at = max(after, at + (2 if self.text[at] == "\\" else 1))
        number = NUMBER.match(self.text, end + 1)
        length = (number.end() if number else end + 1) - self.at
        if not words:
            self.at += length
            return None
        sign = number[0] if number else ""
        near, share, least = number.groups() if number else (None, None, None)
        whole = near or least
        bad = out_of_range(whole) or share and (len(share) > 4 or not share.strip("0"))
        if whole:
            sign = sign[0] + whole.lstrip("0")
        elif share:
            sign = f"/0.{share}"
        return self.add("quoted", length, (words, sign), [("number out of range",)] if bad else [])

    def named(self, found):
        kind, number = found.groups()
        if number is None:
            return self.add(kind, len(kind))
        faults = [("number out of range",)] if out_of_range(number) else []
        return self.add("NEAR", len(found[0]), f"NEAR/{number.lstrip('0')}", faults)

    def fields(self, found):
        but, named, number = found.groups()
        names = [] if named == "*" else [name.lower() for name in named.strip("()").split(",")]
        long = [name for name in names if len(name) > LONGEST]
        unknown = [name for name in names if name not in self.index.fields and name not in long]
        faults = [("unknown field", name) for name in unknown[:1] if not self.relaxed] + [("name too long",)] * bool(long)
        faults += [("number out of range",)] if out_of_range(number) else []
        kept = set(self.index.fields if named == "*" else names)
        kept = [field for field in self.index.fields if (field in kept) != bool(but)]
        self.add("limit", len(found[0]), (kept, MOST if out_of_range(number or "0") else int(number[-5:])), faults)

    def zones(self, found):
        kind, named = found.groups()
        names = [name.lower() for name in named.strip("()").split(",")]
        long = [name for name in names if len(name) > LONGEST]
        unknown = [name for name in names if name not in self.index.zones and name not in long]
        faults = [("unknown zone", name) for name in unknown[:1]] + [("name too long",)] * bool(long)
        self.add(kind, len(found[0]), names, faults if self.index.zones else [])


class Limits(NamedTuple):
    fields: tuple
    positions: int = MOST
    zones: tuple = ()

    def over(self, what, fields):
        """The written form of what stands under these limits."""
        number = f"[{self.positions}]" if self.positions < MOST else ""
        zones = f"ZONE:({','.join(self.zones)}) " if self.zones else ""
        listed = "!*" if not self.fields else f"({','.join(self.fields)})" if len(self.fields) < len(fields) else "*"
        return what if listed == "*" and not number and not zones else f"(@{listed}{number} {zones}{what})"


class Node(NamedTuple):
    """A part of a query: how it is written, without the parentheses of a join, and the operator that joins it."""

    text: str
    join: str = ""

    def whole(self):
        return f"( {self.text} )" if self.join else self.text


class Stop(Exception):
    """Reading stops: no query goes on with this piece."""


class Reading:
    """The pieces of a text, read by the grammar. Where `result` is no fault it is the written form."""

    def __init__(self, text, index):
        self.index, pieces = index, Pieces(text, index)
        self.pieces, self.at, self.faults, self.keys, self.deep = pieces.list, 0, [], 0, 0
        self.every = Limits(tuple(index.fields))
        self.result = ""
        if len(self.pieces) > 1 or pieces.relaxed:
            try:
                node = self.expr(self.every)
                self.take("end")
                self.result = node.whole()
            except Stop:
                pass
        self.result = min(self.faults) if self.faults else self.result

    def next(self):
        return self.pieces[self.at].kind

    def stop(self, kind="syntax error"):
        piece = self.pieces[self.at]
        self.faults.append(fault(piece.place, "unclosed quote" if piece.kind == "unclosed" else kind))
        raise Stop

    def take(self, *kinds):
        if self.next() not in kinds:
            self.stop()
        piece = self.pieces[self.at]
        self.faults += piece.faults
        self.at += 1
        return piece

    def expr(self, limits):
        """ZONESPANs of a group are in force where they stand, up to the limit that replaces them."""
        node, limits, spanned = self.conjunction(limits)
        while self.next() in ("<<", "NEAR"):
            piece = self.take("<<", "NEAR")
            self.faults += [fault(piece.place, "ZONESPAN before operator")] if spanned else []
            right, limits, spanned = self.conjunction(limits)
            node = joined(node, piece.kind, piece.value or "<<", right)
        if self.next() not in (")", "end"):
            self.stop()
        return node

    def conjunction(self, limits):
        """An `and`, with the limits behind it, and whether a ZONESPAN is in force there."""
        items, span, spanned = [], None, False
        while True:
            had_limit = False
            while self.next() in ("limit", "ZONE", "ZONESPAN"):
                piece, had_limit = self.take("limit", "ZONE", "ZONESPAN"), True
                if self.index.zones or piece.kind == "limit":
                    self.close(items, span)
                    span, spanned = None, False
                if piece.kind == "limit":
                    limits = Limits(tuple(piece.value[0]), piece.value[1])
                elif self.index.zones:
                    limits = limits._replace(zones=tuple(piece.value) if piece.kind == "ZONE" else ())
                    if piece.kind == "ZONESPAN":
                        span, spanned = (len(items), piece.value), True
            if self.next() not in ("not", "word", "quoted", "("):
                if had_limit or not items:
                    self.stop()
                break
            items.append(self.item(limits))
        if self.next() in ("<<", "NEAR", "end") or self.next() == ")" and self.deep:
            self.close(items, span)
            if all(negated for negated, _, _ in items):
                self.faults.append(fault(items[0][1], "only NOT"))
        return conjoined([(negated, node) for negated, _, node in items]), limits, spanned

    def close(self, items, span):
        """Makes a node of the items behind a ZONESPAN, if there are some."""
        if span is None or span[0] == len(items):
            return
        inside, place = items[span[0] :], items[span[0]][1]
        if all(negated for negated, _, _ in inside):
            self.faults.append(fault(place, "only NOT"))
        node = conjoined([(negated, node) for negated, _, node in inside])
        items[span[0] :] = [(False, place, Node(f"(ZONESPAN:({','.join(span[1])}) {node.whole()})"))]

    def item(self, limits):
        place = self.pieces[self.at].place
        if self.next() == "not":
            self.take("not")
            return True, place, self.join(limits)
        node = self.join(limits)
        while self.next() in ("|", "MAYBE"):
            sign = self.take("|", "MAYBE").kind
            node = joined(node, sign, sign, self.join(limits))
        return False, place, node

    def join(self, limits):
        if self.next() == "(":
            if self.deep == DEEP:
                self.stop("nesting above 32")
            self.take("(")
            self.deep += 1
            node = self.expr(limits)
            self.take(")")
            self.deep -= 1
            return node
        node, plain = self.leaf()
        chain = self.next() if plain and self.next() in ("SENTENCE", "PARAGRAPH") else None
        while chain and self.next() == chain:
            self.take(chain)
            if self.next() == "quoted" and self.pieces[self.at].value[1]:
                self.stop()
            node = joined(node, chain, chain, self.leaf()[0])
        text = limits.over(node.whole(), self.index.fields)
        return node if text == node.whole() else Node(text)

    def leaf(self):
        """A word or a quoted piece, and whether it may stand beside SENTENCE."""
        piece = self.take("word", "quoted")
        words, sign = ([piece.value[1]], "") if piece.kind == "word" else piece.value
        if self.keys <= KEYS < self.keys + len(words):
            self.faults.append(fault(piece.place, "too many keywords"))
        self.keys += len(words)
        if piece.kind == "word":
            start, word, end, prefix = piece.value
            return Node("^" * start + spelled(word) + "$" * end + "*" * prefix), True
        if len(words) == 1 and not sign:
            return Node(spelled(words[0])), True
        return Node(f'"{" ".join(map(spelled, words))}"{sign}'), not sign


def spelled(word):
    """A word with its escapes."""
    text = "".join(c if WORD.match(c) or not c.isascii() else "\\" + c for c in word)
    return "\\" + text if word in ("MAYBE", "SENTENCE", "PARAGRAPH") else text


def joined(left, kind, sign, right):
    same = any(kind in line and left.join in line for line in LINES)
    return Node(f"{left.text if same else left.whole()} {sign} {right.whole()}", kind)


def conjoined(items):
    if len(items) == 1 and not items[0][0]:
        return items[0][1]
    return Node(" ".join("-" * negated + node.whole() for negated, node in items), "and")


def read_query(text, index):
    """The written form of a text, or its fault."""
    return Reading(text, index).result
