"""Finds the first fault of an extended query, by the rules of docs/EXTENDED_QUERIES.md alone.

The pieces are gone over once. What may come next hangs on the piece before and on the group that is open; a piece that may not
come ends the reading, and so do an unclosed quote and a 33rd open group. Of the faults met until then the first in the text is
the answer, of those at one place the first by their rank. That a list has only negated items is known when it has ended.
"""

from scripts.readers.query_pieces import pieces

RANKS = (
    "unclosed quote", "syntax error", "only NOT", "unknown field", "unknown zone", "name too long", "number out of range",
    "nesting above 32", "too many keywords", "ZONESPAN before operator",
)  # fmt: skip
DEEPEST, MOST_WORDS, LARGEST, LONGEST_NAME = 32, 255, 65535, 64
BEGINS_ITEM = ("word", "quoted", "numbered", "(")


class Stop(Exception):
    """Nothing more is read."""


class Group:
    """An open group: what its list has so far."""

    def __init__(self, is_negated):
        self.is_negated = is_negated  # whether the group itself is the part of a NOT
        self.span = None  # of a ZONESPAN in force: -1 without an item, the first one's place, or -2 where one isn't negated
        self.begin_list()

    def begin_list(self):
        """A list without items: the place of its first one, and whether one isn't negated."""
        self.first, self.has_plain = None, False


class Reading:
    """What is known while pieces are read."""

    def __init__(self, fields, zones):
        self.fields, self.zones = fields, zones
        self.faults, self.groups, self.words = [], [Group(False)], 0
        # What may come: `item`, `join` (behind NOT, `|` and MAYBE), `leaf` (behind SENTENCE and PARAGRAPH) and `on` (behind a part).
        self.wants, self.is_relaxed, self.in_not = "item", False, False
        self.chain = None  # of the join that is read: `leaf`, SENTENCE, PARAGRAPH, or None where it is no leaf

    def fault(self, kind, at, name=None):
        self.faults.append((at, RANKS.index(kind), f"{kind} at {at}" if name is None else f"{kind} '{name}' at {at}"))

    def stop(self, kind, at):
        self.fault(kind, at)
        raise Stop

    def read(self, text):
        found = list(pieces(text))
        try:
            for piece in found:
                self.take(piece)
            if self.wants != "on" and found or len(self.groups) > 1:
                self.stop("syntax error", len(text))
            self.end_list()
        except Stop:
            pass
        return min(self.faults)[2] if self.faults else None

    def take(self, piece):
        kind = piece.kind
        if kind == "unclosed":
            self.stop("unclosed quote", piece.at)
        if kind == "relaxed":
            self.is_relaxed = True
        elif kind in ("fields", "zones"):
            self.take_limit(piece)
        elif kind == "not":
            self.expect(piece, self.wants in ("item", "on"))
            self.begin_item(piece.at, True)
            self.wants, self.chain = "join", "leaf"
        elif kind in BEGINS_ITEM:
            self.take_part(piece)
        elif kind == ")":
            self.close(piece)
        else:
            self.take_operator(piece)

    def expect(self, piece, is_due):
        if not is_due:
            self.stop("syntax error", piece.at)

    def take_limit(self, piece):
        self.expect(piece, self.wants in ("item", "on"))
        known, kind = (self.fields, "unknown field") if piece.kind == "fields" else (self.zones, "unknown zone")
        looks = piece.kind == "fields" or bool(self.zones)
        for name in piece.names if looks else ():
            if len(name) > LONGEST_NAME:
                self.fault("name too long", piece.at)
            elif name not in known and not (piece.kind == "fields" and self.is_relaxed):
                unknown = (piece.at, RANKS.index(kind))
                if all(fault[:2] != unknown for fault in self.faults):
                    self.fault(kind, piece.at, name)
        self.look_at_number(piece)
        self.end_span()
        if piece.is_span and self.zones:
            self.groups[-1].span = -1
        self.wants = "item"

    def look_at_number(self, piece):
        if piece.number is None:
            return
        if piece.number.startswith(b"0."):
            is_right = 1 <= len(piece.number) - 2 <= 4 and piece.number.strip(b"0.") != b""
        else:
            digits = piece.number.lstrip(b"0")
            is_right = 1 <= len(digits) <= 5 and int(digits) <= LARGEST
        if not is_right:
            self.fault("number out of range", piece.at)

    def begin_item(self, at, is_negated):
        """An item of the list begins."""
        group = self.groups[-1]
        self.in_not = is_negated
        if group.span is None:
            group.has_plain = group.has_plain or not is_negated
            group.first = at if group.first is None else group.first
            return
        # the whole of what ZONESPAN holds together is one item that isn't negated
        group.has_plain = True
        if not is_negated:
            group.span = -2
        elif group.span == -1:
            group.span = at

    def take_part(self, piece):
        """A word, a quoted piece or a group begins."""
        leaf = piece.kind in ("word", "quoted")
        self.expect(piece, self.wants != "leaf" or leaf)
        if self.wants in ("item", "on"):
            self.begin_item(piece.at, False)
        if self.wants in ("item", "on", "join"):
            self.chain = "leaf" if leaf else None
        self.look_at_number(piece)
        self.words += piece.words
        if self.words > MOST_WORDS >= self.words - piece.words:
            self.fault("too many keywords", piece.at)
        self.wants = "on"
        if piece.kind == "(":
            if len(self.groups) > DEEPEST:
                self.stop("nesting above 32", piece.at)
            self.groups.append(Group(self.in_not))
            self.wants, self.in_not = "item", False

    def close(self, piece):
        self.expect(piece, self.wants == "on" and len(self.groups) > 1)
        self.end_list()
        self.in_not, self.chain, self.wants = self.groups.pop().is_negated, None, "on"

    def take_operator(self, piece):
        kind = piece.kind
        self.expect(piece, self.wants == "on")
        if kind in ("|", "MAYBE"):
            self.expect(piece, not self.in_not)
            self.wants = "join"
        elif kind in ("SENTENCE", "PARAGRAPH"):
            self.expect(piece, self.chain in ("leaf", kind))
            self.chain, self.wants = kind, "leaf"
        else:
            self.look_at_number(piece)
            if self.groups[-1].span is not None:
                self.fault("ZONESPAN before operator", piece.at)
            self.end_list()
            self.wants, self.in_not = "item", False

    def end_span(self):
        """What a ZONESPAN holds together has ended."""
        group = self.groups[-1]
        if group.span is not None and group.span >= 0:
            self.fault("only NOT", group.span)
        group.span = None

    def end_list(self):
        group = self.groups[-1]
        self.end_span()
        if group.first is not None and not group.has_plain:
            self.fault("only NOT", group.first)
        group.begin_list()


def query_fault(text, fields, zones):
    """The first fault of a query over these fields and zones, None of one that has none."""
    return Reading(fields, zones).read(text)
