"""Reads chunk images and says what is the first damage in one, and writes images of rows.

The rules stand in docs/cases/chunk_images.md. The kinds of damage are looked for one after the other over the whole image, in
the order of `look`; of each the first in the file counts. Nothing of it is taken from the program.
"""

from itertools import groupby
from typing import NamedTuple

MAGIC = b"SRCHUNK1"
HEADER = 32
WORD_ENTRY = 12
LAST_POSITION = 65535
LONGEST_WORD = 168
LAST_ZONE = 65535
MOST_FIELDS = 32
IN_FIELD = 65536
SENTENCE, PARAGRAPH = 0, 1


class Schema(NamedTuple):
    """How many fields, attributes and zones an index has."""

    fields: int
    attributes: int = 0
    zones: int = 0

    def row_size(self):
        return 20 + 8 * self.attributes


class Damage(Exception):
    """The first damage: where it is, and its words."""

    def __init__(self, place, kind):
        super().__init__(place, kind)
        self.place, self.kind = place, kind


class Unreadable(Exception):
    """Bytes that end too early, or spell a short number as none is spelled."""


class Span(NamedTuple):
    """A span of a zone."""

    field: int
    first: int
    last: int
    zone: int


class Field(NamedTuple):
    """What is said of a field in the marks: its last position, and the kind of the gap at each position that has one."""

    last: int
    gaps: dict


class Row(NamedTuple):
    """A document: its id, the commit that put it, its values; of each field the words and gaps by position; and its spans."""

    number: int
    born: int
    values: list
    fields: list  # for each a dict: a word as bytes, or a kind of gap, by position
    spans: list


# Reading


class Taken:
    """Bytes that are read from the front on."""

    def __init__(self, data, at=0):
        self.data, self.at = data, at

    def bytes(self, size):
        if self.at + size > len(self.data):
            raise Unreadable
        self.at += size
        return self.data[self.at - size : self.at]

    def short(self):
        """A short number, which has 32 bits."""
        value = shift = 0
        while True:
            (byte,) = self.bytes(1)
            value |= (byte & 0x7F) << shift
            shift += 7
            if byte < 0x80:
                if byte == 0 and shift > 7 or value >= 2**32:
                    raise Unreadable
                return value

    def is_done(self):
        return self.at == len(self.data)


def number(data, at, size=4):
    return int.from_bytes(data[at : at + size], "little")


class Image:
    """An image whose parts are known by its header, once this was found to sum up."""

    def __init__(self, schema, data):
        if data[:8] != MAGIC:
            raise Damage(0, "magic")
        if len(data) < HEADER:
            raise Damage(8, "sizes")
        self.schema, self.data = schema, data
        self.rows, self.words = number(data, 8), number(data, 16)
        marks, dictionary, postings = (number(data, at) for at in (20, 24, 28))
        self.marks_at = HEADER + self.rows * schema.row_size()
        self.table_at = self.marks_at + marks
        self.dictionary_at = self.table_at + WORD_ENTRY * self.words
        self.postings_at = self.dictionary_at + dictionary
        known = (number(data, 12, 2), number(data, 14, 2)) == (schema.fields, schema.attributes)
        empty = (self.rows > 0 or marks == 0) and (self.words > 0 or dictionary == postings == 0)
        if not (known and empty and self.postings_at + postings == len(data)):
            raise Damage(8, "sizes")

    def row_at(self, row):
        return HEADER + row * self.schema.row_size()

    def marks(self):
        return self.data[self.marks_at : self.table_at]

    def dictionary(self):
        return self.data[self.dictionary_at : self.postings_at]

    def postings(self):
        return self.data[self.postings_at :]

    def entry(self, word):
        """The place in the dictionary, the number of documents and the place in the postings of a word."""
        at = self.table_at + WORD_ENTRY * word
        return tuple(number(self.data, at + 4 * part) for part in range(3))


def look_at_rows(image):
    """The ids ascend."""
    before = -1
    for row in range(image.rows):
        at = image.row_at(row)
        if number(image.data, at, 8) <= before:
            raise Damage(at, "row order")
        before = number(image.data, at, 8)


def read_field(taken):
    """A field of the marks; the gaps ascend from 1 on."""
    last = taken.short()
    gaps, position = {}, 0
    for _ in range(taken.short()):
        skipped, kind = divmod(taken.short(), 2)
        position += skipped
        if skipped == 0:
            raise Unreadable
        gaps[position] = kind
    if last > LAST_POSITION:
        raise Unreadable
    return Field(last, gaps)


def read_spans(schema, taken, fields):
    """The spans of the marks: ascending, each of a field that is there, between two positions of words."""
    before = None
    for _ in range(taken.short()):
        field, zone, first, more = (taken.short() for _ in range(4))
        span = Span(field, first, first + more, zone)
        if field >= schema.fields or zone > LAST_ZONE or (before and span <= before):
            raise Unreadable
        has = fields[field]
        if first == 0 or span.last > has.last or first in has.gaps or span.last in has.gaps:
            raise Unreadable
        before = span


def look_at_marks(image):
    """The marks of each row stand behind those of the row before, and nothing behind the last; gives the fields of each row."""
    taken, rows = Taken(image.marks()), []
    for row in range(image.rows):
        begin = taken.at
        place = number(image.data, image.row_at(row) + image.schema.row_size() - 4)
        try:
            fields = [read_field(taken) for _ in range(image.schema.fields)]
            read_spans(image.schema, taken, fields)
            is_last = row == image.rows - 1
            if place != begin or is_last and not taken.is_done():
                raise Unreadable
        except Unreadable:
            raise Damage(image.marks_at + begin, "marks") from None
        rows.append(fields)
    return rows


def pass_over_list(taken, documents):
    """Passes over a list of so many documents by the heads of its entries."""
    for _ in range(documents):
        taken.short()
        taken.bytes(taken.short())


def look_at_words(image):
    """The entries of the word table stand for consecutive pieces of the dictionary and of the postings."""
    dictionary, lists = Taken(image.dictionary()), Taken(image.postings())
    is_known = True
    for word in range(image.words):
        place, documents, list_at = image.entry(word)
        is_wrong = place != dictionary.at or not 1 <= documents <= image.rows or is_known and list_at != lists.at
        try:
            dictionary.bytes(dictionary.bytes(1)[0])
        except Unreadable:
            is_wrong = True
        if is_wrong or word == image.words - 1 and not dictionary.is_done():
            raise Damage(image.table_at + WORD_ENTRY * word, "word table")
        try:
            if is_known:
                pass_over_list(lists, documents)
        except Unreadable:
            is_known = False


def words_of(image):
    """The words of the dictionary, each with its place."""
    taken = Taken(image.dictionary())
    for _ in range(image.words):
        at = taken.at
        yield image.dictionary_at + at, taken.bytes(taken.bytes(1)[0])


def is_text(word):
    try:
        return bool(word.decode("utf-8"))
    except UnicodeDecodeError:
        return False


def look_at_dictionary(image):
    """The words are texts of 1 to 168 bytes, and ascend."""
    before = b""
    for at, word in words_of(image):
        if not is_text(word) or len(word) > LONGEST_WORD or word <= before:
            raise Damage(at, "word order")
        before = word


def ascending(taken, count, before):
    """So many numbers that ascend, each spelled by how much it is above the one before."""
    for _ in range(count):
        step = taken.short()
        if step == 0:
            raise Unreadable
        before += step
        yield before


def is_hit(hit):
    """Whether it is of a field and a position that some index may have."""
    return hit < MOST_FIELDS * IN_FIELD and hit % IN_FIELD > 0


def read_list(taken, documents, rows):
    """The list of a word: the hits of each row."""
    found, row = {}, -1
    for _ in range(documents):
        (row,) = ascending(taken, 1, row)
        hits = Taken(taken.bytes(taken.short()))
        count = hits.short()
        if row >= rows or count == 0:
            raise Unreadable
        found[row] = list(ascending(hits, count, 0))
        if not hits.is_done() or not all(map(is_hit, found[row])):
            raise Unreadable
    return found


def look_at_postings(image):
    """The lists of the words, and nothing behind the last; gives the hits of each row, once for each word that has them."""
    taken, hits = Taken(image.postings()), [[] for _ in range(image.rows)]
    for word in range(image.words):
        begin = taken.at
        try:
            found = read_list(taken, image.entry(word)[1], image.rows)
            if word == image.words - 1 and not taken.is_done():
                raise Unreadable
        except Unreadable:
            raise Damage(image.postings_at + begin, "postings") from None
        for row, of_word in found.items():
            hits[row] += of_word
    return hits


def is_covered(fields, hits):
    """Whether each position of a row is a hit of one word or a gap, the ends are hits, and no two gaps are neighbours."""
    wanted = []
    for place, field in enumerate(fields):
        ends = {0, field.last + 1}
        if any(gap > field.last or {gap - 1, gap + 1} & (ends | field.gaps.keys()) for gap in field.gaps):
            return False
        wanted += [place * IN_FIELD + position for position in range(1, field.last + 1) if position not in field.gaps]
    return sorted(hits) == wanted


def look(schema, data):
    """Raises the first damage of an image; where there is none, gives the fields of each row."""
    image = Image(schema, data)
    look_at_rows(image)
    fields = look_at_marks(image)
    look_at_words(image)
    look_at_dictionary(image)
    hits = look_at_postings(image)
    for row in range(image.rows):
        if not is_covered(fields[row], hits[row]):
            raise Damage(image.row_at(row), "cover")
    return fields


def answer(schema, data):
    """`ok`, or the place and the words of the first damage."""
    try:
        look(schema, data)
        return "ok"
    except Damage as damage:
        return f"{damage.place}: {damage.kind}"


# Writing


def short(value):
    """A short number."""
    spelled = bytearray()
    while value >= 0x80:
        spelled.append(value & 0x7F | 0x80)
        value >>= 7
    return bytes([*spelled, value])


def steps(values, before=0):
    """Numbers, each spelled by how much it is above the one before."""
    found = []
    for value in values:
        found.append(short(value - before))
        before = value
    return b"".join(found)


def marks_of(row):
    """The marks of a row."""
    parts = []
    for tokens in row.fields:
        gaps = sorted((position, kind) for position, kind in tokens.items() if not isinstance(kind, bytes))
        before = [0, *(position for position, _ in gaps)]
        parts += [short(max(tokens, default=0)), short(len(gaps))]
        parts += [short(2 * (position - last) + kind) for (position, kind), last in zip(gaps, before)]
    parts.append(short(len(row.spans)))
    for span in sorted(row.spans):
        parts += map(short, (span.field, span.zone, span.first, span.last - span.first))
    return b"".join(parts)


def lists_of(rows):
    """The words, each with its rows and their hits."""
    found = sorted(
        (token, place, field * IN_FIELD + position)
        for place, row in enumerate(rows)
        for field, tokens in enumerate(row.fields)
        for position, token in tokens.items()
        if isinstance(token, bytes)
    )
    for word, of_word in groupby(found, key=lambda hit: hit[0]):
        yield word, [(place, [hit for _, _, hit in hits]) for place, hits in groupby(of_word, key=lambda hit: hit[1])]


def list_of(documents):
    """The postings of a word."""
    parts, before = [], -1
    for place, hits in documents:
        spelled = short(len(hits)) + steps(hits)
        parts.append(short(place - before) + short(len(spelled)) + spelled)
        before = place
    return b"".join(parts)


def places(pieces):
    """The places of consecutive pieces."""
    at = 0
    for piece in pieces:
        yield at
        at += len(piece)


def little(*numbers, size=4):
    return b"".join(number.to_bytes(size, "little") for number in numbers)


def image_of(schema, rows):
    """The image of rows, whose ids ascend."""
    marks = [marks_of(row) for row in rows]
    words = list(lists_of(rows))
    entries = [bytes([len(word)]) + word for word, _ in words]
    lists = [list_of(documents) for _, documents in words]
    sizes = [sum(map(len, pieces)) for pieces in (marks, entries, lists)]
    parts = [MAGIC, little(len(rows)), little(schema.fields, schema.attributes, size=2), little(len(words), *sizes)]
    for row, place in zip(rows, places(marks)):
        parts += [little(row.number, row.born, *(value % 2**64 for value in row.values), size=8), little(place)]
    parts += marks
    for (_, documents), entry_at, list_at in zip(words, places(entries), places(lists)):
        parts.append(little(entry_at, len(documents), list_at))
    return b"".join([*parts, *entries, *lists])
