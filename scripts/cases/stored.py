"""Says what the files of an index stand for, or their first damage, as docs/cases/directories.md writes it.

The rules are those of that page, and of chunk_images.md for chunks. Nothing of it is taken from the program.
"""

import re
from typing import NamedTuple

from scripts.cases.chunk_images import IN_FIELD, LAST_POSITION, LONGEST_WORD, Damage, Image, Taken, Unreadable, look, number, read_list

LAST_NUMBER = 2**63 - 1
SLOT, GATE = 13, 13
MOST_CHUNKS = 16
PUT, KILL, CLEAR = 1, 2, 3
SIGNS = {0: ".", 1: "¶"}


class Wrong(Exception):
    """The first damage of a directory: its file, its place, its words."""

    def __init__(self, file, place, kind):
        super().__init__(f"{file} at {place}: {kind}")


class Document(NamedTuple):
    """A document: the commit that put it, of each field what stands at each position, its values, and its spans."""

    born: int
    fields: list
    values: list
    spans: list  # field, first, last, zone


class State(NamedTuple):
    """What a root says."""

    text: bytes
    through: int
    logs: list
    chunks: list  # file, length, dead rows


class Reading(Taken):
    """Bytes of which numbers are read, and where the last one began."""

    def __init__(self, data, at=0):
        super().__init__(data, at)
        self.last = at

    def number(self, size=4):
        self.last = self.at
        return int.from_bytes(self.bytes(size), "little")

    def value(self):
        """A value of an attribute."""
        return int.from_bytes(self.bytes(8), "little", signed=True)

    def wanted(self, is_wanted):
        if not is_wanted:
            raise Unreadable


def read_state(reading):
    """The state of a root; where it is wrong, the field that was read last is the first that is."""
    reading.last = reading.at
    text = reading.bytes(reading.number(2))
    through = take(reading, 8, lambda it: it <= LAST_NUMBER)
    next_file = take(reading, 4, lambda it: True)
    known = set()

    def file(it):
        return 2 <= it < next_file and it not in known

    older = take(reading, 4, lambda it: it == 0 or file(it))
    known.add(older)
    newer = take(reading, 4, file)
    known.add(newer)
    chunks = []
    for _ in range(take(reading, 2, lambda it: it <= MOST_CHUNKS)):
        chunk = take(reading, 4, file)
        known.add(chunk)
        length, dead = take(reading, 4, lambda it: True), []
        for _ in range(take(reading, 4, lambda it: True)):
            dead.append(take(reading, 4, lambda it: not dead or it > dead[-1]))
        chunks.append((chunk, length, dead))
    reading.last = reading.at
    reading.wanted(reading.is_done())
    return State(text, through, [log for log in (older, newer) if log], chunks)


def take(reading, size, is_wanted):
    """A number that is as wanted."""
    reading.last = reading.at
    it = reading.number(size)
    reading.wanted(is_wanted(it))
    return it


def read_root(files):
    """The root of the open slots, None where none is open."""
    found = []
    for slot in (0, 1):
        data = files.get(slot, b"")
        if len(data) < SLOT or data[0] != 1:
            continue
        length = number(data, 9)
        if len(data) < SLOT + length:
            raise Wrong(slot, 0, "root length")
        reading = Reading(data[: SLOT + length], SLOT)
        try:
            found.append((number(data, 1, 8), -slot, read_state(reading)))
        except Unreadable:
            raise Wrong(slot, reading.last, "root state") from None
    return max(found, key=lambda it: it[:2], default=None)


def chunk_documents(image, fields_of_rows):
    """The rows of an image as documents, with their ids."""
    words = [{} for _ in range(image.rows)]
    dictionary, lists = Taken(image.dictionary()), Taken(image.postings())
    for place in range(image.words):
        word = dictionary.bytes(dictionary.bytes(1)[0])
        for row, hits in read_list(lists, image.entry(place)[1], image.rows).items():
            words[row].update((hit, word) for hit in hits)
    for row in range(image.rows):
        at = image.row_at(row)
        fields = []
        for place, field in enumerate(fields_of_rows[row]):
            own = {hit % IN_FIELD: word for hit, word in words[row].items() if hit // IN_FIELD == place}
            fields.append(own | field.gaps)
        reading = Reading(image.data, at)
        its_id, born = reading.number(8), reading.number(8)
        values = [reading.value() for _ in range(image.schema.attributes)]
        yield its_id, Document(born, fields, values, spans_of(image, row))


def spans_of(image, row):
    """The spans of a row of an image without damage."""
    at = image.row_at(row) + image.schema.row_size() - 4
    taken = Taken(image.marks(), number(image.data, at))
    for _ in range(image.schema.fields):
        taken.short()
        for _ in range(taken.short()):
            taken.short()
    found = []
    for _ in range(taken.short()):
        field, zone, first, more = (taken.short() for _ in range(4))
        found.append((field, first, first + more, zone))
    return found


def read_chunk(schema, files, chunk, through):
    """The rows of a chunk, each with its id, its place and whether it lives."""
    file, length, dead = chunk
    if file not in files:
        raise Wrong(file, 0, "chunk missing")
    data = files[file]
    if len(data) != length:
        raise Wrong(file, 0, "chunk length")
    try:
        fields = look(schema, data)
    except Damage as damage:
        raise Wrong(file, damage.place, damage.kind) from None
    image = Image(schema, data)
    if dead and dead[-1] >= image.rows:
        raise Wrong(file, 0, "dead rows")
    rows = list(chunk_documents(image, fields))
    for row, (_, document) in enumerate(rows):
        if document.born > through:
            raise Wrong(file, image.row_at(row), "born")
    return [(its_id, document, image.row_at(row)) for row, (its_id, document) in enumerate(rows) if row not in dead]


def read_chunks(schema, files, state):
    """The documents of all chunks by their ids."""
    chunks = [(chunk[0], read_chunk(schema, files, chunk, state.through)) for chunk in state.chunks]
    documents = {}
    for file, rows in chunks:
        for its_id, _, at in rows:
            if its_id in documents:
                raise Wrong(file, at, "id twice")
        documents |= {its_id: document for its_id, document, _ in rows}
    return documents


def read_put(reading, schema):
    """What a record puts: the fields, values and spans of a document."""
    values = [reading.value() for _ in range(schema.attributes)]
    fields = []
    for _ in range(schema.fields):
        has, position = {}, 0
        for _ in range(reading.number()):
            gap, length = reading.number(1), reading.number(1)
            word = reading.bytes(length)
            reading.wanted(gap <= (2 if has else 0) and 1 <= length <= LONGEST_WORD and is_utf8(word))
            if gap:
                position += 1
                has[position] = gap - 1
            position += 1
            reading.wanted(position <= LAST_POSITION)
            has[position] = word
        fields.append(has)
    spans = []
    for _ in range(reading.number()):
        field, zone, first, last = (reading.number(size) for size in (2, 2, 4, 4))
        reading.wanted(field < len(fields) and first <= last and (not spans or spans[-1] < (field, first, last, zone)))
        reading.wanted(all(isinstance(fields[field].get(end), bytes) for end in (first, last)))
        spans.append((field, first, last, zone))
    return Document(0, fields, values, spans)


def is_utf8(word):
    try:
        word.decode()
        return True
    except UnicodeDecodeError:
        return False


def read_payload(payload, schema):
    """The operations of a record: the id and the document that is put, None where it is removed; or None for all."""
    reading, found = Reading(payload), []
    for _ in range(reading.number()):
        kind = reading.number(1)
        reading.wanted(kind in (PUT, KILL, CLEAR))
        its_id = reading.number(8) if kind != CLEAR else None
        found.append((its_id, read_put(reading, schema) if kind == PUT else None))
    reading.wanted(reading.is_done())
    return found


def records_of(file, data, schema, before, through):
    """The records of a log, each with its number and its operations; and where the closed gate stands behind them."""
    found, at = [], 0
    while True:
        if at >= len(data):
            raise Wrong(file, at, "record length")
        if data[at] != 1:
            return found, at
        end = at + GATE + number(data, at + 1)
        if at + GATE > len(data) or end >= len(data):
            raise Wrong(file, at, "record length")
        its_number = number(data, at + 5, 8)
        due = before + 1 if before is not None else its_number
        if its_number != due or its_number > LAST_NUMBER or before is None and its_number > through + 1:
            raise Wrong(file, at, "record number")
        try:
            found.append((its_number, read_payload(data[at + GATE : end], schema)))
        except Unreadable:
            raise Wrong(file, at, "record payload") from None
        at, before = end, its_number


def read_logs(schema, files, state, documents):
    """Takes the records above `through`; gives the number of the last commit, and how many records are above."""
    last, end, above = None, None, 0
    for file in state.logs:
        if file not in files:
            raise Wrong(file, 0, "log missing")
        records, gate = records_of(file, files[file], schema, last, state.through)
        if records:
            last, end = records[-1][0], (file, gate)
        for its_number, operations in records:
            if its_number > state.through:
                above += 1
                for operation in operations:
                    take_operation(documents, operation, its_number)
    if last is not None and last < state.through:
        raise Wrong(*end, "record number")
    return max(last or 0, state.through), above


def take_operation(documents, operation, its_number):
    its_id, document = operation
    if its_id is None:
        documents.clear()
    elif document is None:
        documents.pop(its_id, None)
    else:
        documents[its_id] = document._replace(born=its_number)


def spelled(token):
    """A word or a sign as the page writes it."""
    if not isinstance(token, bytes):
        return SIGNS[token]
    return re.sub(r"[^0-9A-Za-z]", lambda found: f"\\u{{{ord(found[0]):x}}}", token.decode())


def told(its_id, document):
    fields = "".join(f"({' '.join(spelled(has[place]) for place in sorted(has))})" for has in document.fields)
    values = "".join(f" {value}" for value in document.values)
    spans = "".join(f"[{field} {zone} {first} {last}]" for field, first, last, zone in document.spans)
    return f"{its_id} born {document.born} {fields}{values}" + (f" {spans}" if spans else "")


def stands_for(schema, text, files):
    """What the files of an index with these columns stand for."""
    try:
        root = read_root(files)
        if root is None:
            return "empty index"
        slot, state = -root[1], root[2]
        if state.text != text:
            raise Wrong(slot, SLOT, "root schema")
        documents = read_chunks(schema, files, state)
        last, above = read_logs(schema, files, state, documents)
    except Wrong as wrong:
        return str(wrong)
    chunks = f", chunks {len(state.chunks)}" if state.chunks else ""
    found = "; ".join(told(its_id, documents[its_id]) for its_id in sorted(documents))
    return f"number {last}, through {state.through}, above {above}{chunks}: {found or 'none'}"
