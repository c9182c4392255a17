"""Tells what is replied to statements, by the rules of docs/MANUAL.md alone, over documents of which the ids are kept.

A reply is told as scripts/cases/replies.py tells it. Of a SELECT from an index, and of SHOW META, the columns are told and the
rows are not; `...` stands for them.
"""

from scripts.cases.replies import usual_kind
from scripts.readers.documents import FIRST_BYTES, KILL_BYTES, MOST_BYTES, MOST_POSITIONS, put_bytes, words
from scripts.readers.grammar import statements
from scripts.readers.selects import Index, check_once, columns_of
from scripts.readers.statements import Delete, Insert, Select, statement
from scripts.readers.tokens import Fault, lex

ROWS = "..."
MOST_OPERATIONS, MOST_CHUNKS = 10000, 16
RANGES = {"uint": (0, 2**32 - 1), "timestamp": (0, 2**32 - 1), "bool": (0, 1), "bigint": (-(2**63), 2**63 - 1)}
LARGEST_ID = 2**64 - 1
SHOWN = {"warnings": "Level, Code, Message", "databases": "Database", "meta": f"Variable_name, Value{ROWS}"}


class Store:
    """The documents of an index: the ids of those in memory and of those in chunks, and how many chunks there are."""

    def __init__(self, index):
        self.index, self.fresh, self.kept, self.chunks = index, set(), set(), 0

    def commit(self, operations):
        """Does operations in their order, all or none; gives how many ids went by DELETEs."""
        put, gone, deleted = set(), set(), 0
        for kind, number in operations:
            is_there = number in put or number not in gone and (number in self.fresh or number in self.kept)
            if kind == "insert" and is_there:
                raise Fault(f"duplicate id {number}")
            if kind == "delete":
                deleted += is_there
                put.discard(number)
                gone.add(number)
            else:
                put.add(number)
        self.kept -= gone | put
        self.fresh = self.fresh - gone | put
        return deleted

    def flush(self):
        if self.fresh:
            if self.chunks == MOST_CHUNKS:
                raise Fault(f"chunks full at {MOST_CHUNKS} needs 1")
            self.chunks += 1
        self.kept |= self.fresh
        self.fresh = set()

    def optimize(self):
        self.kept |= self.fresh
        self.fresh = set()
        self.chunks = 1 if self.kept else 0

    def truncate(self):
        self.fresh, self.kept = set(), set()


class Session:
    """One connection over stores: AUTOCOMMIT, whether a transaction is open, and what is pending."""

    def __init__(self, stores, tables=None):
        self.tables = tables or list(stores)  # the indexes that there are, of which others may be asked by others alone
        self.stores, self.autocommit, self.is_open, self.pending, self.store = stores, 1, False, [], None
        self.bytes = FIRST_BYTES

    def status(self):
        return 2 * self.autocommit + (1 if self.is_open else 0)

    def replies(self, text):
        """What is replied to a text, as a list; each reply has its status in front, unless it is the usual one."""
        try:
            packet = statements(lex(text), len(text))
        except Fault as fault:
            return [refusal(fault)]
        told = []
        for number, tokens in enumerate(packet, 1):
            try:
                replies = self.run(statement(tokens))
            except Fault as fault:
                return [*told, refusal(fault)]
            for place, reply in enumerate(replies, 1):
                follows = number < len(packet) or place < len(replies)
                told.append(with_status(reply, self.status(), follows))
        return told

    def run(self, one):
        """The replies to a statement."""
        if isinstance(one, Select):
            return [told_columns(columns) for columns in columns_of(one, self.store_of(one.index).index)]
        if isinstance(one, Insert):
            return [self.insert(one)]
        if isinstance(one, Delete):
            return [self.delete(one)]
        return [self.other(one.words, one.number)]

    def store_of(self, name):
        name = name.lstrip("`")
        if name not in self.stores:
            raise Fault(f"unknown index '{name}'")
        return self.stores[name]

    def insert(self, one):
        store = self.store_of(one.index)
        index = store.index
        columns = ["id", *index.fields, *index.attributes] if one.columns is None else one.columns
        if one.columns is not None:
            check_once(index, columns)
            if "id" not in columns:
                raise Fault("id is missing")
        for row in one.rows:
            check_row(index, columns, row)
        texts = [[(name, value) for name, value in zip(columns, row) if isinstance(value, bytes)] for row in one.rows]
        for name, text in (pair for row in texts for pair in row):
            if len(words(text)) > MOST_POSITIONS:
                raise Fault(f"field '{name}' above {MOST_POSITIONS} positions")
        at, size = columns.index("id"), sum(put_bytes(index, [text for _, text in row]) for row in texts)
        self.write(store, [(one.verb, row[at]) for row in one.rows], size)
        return f"OK {len(one.rows)}"

    def delete(self, one):
        store = self.store_of(one.index)
        gone = self.write(store, [("delete", number) for number in one.ids], KILL_BYTES * len(one.ids))
        return f"OK {gone}"

    def write(self, store, operations, size):
        """Does operations now or keeps them; gives how many ids went now."""
        if self.pending and self.store is not store:
            raise Fault("transaction is on another index")
        if len(self.pending) + len(operations) > MOST_OPERATIONS:
            raise Fault(f"transaction above {MOST_OPERATIONS} operations")
        if self.bytes + size > MOST_BYTES:
            raise Fault(f"transaction above {MOST_BYTES} bytes")
        if self.autocommit and not self.is_open:
            return store.commit(operations)
        self.is_open, self.store = True, store
        self.pending += operations
        self.bytes += size
        return 0

    def end(self, is_kept):
        """Ends the transaction."""
        operations, self.pending, self.is_open, self.bytes = self.pending, [], False, FIRST_BYTES
        if is_kept and operations:
            self.store.commit(operations)

    def other(self, said, number):
        first = said[0]
        if first in ("begin", "start", "commit", "rollback"):
            self.end(first != "rollback")
            self.is_open = first in ("begin", "start")
        elif first == "set":
            self.set(said, number)
        elif first in ("flush", "optimize"):
            store = self.store_of(said[2])
            store.flush() if first == "flush" else store.optimize()
        elif first == "truncate":
            store = self.store_of(said[2])
            if self.is_open:
                raise Fault("transaction is open")
            store.truncate()
        else:
            return self.shown(said, number)
        return "OK 0"

    def set(self, said, number):
        if said[1:3] != ("autocommit", "="):
            return
        if number > 1:
            raise Fault("value out of range for 'autocommit'")
        if number == 1:
            self.end(True)
        self.autocommit = number

    def shown(self, said, number):
        """The rows of a statement that shows something."""
        if said[0] == "select" and said[1] == "database":
            return "database() | ''"
        if said[0] == "select":
            value = "searchd" if said[1] == "@@version_comment" else "''"
            return said[1] + ("" if len(said) > 2 and number == 0 else f" | {value}")
        if said[0] == "describe":
            return described(self.store_of(said[1]).index)
        if said[1] == "index":
            store = self.store_of(said[2])
            documents = len(store.fresh) + len(store.kept)
            return f"Variable_name, Value | index_type, rt | indexed_documents, {documents} | disk_chunks, {store.chunks}"
        if said[1] == "tables":
            return "Index, Type" + "".join(f" | {name}, rt" for name in self.tables)
        if said[1] == "variables":
            return f"Variable_name, Value | autocommit, {self.autocommit}"
        return SHOWN[said[1]]


def check_row(index, columns, row):
    """A row of an INSERT: how many values, and then the kind and range of each."""
    if len(row) != len(columns):
        raise Fault("wrong number of values")
    for name, value in zip(columns, row):
        is_field, is_text = name in index.fields, isinstance(value, bytes)
        if is_field != is_text:
            raise Fault(f"wrong kind of value for '{name}'")
        if name == "id" and not 1 <= value <= LARGEST_ID:
            raise Fault("id out of range")
        if name in index.attributes:
            least, most = RANGES[index.attributes[name]]
            if not least <= value <= most:
                raise Fault(f"value out of range for '{name}'")


def described(index):
    rows = [("id", "bigint"), *((name, "field") for name in index.fields), *index.attributes.items()]
    return "Field, Type" + "".join(f" | {name}, {kind}" for name, kind in rows)


def told_columns(columns):
    """The columns of a result set, whose rows aren't told."""
    return ", ".join(name if kind == usual_kind(name) else f"{name}:{kind}" for name, kind in columns) + ROWS


def refusal(fault):
    return f"ERR 1064 42000 {fault}"


def with_status(text, status, follows):
    """A reply with its status, unless that is the usual one."""
    return text if status == 2 else f"{status + 8 * follows}: {text}"


def index(name, fields, attributes=(), zones=()):
    return Index(name, list(fields), dict(attributes), list(zones))
