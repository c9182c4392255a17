"""Tells what a statement says, of tokens that are known to be one (`grammar`)."""

from typing import NamedTuple

FUNCTIONS = ("count", "min", "max", "sum", "weight", "groupby")
OPERATORS = ("=", "!=", "<>", "<", ">", "<=", ">=")


class Item(NamedTuple):
    """An item of a SELECT's list: `*`, `column`, or a function, with the column that it is of and its alias."""

    kind: str
    column: str
    alias: str


class Option(NamedTuple):
    name: str
    form: str  # name, number, text, list or call
    value: object  # of a list pairs of names and numbers, of a call a name and a text


class Facet(NamedTuple):
    column: str
    order: str  # the name that it is ordered by, None of none and of COUNT(*)


class Select(NamedTuple):
    """A SELECT from an index. Names are in small letters; where keys stand, `count(*)` is that and None is WEIGHT()."""

    items: list
    index: str
    conditions: list  # the text of a MATCH as bytes, the column of any other as a name
    group: str
    within: list
    having: tuple  # nothing, or a key
    order: list
    limit: tuple  # nothing, or the offset and the number
    options: list
    facets: list


class Insert(NamedTuple):
    verb: str
    index: str
    columns: list  # None where none are given
    rows: list  # of values: numbers, and texts as bytes


class Delete(NamedTuple):
    index: str
    ids: list


class Other(NamedTuple):
    """Any other statement: its words, of which those between backquotes keep the first of them, and its last number."""

    words: tuple
    number: int


class Reader:
    """Takes the tokens of a statement one after the other."""

    def __init__(self, tokens):
        self.tokens, self.at = tokens, 0

    def kind(self, ahead=0):
        return self.tokens[self.at + ahead].kind if self.at + ahead < len(self.tokens) else None

    def take(self, *kinds):
        """Whether a token of these is next, which is taken then."""
        is_next = self.kind() in kinds
        self.at += is_next
        return is_next

    def value(self):
        self.at += 1
        return self.tokens[self.at - 1].value

    def listed(self, one):
        found = [one()]
        while self.take(","):
            found.append(one())
        return found

    def is_call(self):
        return self.kind() in FUNCTIONS and self.kind(1) == "("

    def signed(self):
        return -self.value() if self.take("-") else self.value()


def statement(tokens):
    """What a statement says."""
    reader = Reader(tokens)
    first = reader.kind()
    if first == "select" and reader.kind(1) != "sysvar" and not (reader.kind(1) == "database" and reader.kind(2) == "("):
        return select(reader)
    if first in ("insert", "replace"):
        return insert(reader)
    if first == "delete":
        reader.at += 2
        index = reader.value()
        reader.at += 3 + (reader.kind(2) == "in")
        return Delete(index, reader.listed(reader.value))
    words = tuple(map(word, tokens))
    numbers = [token.value for token in tokens if token.kind == "number"]
    return Other(words, numbers[-1] if numbers else None)


def word(token):
    """A name, or else what the grammar sees of a token."""
    if token.kind in ("quoted", "sysvar"):
        return ("`" if token.kind == "quoted" else "@@") + token.value
    return token.value if isinstance(token.value, str) else token.kind


def insert(reader):
    verb = reader.kind()
    reader.at += 2
    index, columns = reader.value(), None
    if reader.take("("):
        columns = reader.listed(reader.value)
        reader.take(")")
    reader.take("values")

    def row():
        reader.take("(")
        values = reader.listed(reader.signed)
        reader.take(")")
        return values

    return Insert(verb, index, columns, reader.listed(row))


def select(reader):
    reader.take("select")
    items = reader.listed(lambda: item(reader))
    reader.take("from")
    index = reader.value()
    conditions, group, within, having, order, limit, options, facets = [], None, [], (), [], (), [], []
    while reader.take("where", "and"):
        conditions.append(condition(reader))
    if reader.kind() == "group":
        reader.at += 2
        group = reader.value()
    if reader.kind() == "within":
        reader.at += 4
        within = reader.listed(lambda: key(reader))
    if reader.take("having"):
        having = (key(reader),)
        reader.take(*OPERATORS)
        reader.signed()
    if reader.kind() == "order":
        reader.at += 2
        order = reader.listed(lambda: key(reader))
    if reader.take("limit"):
        limit = bounds(reader)
    if reader.take("option"):
        options = reader.listed(lambda: option(reader))
    while reader.take("facet"):
        facets.append(facet(reader))
    return Select(items, index, conditions, group, within, having, order, limit, options, facets)


def item(reader):
    if reader.take("*"):
        return Item("*", None, None)
    if not reader.is_call():
        kind, column = "column", reader.value()
    else:
        kind, column = reader.kind(), None
        reader.at += 2
        if reader.take("*"):
            kind = "count(*)"
        elif reader.take("distinct"):
            column = reader.value()
        elif kind not in ("weight", "groupby"):
            column = reader.value()
        reader.take(")")
    is_named = reader.take("as") or reader.kind() not in (",", "from")
    return Item(kind, column, reader.value() if is_named else None)


def condition(reader):
    """The text of a MATCH, or the column of another condition."""
    if reader.take("match"):
        reader.take("(")
        text = reader.value()
        reader.take(")")
        return text
    column = reader.value()
    if reader.take("between"):
        reader.signed()
        reader.take("and")
        reader.signed()
    elif reader.take("not") or reader.kind() == "in":
        reader.at += 2
        reader.listed(reader.signed)
        reader.take(")")
    else:
        reader.take(*OPERATORS)
        reader.signed()
    return column


def key(reader):
    """What is ordered by."""
    if not reader.is_call():
        name = reader.value()
    else:
        name = "count(*)" if reader.kind() == "count" else None
        reader.at += 4 if name else 3
    reader.take("asc", "desc")
    return name


def bounds(reader):
    first = reader.value()
    return (first, reader.value()) if reader.take(",") else (0, first)


def option(reader):
    name = reader.value()
    reader.take("=")
    if reader.take("("):
        pairs = reader.listed(lambda: (reader.value(), reader.take("=") and reader.value()))
        reader.take(")")
        return Option(name, "list", pairs)
    form, value = reader.kind(), reader.value()
    if reader.take("("):
        form, value = "call", (value, reader.value())
        reader.take(")")
    return Option(name, form if form in ("number", "text", "call") else "name", value)


def facet(reader):
    column, order = reader.value(), None
    if reader.kind() == "order":
        reader.at += 2
        order = key(reader)
    if reader.take("limit"):
        bounds(reader)
    return Facet(column, None if order == "count(*)" else order)

