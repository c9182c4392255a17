"""Tells why a SELECT is refused, or which columns its result sets have, by the rules of docs/MANUAL.md alone.

What is wrong with the text of a ranking expression isn't told.
"""

from typing import NamedTuple

from scripts.readers.queries import query_fault
from scripts.readers.tokens import Fault

RANKERS = ("proximity", "wordcount", "matchany", "fieldmask", "none")
OPTIONS = {"ranker": "name", "max_matches": "number", "field_weights": "list", "max_query_time": None, "comment": None}
AGGREGATES = ("count(*)", "count", "min", "max", "sum")
KINDS = {"uint": "Uint", "bool": "Uint", "timestamp": "Uint", "bigint": "Whole"}
MOST_COLUMNS, MOST_KEYS, MOST_FACETS, MOST_MATCHES, USUAL_MATCHES, MOST_WEIGHT = 128, 5, 16, 100000, 1000, 65535


class Index(NamedTuple):
    """What is configured of an index."""

    name: str
    fields: list
    attributes: dict  # the kind of each, in their order
    zones: list

    def has(self, name):
        return name == "id" or name in self.fields or name in self.attributes


def columns_of(select, index):
    """The result sets of a SELECT: of each its columns with their kinds. A Fault where it is refused."""
    for option in select.options:
        if option.name not in OPTIONS:
            raise Fault(f"unknown option '{option.name}'")
    aliases = {item.alias for item in select.items if item.alias}
    plain = {item.alias for item in select.items if item.alias and item.kind in ("column", "weight")}
    names = [*wanted_columns(select, aliases, plain)]
    check_names(select, index, names)
    check_kinds(select, index, names)
    check_whole(select, index)
    for text in select.conditions:
        if isinstance(text, bytes):
            fault = query_fault(text, index.fields, index.zones)
            if fault:
                raise Fault(f"query: {fault}")
    sets = [[column for item in select.items for column in shown(item, select, index)]]
    return sets + [[(facet.column, kind_of(facet.column, index)), ("count(*)", "Unsigned")] for facet in select.facets]


def wanted_columns(select, aliases, plain):
    """The names that are to be columns, from left to right, up to the options."""
    yield from (item.column for item in select.items if item.column)
    yield from (name for name in select.conditions if isinstance(name, str))
    yield from [select.group] if select.group else []
    yield from (name for name in select.within if name and name not in plain)
    yield from (name for name in (*select.having, *select.order) if name and name != "count(*)" and name not in aliases)


def check_names(select, index, names):
    """Names from left to right: columns, rankers, weighed fields, facets."""
    for name in names:
        known(index, name)
    for option in select.options:
        check_ranker(option)
        if option.name == "field_weights" and option.form == "list":
            check_once(index, [name for name, _ in option.value])
    for facet in select.facets:
        known(index, facet.column)
        if facet.order not in (None, facet.column):
            raise Fault(f"unknown column '{facet.order}'")


def check_ranker(option):
    """A ranker is named, or `expr` with its text."""
    name = option.value[0] if option.form == "call" else option.value
    offered = ("expr",) if option.form == "call" else (*RANKERS, "expr")
    if option.name == "ranker" and option.form in ("name", "call") and name not in offered:
        raise Fault(f"ranker '{name}' is not offered")


def known(index, name):
    if not index.has(name):
        raise Fault(f"unknown column '{name}'")


def check_once(index, names):
    """Each of the names is a column, and none is there twice."""
    for place, name in enumerate(names):
        known(index, name)
        if name in names[:place]:
            raise Fault(f"column '{name}' twice")


def check_kinds(select, index, names):
    """Kinds and ranges from left to right."""
    for name in names:
        no_field(index, name)
    for option in select.options:
        if not has_form(option):
            raise Fault(f"wrong kind of value for '{option.name}'")
        for name, weight in option.value if option.name == "field_weights" else []:
            if name not in index.fields:
                raise Fault(f"column '{name}' is not a field")
            if not 1 <= weight <= MOST_WEIGHT:
                raise Fault(f"value out of range for '{name}'")
    for facet in select.facets:
        no_field(index, facet.column)


def has_form(option):
    """Whether the value of an option has its form; `expr` needs its text, and no other option has such a one."""
    if option.name == "ranker":
        return option.form == "call" or option.form == "name" and option.value != "expr"
    return option.form != "call" and OPTIONS[option.name] in (None, option.form)


def no_field(index, name):
    if name in index.fields:
        raise Fault(f"column '{name}' is a field")


def check_whole(select, index):
    """The limits of the SELECT as a whole, in their order."""
    last = {option.name: option.value for option in select.options}
    matches = last.get("max_matches", USUAL_MATCHES)
    offset = select.limit[0] if select.limit else 0
    kinds = {item.kind for item in select.items}
    asks_groups = bool(select.having) or "count(*)" in select.order
    has_none = not select.group and (select.within or "groupby" in kinds or asks_groups and not kinds & set(AGGREGATES))
    width = sum(1 + len(index.attributes) if item.kind == "*" else 1 for item in select.items)
    for is_so, text in (
        (sum(isinstance(text, bytes) for text in select.conditions) > 1, "second MATCH"),
        (has_none, "GROUP BY is missing"),
        (width > MOST_COLUMNS, "too many columns"),
        (max(len(select.order), len(select.within)) > MOST_KEYS, "too many sort keys"),
        (len(select.facets) > MOST_FACETS, "too many facets"),
        (not 1 <= matches <= MOST_MATCHES, "max_matches out of range"),
        (offset >= matches, f"offset {offset} is not below max_matches {matches}"),
    ):
        if is_so:
            raise Fault(text)


def kind_of(name, index):
    return "Unsigned" if name == "id" else KINDS[index.attributes[name]]


def whole_of(name):
    """The kind of MIN, MAX and GROUPBY() of a column."""
    return "Unsigned" if name == "id" else "Whole"


def shown(item, select, index):
    """The columns of an item, each with its kind."""
    if item.kind == "*":
        return [(name, kind_of(name, index)) for name in ("id", *index.attributes)]
    if item.kind == "column":
        name, kind = item.column, kind_of(item.column, index)
    elif item.kind in ("min", "max"):
        name, kind = f"{item.kind}({item.column})", whole_of(item.column)
    elif item.kind == "sum":
        name, kind = f"sum({item.column})", "Text"
    elif item.kind == "groupby":
        name, kind = "groupby()", whole_of(select.group)
    else:
        names = {"count(*)": "count(*)", "count": f"count(distinct {item.column})", "weight": "weight()"}
        name, kind = names[item.kind], "Unsigned"
    return [(item.alias or name, kind)]
