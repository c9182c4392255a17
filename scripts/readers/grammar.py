"""Finds the first token with which no packet of SphinxQL goes on, by the grammar of docs/SPHINXQL.md alone.

The grammar has no recursion, so it is one regular expression over kinds of tokens, which is written below as docs/SPHINXQL.md
writes it. It is turned into an automaton with a set of places for each state; a state and a kind of token lead to one other
state, which is kept. A token that leads to no place is the first with which nothing goes on.
"""

from scripts.readers.tokens import KEYWORDS, RESERVED, Fault

MOST_STATEMENTS = 32
NAMES = ("name", "quoted", *sorted(KEYWORDS - RESERVED))


def seq(*parts):
    return ("seq", parts)


def any_of(*parts):
    return ("any", parts)


def maybe(*parts):
    return ("any", (seq(*parts), seq()))


def many(*parts):
    return ("many", seq(*parts))


def listed(part):
    return seq(part, many(",", part))


def call(word, *inside):
    return seq(word, "(", *inside, ")")


NAME, NUM = any_of(*NAMES), seq(maybe("-"), "number")
OP = any_of("=", "!=", "<>", "<", ">", "<=", ">=")
COUNT, WEIGHT, DIRECTION = call("count", "*"), call("weight"), maybe(any_of("asc", "desc"))
LIMIT = maybe("limit", "number", maybe(",", "number"))
EXPR = any_of(
    NAME, COUNT, call("count", "distinct", NAME), *(call(word, NAME) for word in ("min", "max", "sum")), WEIGHT, call("groupby")
)
ITEM = any_of("*", seq(EXPR, maybe(maybe("as"), NAME)))
COND = any_of(
    call("match", "text"),
    seq(NAME, OP, NUM),
    seq(NAME, maybe("not"), "in", "(", listed(NUM), ")"),
    seq(NAME, "between", NUM, "and", NUM),
)
LIST = seq("(", listed(seq(NAME, "=", "number")), ")")
OPT = seq(NAME, "=", any_of(seq(NAME, maybe("(", "text", ")")), "number", "text", LIST))
FACET = seq("facet", NAME, maybe("order", "by", any_of(NAME, COUNT), DIRECTION), LIMIT)
SELECT = any_of(
    seq(
        "select", listed(ITEM), "from", NAME,
        maybe("where", COND, many("and", COND)),
        maybe("group", "by", NAME),
        maybe("within", "group", "order", "by", listed(seq(any_of(NAME, WEIGHT), DIRECTION))),
        maybe("having", any_of(NAME, COUNT), OP, NUM),
        maybe("order", "by", listed(seq(any_of(NAME, WEIGHT, COUNT), DIRECTION))),
        LIMIT,
        maybe("option", listed(OPT)),
        many(FACET),
    ),
    seq("select", "sysvar", maybe("limit", "number")),
    seq("select", call("database")),
)  # fmt: skip
VAL = any_of(NUM, "text")
INSERT = seq(
    any_of("insert", "replace"), "into", NAME, maybe("(", listed(NAME), ")"), "values", listed(seq("(", listed(VAL), ")"))
)
DELETE = seq("delete", "from", NAME, "where", "id", any_of(seq("=", "number"), seq("in", "(", listed("number"), ")")))
SET_NAME = any_of(*(name for name in NAMES if name not in ("autocommit", "names")))
OTHER = any_of(
    "begin", seq("start", "transaction"), "commit", "rollback",
    seq("set", "autocommit", "=", "number"),
    seq("set", "names", any_of(NAME, "text")),
    seq("set", maybe(any_of("global", "session")), any_of(SET_NAME, "sysvar"), "=", any_of(NAME, NUM, "text", "null")),
    seq("flush", any_of("ramchunk", "rtindex"), NAME), seq("optimize", "index", NAME), seq("truncate", "rtindex", NAME),
    seq("describe", NAME), seq("show", "index", NAME, "status"),
    seq("show", any_of("meta", "tables", "warnings", "variables", "databases")),
)  # fmt: skip
STATEMENT = any_of(SELECT, INSERT, DELETE, OTHER)
PACKET = seq(STATEMENT, many(";", STATEMENT), maybe(";"))


class Automaton:
    """An expression as places, each with the kinds of tokens that lead on from it."""

    def __init__(self, expression):
        self.steps, self.ways = [{}], {}
        self.end = 0
        self.start = frozenset(self.before(expression, frozenset([self.end])))

    def before(self, part, after):
        """The places at which a part begins behind which these come."""
        if isinstance(part, str):
            self.steps.append({part: after})
            return frozenset([len(self.steps) - 1])
        kind, inside = part
        if kind == "any":
            return frozenset().union(*(self.before(one, after) for one in inside))
        if kind == "seq":
            for one in reversed(inside):
                after = self.before(one, after)
            return after
        return self.before_many(inside, after)

    def before_many(self, part, after):
        """The same for a part that is repeated: behind it come what follows and itself."""
        self.steps.append({})
        again = len(self.steps) - 1
        first = self.before(part, after | {again})
        self.steps[again] = {None: first}
        return after | first

    def step(self, places, kind):
        """The places behind a token, none where it can't be there."""
        way = places, kind
        if way not in self.ways:
            self.ways[way] = frozenset().union(*(self.behind(place, kind) for place in places))
        return self.ways[way]

    def behind(self, place, kind):
        steps = self.steps[place]
        found = steps.get(kind, frozenset())
        return found.union(*(self.behind(other, kind) for other in steps.get(None, ())))


AUTOMATON = Automaton(PACKET)


def statements(tokens, length):
    """The statements of a packet, as lists of tokens; `length` is that of its text."""
    places, found = AUTOMATON.start, [[]]
    for token in tokens:
        places = AUTOMATON.step(places, token.kind)
        if not places:
            raise Fault(f"syntax error at {token.at}")
        if token.kind == ";":
            found.append([])
        elif len(found) > MOST_STATEMENTS:
            raise Fault("too many statements")
        else:
            found[-1].append(token)
    if AUTOMATON.end not in places:
        raise Fault(f"syntax error at {length}")
    return found if found[-1] else found[:-1]
