"""Answers the packets of a script by a scan of the documents, where queries have prefixes.

It takes the statements of docs/cases/prefix_selects.md and no others: INSERT, REPLACE and DELETE, transactions, jobs, SHOW META,
and SELECT with what its packets have. Documents are kept as they are put, and a query is evaluated in each of them
(`query_trees`); the weights follow from the hits (`evaluation_runs`). Nothing of it is taken from the program.
"""

import re
from collections import Counter

from scripts.cases.case_pages import USUAL_STATUS, written_out
from scripts.cases.evaluation_runs import weight
from scripts.cases.query_reader import Fault, Index, read_query
from scripts.cases.query_trees import Field, Tree

DEFAULT = "0..9, A..Z->a..z, _, a..z, U+410..U+42F->U+430..U+44F, U+430..U+44F, U+401->U+451, U+451"
CUT, MOST_WORDS, MOST_ROWS = 42, 1024, 1000
SELECT = re.compile(
    r"SELECT (?P<list>.+?) FROM (?P<index>\w+) WHERE (?P<where>.+?)(?P<group> GROUP BY gid)?(?: ORDER BY gid ASC)?"
    r"(?: LIMIT (?:(?P<offset>\d+), )?(?P<count>\d+))?(?: OPTION (?P<options>.+?))?(?P<facet> FACET gid)?"
)
COLUMNS = ("id", "WEIGHT()", "gid", "COUNT(*)")


def folding(table):
    """What a character table gives a character, None for one that it hasn't."""
    given = {}
    for entry in (DEFAULT if table == "default" else table).split(", "):
        wide, _, folded = entry.partition("->")
        characters = [
            [int(end[2:], 16) if len(end) > 1 else ord(end) for end in part.split("..")] for part in (wide, folded or wide)
        ]
        (first, *last), (to, *_) = characters
        given |= {chr(first + step): chr(to + step) for step in range((last or [first])[0] - first + 1)}
    return given.get


class Refused(Exception):
    """A refusal, by its text."""


class Table:
    """The documents of an index."""

    def __init__(self, about):
        keys = re.findall(r"^(\w+) = (.*)$", about, re.MULTILINE)
        one = {"charset_table": "default", "min_prefix_len": "0"} | dict(keys)
        fields = [value for key, value in keys if key == "rt_field"]
        self.index = Index(fields, [], folding(one["charset_table"]), int(one["min_prefix_len"]))
        self.live = {}

    def field(self, text):
        words, word = [], ""
        for character in [*text, None]:
            folded = self.index.fold(character) if character else None
            if folded is None:
                words, word = words + [word[:CUT]] * bool(word), ""
            else:
                word += folded
        return Field([(word, place) for place, word in enumerate(words, 1)], [], [], [])

    def put(self, columns, values):
        row = dict(zip(columns, values))
        self.live[int(row["id"])] = int(row.get("gid", 0)), [self.field(row.get(field, "")) for field in self.index.fields]

    def words(self):
        return {word for _, has in self.live.values() for field in has for word, _ in field.words}

    def docs(self, word, prefix):
        """How many documents have a word, or one with a prefix."""
        takes = (lambda one: one.startswith(word)) if prefix else (lambda one: one == word)
        return sum(any(takes(one) for field in has for one, _ in field.words) for _, has in self.live.values())


class Session:
    def __init__(self, configuration):
        self.tables = {name: Table(about) for name, about in re.findall(r"index (\w+)\n\{\n(.*?)\}", configuration, re.DOTALL)}
        self.open, self.pending, self.meta = False, [], []

    def write(self, statement):
        verb, name, rest = re.fullmatch(r"(INSERT|REPLACE|DELETE) (?:INTO|FROM) (\w+) (.*)", statement, re.DOTALL).groups()
        if verb == "DELETE":
            numbers = [int(number) for number in re.findall(r"\d+", rest)]
            return name, [("kill", number) for number in numbers]
        columns, values = re.fullmatch(r"\((.*?)\) VALUES (.*)", rest, re.DOTALL).groups()
        rows = [re.findall(r"'([^']*)'|(-?\d+)", row) for row in re.findall(r"\(((?:'[^']*'|[^')])*)\)", values)]
        return name, [("put", columns.split(", "), [one or two for one, two in row]) for row in rows]

    def commit(self, changes):
        gone = 0
        for name, change in changes:
            if change[0] == "put":
                self.tables[name].put(*change[1:])
            else:
                gone += self.tables[name].live.pop(change[1], None) is not None
        return gone

    def answer(self, statement):
        """The replies to a statement, without their statuses."""
        if statement in ("BEGIN", "COMMIT", "ROLLBACK"):
            self.commit(self.pending if statement != "ROLLBACK" else [])
            self.open, self.pending = statement == "BEGIN", []
        elif statement == "SHOW META":
            return [" | ".join(["Variable_name, Value", *self.meta])]
        elif statement.startswith("SELECT"):
            return self.select(SELECT.fullmatch(statement).groupdict())
        elif not statement.startswith(("FLUSH", "OPTIMIZE")):
            name, changes = self.write(statement)
            changes = [(name, change) for change in changes]
            self.pending += changes if self.open else []
            gone = 0 if self.open else self.commit(changes)
            return [f"OK {gone if statement.startswith('DELETE') else len(changes)}"]
        return ["OK 0"]

    def select(self, has):
        table, columns = self.tables[has["index"]], has["list"].split(", ")
        for column in columns:
            if column not in COLUMNS:
                raise Refused(f"unknown column '{column}'")
        texts = re.findall(r"MATCH\('((?:[^'\\]|\\.)*)'\)", has["where"])
        if len(texts) > 1:
            raise Refused("second MATCH")
        if int(has["offset"] or 0) >= MOST_ROWS:
            raise Refused(f"offset {has['offset']} is not below max_matches {MOST_ROWS}")
        written = read_query(re.sub(r"\\(.)", r"\1", texts[0]), table.index)
        if isinstance(written, Fault):
            raise Refused(f"query: {written}")
        tree = Tree(written, table.words())
        if tree.expanded > MOST_WORDS:
            raise Refused(f"query: prefixes have {tree.expanded} words")
        found = self.found(table, tree, has["options"] or "", has["where"])
        grouped = has["group"] or columns == ["COUNT(*)"]
        groups = Counter(gid for _, _, gid in found)
        rows = sorted(groups.items()) if grouped else found
        self.meta = [f"total, {len(rows)}", f"total_found, {len(rows)}"]
        for place, (word, prefix) in enumerate(tree.shown()):
            self.meta += [f"keyword[{place}], {word}{'*' * prefix}", f"docs[{place}], {table.docs(word, prefix)}"]
        places = {"gid": 0, "COUNT(*)": 1} if grouped else {"id": 0, "WEIGHT()": 1, "gid": 2}
        shown = [", ".join(str(row[places[column]]) for column in columns) for row in rows[: int(has["count"] or 20)]]
        sets = [" | ".join([", ".join(columns).lower(), *shown])]
        facet = [f"{gid}, {count}" for gid, count in sorted(groups.items(), key=lambda one: (-one[1], one[0]))]
        return sets + ([" | ".join(["gid, count(*)", *facet])] if has["facet"] else [])

    def found(self, table, tree, options, where):
        ranker = (re.findall(r"ranker=(\w+)", options) or ["proximity"])[0]
        named = dict(re.findall(r"(\w+)=(\d+)", (re.findall(r"field_weights=\((.*?)\)", options) or [""])[0]))
        weights = [int(named.get(field, 1)) for field in table.index.fields]
        limits = [(column, int(number)) for column, number in re.findall(r"AND (id|gid) = (\d+)", where)]
        rows = []
        for number, (gid, has) in table.live.items():
            its = tree.find(has, table.index.fields, False)
            if its.matches and all({"id": number, "gid": gid}[column] == value for column, value in limits):
                rows.append((number, weight(ranker, len(tree.keys), weights, its.hits), gid))
        return sorted(rows, key=lambda row: (-row[1], row[0]))


def statements(packet):
    return re.findall(r"((?:'(?:[^'\\]|\\.)*'|[^';])+)(?:; |$)", packet)


def replies(session, packet):
    """The replies to a packet, with the statuses that its page writes."""
    told, left = [], statements(packet)
    while left:
        try:
            sets = session.answer(left.pop(0))
        except Refused as refusal:
            return "; ".join([*told, f"ERR 1064 42000 {refusal}"])
        status = 2 + session.open
        told += [f"{status + 8 * (bool(left) or at + 1 < len(sets))}: {reply}" for at, reply in enumerate(sets)]
    return "; ".join(told)


def answered(script):
    """The replies to each packet of a script, as its page writes them."""
    session = Session(script.configuration)
    for step in script.steps:
        told = replies(session, written_out(step.packet).decode())
        wanted = written_out(step.wanted).decode()
        yield step.wanted if USUAL_STATUS.sub("", told) == wanted else USUAL_STATUS.sub("", told)
