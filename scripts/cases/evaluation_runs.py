"""Makes scripts of docs/cases/evaluation.md: its queries as SELECTs, with the ids and weights that they are to show.

The page has for each query the documents that match, with all hits in each of them. The ids follow at once; the weights
follow from the hits by the rankers' table in the manual, which stands here once more (`weight`), apart from the program. What
the hits don't say is how many keywords a query has: its words are counted by the rules of EXTENDED_QUERIES.md (`keywords`),
and compared with the words and places that the hits name.

Each query is asked with each ranker, once with weights of fields, and with each of some ranking expressions, over a set of
documents that is there

    in one piece         all documents put by one INSERT; then the first document that the query finds is deleted; and then
                         that document is put again
    in several           each put by an INSERT of its own; then the first document that the query finds is deleted

A query is one case.
"""

import re
from collections import Counter
from itertools import groupby

from scripts.cases.case_pages import FOLDER, Script, Step, blocks, named
from scripts.cases.tables import text

RANKERS = ("none", "wordcount", "proximity", "matchany", "fieldmask")
# Expressions, each by what it weighs by: a ranker, or the first hit of each field.
EXPRESSIONS = {
    "wordcount": "sum(hit_count*user_weight)",
    "proximity": "sum(lcs*user_weight)",
    "matchany": "sum((word_count+(lcs-1)*max_lcs)*user_weight)",
    "fieldmask": "field_mask",
    "positions": "sum(min_hit_pos*user_weight)",
}
# The weights of the first fields, in the question that has some.
FIELD_WEIGHTS = (3, 5, 2)
ABOUT = re.compile(r"Fields (.*?); zones (.*?); `index_sp = ([01])`, `html_strip = ([01])`\.")
HIT = re.compile(r"(\d+)/(\d+)@(\d+)\.(\d+)")
# What isn't a word in a query: limits to fields and zones, numbers of operators, and operators of letters.
NO_WORDS = re.compile(
    r"@@relaxed|@!?(?:\([^)]*\)|\*|\w+)(?:\[\d+\])?|ZONE(?:SPAN)?:(?:\([^)]*\)|\w+)|\bNEAR/\d+|\"[~/]\d+(?:\.\d+)?"
    r"|\b(?:MAYBE|SENTENCE|PARAGRAPH)\b"
)
WORD = re.compile(r"[0-9a-zа-яё_]+")
INDEX = "found"


def keywords(query):
    """The words of a query, in their order."""
    return WORD.findall(NO_WORDS.sub(" ", query).lower())


def weight(ranker, count, weights, hits):
    """What a ranker weighs a document with these hits of a query with so many keywords, for fields of these weights."""
    if ranker == "none" or count == 0:
        return 1
    total = 0
    for field, of_field in groupby(sorted(hits, key=lambda hit: hit[2]), key=lambda hit: hit[2]):
        own = list(of_field)
        words = len({word for _, word, _, _ in own})
        longest = max(Counter(position - query for query, _, _, position in own).values())
        total += {
            "wordcount": len(own) * weights[field],
            "proximity": longest * weights[field],
            "matchany": (words + (longest - 1) * count * sum(weights)) * weights[field],
            "fieldmask": 2**field,
            "positions": min(position for _, _, _, position in own) * weights[field],
        }[ranker]
    return total


def quoted(some):
    """A text of SphinxQL."""
    return "'" + some.replace("\\", "\\\\").replace("'", "\\'") + "'"


class Query:
    """A query with the hits of each document that it finds."""

    def __init__(self, place, query, found):
        self.place, self.query, self.hits = place, query, {}
        for document in found.split("; ") if found != "none" else []:
            number, hits = re.fullmatch(r"(\d+): .+, (.+)", document).groups()
            self.hits[int(number)] = [tuple(map(int, hit)) for hit in HIT.findall(hits)]
        self.words = keywords(query)
        self.look()

    def look(self):
        """Compares the words that were counted with those that the hits name."""
        distinct = list(dict.fromkeys(self.words))
        for hits in self.hits.values():
            for place, word, _, _ in hits:
                assert self.words[place - 1 : place] == distinct[word : word + 1], f"{self.place}: {place}/{word}"

    def steps(self, fields, without=None):
        """The SELECTs of the query where a document isn't there, each with its rows."""
        ones = [1] * len(fields)
        weights = FIELD_WEIGHTS[: len(fields)]
        named = ", ".join(f"{field} = {number}" for field, number in zip(fields, weights))
        for ranker in RANKERS:
            yield self.step(f"ranker = {ranker}", ranker, ones, without)
        yield self.step(f"ranker = matchany, field_weights = ({named})", "matchany", weights, without)
        for ranker, text in EXPRESSIONS.items():
            yield self.step(f"ranker = expr('{text}'), field_weights = ({named})", ranker, weights, without)

    def step(self, options, ranker, weights, without):
        rows = [
            f" | {number}, {weight(ranker, len(self.words), weights, hits)}"
            for number, hits in sorted(self.hits.items())
            if number != without
        ]
        matches = f"FROM {INDEX} WHERE MATCH({quoted(self.query)}) ORDER BY id ASC LIMIT 1000"
        asked = f"SELECT id, WEIGHT() {matches} OPTION {options}"
        return Step(self.place, self.place, "A", asked, "id, weight()" + "".join(rows))


class Set:
    """A set of documents, with the queries over it."""

    def __init__(self, about):
        fields, zones, sentences, strips = about
        self.fields, self.documents, self.queries = fields.split(", "), {}, []
        options = [f"index_sp = {sentences}", f"html_strip = {strips}"]
        options += [f"index_zones = {zones}"] if zones != "none" else []
        lines = ["type = rt", "path = documents", *(f"rt_field = {field}" for field in self.fields), *options]
        self.configuration = "\n".join([f"index {INDEX}", "{", *lines, "}"])

    def add(self, rows):
        """Takes the documents of a table, each with its place and the texts of its fields."""
        self.documents |= {int(number): (place, list(map(text, texts))) for place, (number, *texts) in rows}

    def put(self, numbers):
        """The step that puts these documents."""
        rows = [f"({', '.join([str(number), *map(quoted, self.documents[number][1])])})" for number in numbers]
        place = self.documents[numbers[0]][0]
        return Step(place, "", "A", f"INSERT INTO {INDEX} VALUES {', '.join(rows)}", f"OK {len(rows)}")

    def asked(self, queries, without=None):
        return [step for query in queries for step in query.steps(self.fields, without)]

    def found_first(self):
        """The documents that queries find first, with these queries."""
        for number in self.documents:
            queries = [query for query in self.queries if min(query.hits, default=None) == number]
            if queries:
                yield number, queries

    def without(self, number, queries):
        """Steps that ask where a document isn't there, and put it again."""
        delete = Step(self.documents[number][0], "", "A", f"DELETE FROM {INDEX} WHERE id = {number}", "OK 1")
        return [delete, *self.asked(queries, number), self.put([number])]

    def scripts(self):
        """The scripts of this set."""
        numbers = list(self.documents)
        whole = [self.put(numbers), *self.asked(self.queries)]
        anew = Step(self.documents[numbers[0]][0], "", "A", f"TRUNCATE RTINDEX {INDEX}", "OK 0")
        for number, queries in self.found_first():
            whole += [anew, self.put(numbers), *self.without(number, queries), *self.asked(queries)]
        several = [*(self.put([number]) for number in numbers), *self.asked(self.queries)]
        for number, queries in self.found_first():
            several += self.without(number, queries)
        return [Script(self.configuration, steps) for steps in (whole, several)]


class EvaluationPage:
    """The scripts of docs/cases/evaluation.md."""

    def __init__(self):
        self.sets, self.lines = {}, []
        name = None
        for block in blocks(f"{FOLDER}/evaluation.md"):
            name = named([block], "Set ", r"\.") or name
            about = ABOUT.search(block.words)
            if about:
                self.sets[block.section] = Set(about.groups())
            if block.columns[:1] == ("id",):
                self.sets[block.section].add(block.rows)
            elif block.columns == ("query", "found"):
                self.sets[name].queries += [Query(place, text(query), found) for place, (query, found) in block.rows]
        self.scripts = [script for some in self.sets.values() for script in some.scripts()]
