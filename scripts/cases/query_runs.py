"""Makes scripts of docs/cases/extended_queries.md: each text as a SELECT that is refused for its fault, or finds what its tree finds.

Which documents those are, and what they weigh, is worked out from the tree that the page has (`query_trees`), over documents made
for it: some say its words in their order, some in another one, in each field and in zones; others say some of them at random.
A text is asked with the ranker `matchany`, whose weights tell the query positions of keywords and how many there are, and followed
by SHOW META, which tells its words; its written form, which is the same query, with `wordcount`. Texts with the same words share
documents, and a condition on an attribute leaves out those of others.

A text is one case.
"""

import random
import re
from itertools import groupby

from scripts.cases.case_pages import Script, Step
from scripts.cases.evaluation_runs import quoted, weight
from scripts.cases.query_cases import DOCUMENT, FIELDS, ZONES, rows
from scripts.cases.query_trees import Field, Joined, Quoted, Tree
from scripts.cases.tables import read

# Tags that end a paragraph as well.
BLOCKS = ("th", "td")
# A word of no query.
FILLER = "zzz"
# So many texts have one script, and a query of more keywords has a script of its own.
TOGETHER, FEW = 50, 20
RANDOM, FEW_DRAWN = 24, 6
SIGNS = {"tab": "\t", "LF": "\n", "CR": "\r"}


def written_out(short):
    """A text in which `⟨x × n⟩` is x written n times."""

    def spelled(found):
        part, _, count = found[1].rpartition(" × ")
        return part * int(count) if count.isdigit() and part else SIGNS[found[1]]

    return re.sub(r"⟨(.*?)⟩", spelled, short)


class Setting:
    """The index by which texts are read."""

    def __init__(self, schema, table):
        self.fields, self.zones, self.table = FIELDS[schema], ZONES.get(schema, []), table
        # signs of other tables would be letters
        self.reads_sentences = bool(self.zones) or table == "default"

    def configuration(self):
        lines = ["type = rt", "path = found", *(f"rt_field = {field}" for field in self.fields), "rt_attr_uint = grp"]
        lines += ["html_strip = 1", "index_sp = 1"] if self.reads_sentences else []
        lines += [f"index_zones = {', '.join(self.zones)}"] if self.zones else []
        lines += [f"charset_table = {self.table}"] if self.table != "default" else []
        return "\n".join(["index found", "{", *lines, "}"])

    def reads_written_form(self):
        """Whether the table reads a written form as it is meant."""
        return not any(sign in self.table for sign in ('"', "U+5C", "U+20"))

    def source(self, word):
        """A word as a document has it."""
        return word.replace('"', "Z") if 'Z->"' in self.table else word


class Document:
    """A document: for each field words, `?` between sentences, `<p>` between paragraphs, and zones' tags."""

    def __init__(self, fields):
        self.fields = fields
        self.has = [read_field(field) for field in fields]
        self.words = {word for field in self.has for word, _ in field.words}

    def texts(self, setting):
        between = "\t" if "U+20" in setting.table else " "
        return [between.join(setting.source(token) for token in field) for field in self.fields]


def read_field(tokens):
    """What a field has."""
    words, sentences, paragraphs, spans, open_zones, pending = [], [], [], [], {}, None
    for token in tokens:
        tag = re.fullmatch(r"<(/?)(\S+)>", token)
        if tag and tag[2] != "p":
            spans += [(tag[2], *open_zones.pop(tag[2]))] if tag[2] in open_zones else []
            open_zones |= {} if tag[1] else {tag[2]: ()}
        if token in ("?", "<p>") or tag and tag[2] in BLOCKS:
            pending = "sentence" if token == "?" and pending is None else pending if token == "?" else "paragraph"
        elif not tag:
            position = words[-1][1] + 1 if words else 1
            if pending and words:
                sentences.append(position)
                paragraphs += [position] if pending == "paragraph" else []
                position += 1
            pending = None
            words.append((token, position))
            open_zones = {zone: (span[0], position) if span else (position, position) for zone, span in open_zones.items()}
    return Field(words, sentences, paragraphs, [span for span in spans if len(span) == 3])


def in_field(setting, field, tokens):
    return Document([tokens if name == field else [] for name in setting.fields])


def fields_of(setting, tree):
    """Fields in which a tree's words are said: the first and the last one, and those of its limits."""
    limited = {field for key in tree.keys for field in key.limit.fields or () if len(key.limit.fields) < 4}
    return [field for field in setting.fields if field in limited | {setting.fields[0], setting.fields[-1]}]


def said(setting, tree):
    """Documents that say a tree's words in their order."""
    words = [key.word for key in tree.keys]
    if not words or len(words) > FEW and isinstance(tree.root, Joined):
        return
    found = [FILLER if key.negated else key.word for key in tree.keys]
    if len(words) > FEW:
        less = [found[:-1]] if isinstance(tree.root, Quoted) else []
        yield from (in_field(setting, setting.fields[0], tokens) for tokens in [found, *less])
        return
    apart = [token for word in found for token in (word, FILLER)]
    for field in fields_of(setting, tree):
        for tokens in (found, words, found[::-1], apart[:-1], found[:-1], found[1:], [FILLER, *found, FILLER]):
            yield in_field(setting, field, tokens)
        if setting.reads_sentences:
            for end in ("?", "<p>"):
                yield in_field(setting, field, [token for word in found for token in (word, end)][:-1])
        for zone in setting.zones:
            yield in_field(setting, field, [FILLER, f"<{zone}>", *found, f"</{zone}>", FILLER])
            yield in_field(setting, field, [token for word in found for token in (f"<{zone}>", word, f"</{zone}>")])
    yield Document([found[number :: len(setting.fields)] for number in range(len(setting.fields))])


def drawn(setting, words, draws):
    """A document with some of these words, at random."""
    fields = []
    for _ in setting.fields:
        tokens = [draws.choice([*words, *words, FILLER]) for _ in range(draws.choice([0, 1, 2, 3, 4, 6]))]
        if setting.reads_sentences:
            tokens = [sign for token in tokens for sign in [token, *draws.choices(([], ["?"], ["<p>"]), (6, 1, 1))[0]]]
        if setting.zones and tokens:
            zone, first = draws.choice(setting.zones), draws.randrange(len(tokens))
            tokens.insert(draws.randrange(first, len(tokens)) + 1, f"</{zone}>")
            tokens.insert(first, f"<{zone}>")
        fields.append(tokens if len(setting.fields) < 4 or draws.random() < 0.2 else [])
    return Document(fields)


class Asked:
    """A text with a tree, and the documents among which it is asked."""

    def __init__(self, row):
        self.row, self.tree = row, Tree(written_out(row.tree))
        self.group = frozenset(self.tree.words())
        if row.keywords is not None:
            assert row.keywords == [f"{key.word}{key.query}" for key in self.tree.keys], row.place

    def is_short(self):
        return len(self.tree.keys) <= FEW

    def steps(self, setting, number, documents, whole):
        """The SELECTs of the text, where its documents have this number."""
        found = {}
        for place, document in documents.items():
            found[place] = self.tree.find(document.has, setting.fields, setting.reads_sentences)
        found = {place: its.hits for place, its in found.items() if its.matches}
        text, written = written_out(self.row.text), self.tree.text
        known = [(word, sum(word in document.words for document in whole)) for word in self.tree.words()]
        meta = "".join(f" | keyword[{at}], {word} | docs[{at}], {count}" for at, (word, count) in enumerate(known))
        meta = f"; Variable_name, Value | total, {len(found)} | total_found, {len(found)}{meta}"
        yield self.step(setting, text, "matchany", number, found, "; SHOW META", meta)
        yield self.step(setting, written if setting.reads_written_form() else text, "wordcount", number, found)

    def step(self, setting, text, ranker, number, found, more="", meta=""):
        ones = [1] * len(setting.fields)
        weights = "".join(
            f" | {place}, {weight(ranker, len(self.tree.keys), ones, hits)}" for place, hits in sorted(found.items())
        )
        limits = f"grp = {number} ORDER BY id ASC LIMIT 1000 OPTION ranker = {ranker}"
        packet = f"SELECT id, WEIGHT() FROM found WHERE MATCH({quoted(text)}) AND {limits}{more}"
        return Step(self.row.place, self.row.place, "A", packet, f"id, weight(){weights}{meta}")


def refused(row):
    """The SELECT of a text with a fault."""
    packet = f"SELECT id FROM found WHERE MATCH({quoted(written_out(row.text))})"
    return Step(row.place, row.place, "A", packet, f"ERR 1064 42000 {written_out(row.fault)}")


def put(setting, place, groups):
    """The steps that put the documents of groups."""
    for number, documents in enumerate(groups.values()):
        rows = [
            f"({', '.join([str(key), *map(quoted, document.texts(setting)), str(number)])})" for key, document in documents.items()
        ]
        yield Step(place, "", "A", f"INSERT INTO found VALUES {', '.join(rows)}", f"OK {len(rows)}")


def script(setting, asked):
    """The script of some texts that are read by one index."""
    draws, groups, place = random.Random(asked[0].row.place), {}, asked[0].row.place
    for its in asked:
        if its.group not in groups:
            count = RANDOM if its.is_short() else FEW_DRAWN
            groups[its.group] = [drawn(setting, its.tree.words() or [FILLER], draws) for _ in range(count)]
        groups[its.group] += said(setting, its.tree)
    last = 0
    for group, documents in groups.items():
        distinct = list({str(document.fields): document for document in documents}.values())
        groups[group], last = dict(enumerate(distinct, last + 1)), last + len(distinct)
    whole = [document for documents in groups.values() for document in documents.values()]
    numbers = {group: number for number, group in enumerate(groups)}
    steps = [*put(setting, place, groups)]
    steps += [step for its in asked for step in its.steps(setting, numbers[its.group], groups[its.group], whole)]
    return Script(setting.configuration(), steps)


def scripts(setting, some):
    """The scripts of the texts that are read by one index."""
    asked = [Asked(row) for row in some if row.tree is not None]
    short = [its for its in asked if its.is_short()]
    for first in range(0, len(short), TOGETHER):
        yield script(setting, short[first : first + TOGETHER])
    for its in asked:
        if not its.is_short():
            yield script(setting, [its])
    yield Script(setting.configuration(), [refused(row) for row in some if row.tree is None])


class QueriesPage:
    """The scripts of docs/cases/extended_queries.md."""

    def __init__(self):
        self.scripts, self.lines = [], []
        for names, some in groupby(sorted(rows(read(DOCUMENT)), key=lambda row: row[1:3]), key=lambda row: row[1:3]):
            self.scripts += scripts(Setting(*names), list(some))
