"""Compares the pages of docs/cases that have prefixes with what a reader and a scan of their own say, and not with the program.

    python3 -m scripts.cases.prefix_pages

The pages are worked out by hand. Of prefix_texts.md each text is read (`query_reader`), and its written form once more; of
prefix_evaluation.md each query is evaluated in each document of its set (`query_trees`); the packets of prefix_selects.md are
answered by a scan of the documents (`prefix_sessions`). What differs is printed with its place, and wanted is what the page says.
"""

import re
import sys

from scripts.cases.case_pages import Page, blocks, named
from scripts.cases.prefix_sessions import answered, folding
from scripts.cases.query_cases import rows
from scripts.cases.query_reader import Fault, Index, read_query
from scripts.cases.query_runs import written_out
from scripts.cases.query_trees import Field, Tree
from scripts.cases.tables import read, text

FOLDER = "docs/cases"
FIELDS, ZONES = ["title", "content"], {"zoned2": ["th", "td"]}
SHORTEST = re.compile(r"- `(\w+)`: zones .*; `min_prefix_len = (\d+)`")
ABOUT = re.compile(r"Fields (.*?); zones (.*?); `index_sp = ([01])`, `html_strip = ([01])`, `min_prefix_len = (\d+)`\.")
SIGN = re.compile(r"\((sentence|paragraph)\)@(\d+)|([^@ ]+)@(\d+)")
# Tables that read another character than is meant in a written form.
NOT_READ_BACK = ('"', "U+5C", "U+20")


def texts():
    """The texts that are read otherwise than their page says, and how many there are."""
    page = read(f"{FOLDER}/prefix_texts.md")
    shortest, count = {name: int(number) for name, number in SHORTEST.findall(page)}, 0
    for row in rows(page):
        index = Index(FIELDS, ZONES.get(row.schema, []), folding(row.table), shortest[row.schema])
        place, wanted = row.place.rpartition(":")[2], written_out(row.fault or row.tree)
        found = read_query(written_out(row.text), index)
        told = f"query: {as_replied(found)}" if isinstance(found, Fault) else found
        count += 1
        if told != wanted:
            yield f"prefix_texts.md:{place}: {row.text} ⇒ {told}, wanted {wanted}"
        elif row.tree and not any(sign in row.table for sign in NOT_READ_BACK) and read_query(found, index) != found:
            yield f"prefix_texts.md:{place}: {found} isn't read as itself"
        if row.keywords is not None and row.keywords != listed(found):
            yield f"prefix_texts.md:{place}: {listed(found)}, wanted {row.keywords}"
    yield count


def as_replied(fault):
    kind, _, name = str(fault).partition(" `")
    return kind if not name else f"{kind.rpartition(' at ')[0]} '{name[:-1]}' at {fault.place}"


def listed(written):
    return [f"{key.word}{'*' * key.prefix}{key.query}" for key in Tree(written).keys]




def plain(words):
    """A field of words alone."""
    return Field([(word, place) for place, word in enumerate(re.findall(r"[0-9a-zа-яё_]+", words.lower()), 1)], [], [], [])


def marked(words, spans):
    """A field with its boundaries and spans, as a page tells them."""
    signs = [] if words == "-" else [SIGN.fullmatch(one) for one in words.split(" ")]
    ends = [(sign[1], int(sign[2])) for sign in signs if sign[1]]
    zones = [] if spans == "-" else [re.fullmatch(r"(.+)@(\d+)-(\d+)", one).groups() for one in spans.split(" ")]
    return Field(
        [(sign[3], int(sign[4])) for sign in signs if sign[3]],
        [at for _, at in ends],
        [at for kind, at in ends if kind == "paragraph"],
        [(zone, int(first), int(last)) for zone, first, last in zones],
    )


def evaluation():
    """The queries that find something else than their page says, and how many there are."""
    sets, name, count = {}, None, 0
    for block in blocks(f"{FOLDER}/prefix_evaluation.md"):
        name = named([block], "Set ", r"\.") or name
        about = ABOUT.search(block.words)
        if about:
            fields, zones, sentences, _, shortest = about.groups()
            zones = zones.split(", ") if zones != "none" else []
            sets[block.section] = (Index(fields.split(", "), zones, folding("default"), int(shortest)), sentences == "1", {})
        if block.columns[:1] == ("id",):
            sets[block.section][2].update({int(number): [plain(text(one)) for one in has] for _, (number, *has) in block.rows})
        elif block.columns[:1] == ("place",):
            for _, (place, words, spans) in block.rows:
                number, field = map(int, place.split("."))
                sets[block.section][2][number][field] = marked(words, spans)
        elif block.columns == ("query", "found"):
            for place, (query, wanted) in block.rows:
                count += 1
                found = evaluated(text(query), *sets[name])
                if found != wanted:
                    yield f"{place}: {query} ⇒ {found}, wanted {wanted}"
    yield count


def evaluated(query, index, reads_sentences, documents):
    """What a query finds, as the page tells it."""
    words = {word for has in documents.values() for field in has for word, _ in field.words}
    tree, found = Tree(read_query(query, index), words), []
    for number, has in documents.items():
        its = tree.find(has, index.fields, reads_sentences)
        if its.matches:
            places = " ".join(f"{field}.{first}-{last}" for field, first, last in sorted(its.places))
            hits = " ".join(f"{query}/{word}@{field}.{at}" for query, word, field, at in sorted(its.hits, key=of_page))
            found.append(f"{number}: {places or '-'}, {hits or '-'}")
    return "; ".join(found) or "none"


def of_page(hit):
    query, _, field, position = hit
    return query, field, position


def selects():
    """The packets that are answered otherwise than their page says, and how many there are."""
    count = 0
    for script in Page("prefix_selects").scripts:
        for step, found in zip(script.steps, answered(script)):
            count += 1
            if found != step.wanted:
                yield f"{step.place}: {step.packet} ⇒ {found}, wanted {step.wanted}"
    yield count


def main():
    wrong = 0
    for what in (texts, evaluation, selects):
        *said, count = what()
        print("\n".join([*said, f"{what.__name__}: {count} compared, {len(said)} differ"]))
        wrong += len(said)
    return 1 if wrong else 0


if __name__ == "__main__":
    sys.exit(main())
