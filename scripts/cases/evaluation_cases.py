"""Writes the documents and queries of docs/cases/evaluation.md as the constants that the tests of evaluation run over.

At the top of the repository: python3 -m scripts.cases.evaluation_cases [--check]
"""

import re
import sys

from scripts.cases.tables import cells, constant, read, run, text

DOCUMENT = "docs/cases/evaluation.md"
EVALUATION = "crates/eval_vectors/src/cases.rt"

HEAD = """//! The {what} of docs/cases/evaluation.md, as `evaluation_cases` of scripts/ writes them: edit them there. {how}
"""
SECTIONS = "A\n//! line `# S` begins what is of the set S. Parts of a line are separated by ` ⇒ `; the empty text is an empty part. The set `long` isn't\n//! from there: the script says what it is."

PLACES = r"-|\d+\.\d+-\d+(?: \d+\.\d+-\d+)*"
HITS = r"-|\d+/\d+@\d+\.\d+(?: \d+/\d+@\d+\.\d+)*"
FOUND = rf"none|\d+: (?:{PLACES}), (?:{HITS})(?:; \d+: (?:{PLACES}), (?:{HITS}))*"
WORDS = r"-|(?:\(sentence\)|\(paragraph\)|[^@ ]+)@\d+(?: (?:\(sentence\)|\(paragraph\)|[^@ ]+)@\d+)*"
SPANS = r"-|[^@ ]+@\d+-\d+(?: [^@ ]+@\d+-\d+)*"


def sets_and_queries(document):
    """The sets as (name, schema line, documents, tokens), and the queries as (set, query, found)."""
    sets, queries = {}, []
    name = columns = None
    for line in document.split("\n"):
        head = re.fullmatch(r"### `(\w+)`", line)
        if head:
            name = head.group(1)
            assert name not in sets, name
            sets[name] = None
        about = re.match(r"Fields (.*?); zones (.*?); `index_sp = ([01])`, `html_strip = ([01])`\.", line)
        if about:
            fields, zones, sp, strip = about.groups()
            sets[name] = (f"{fields}; {zones}; {sp}; {strip}", [], [])
        of = re.fullmatch(r"Set `(\w+)`\.", line)
        if of:
            name = of.group(1)
            assert sets[name], name
        row = cells(line)
        if row is None:
            columns = columns if line.startswith("|---") else None
        elif columns is None:
            columns = row
        elif columns[0] == "id":
            assert len(row) == len(columns) and row[0].isdigit(), line
            sets[name][1].append((row[0], [text(cell) for cell in row[1:]]))
        elif columns[0] == "place":
            place, words, spans = row
            assert re.fullmatch(r"\d+\.\d+", place) and re.fullmatch(WORDS, words) and re.fullmatch(SPANS, spans), line
            sets[name][2].append((place, words, spans))
        elif columns == ["query", "found"]:
            query, found = row
            assert re.fullmatch(FOUND, found), line
            queries.append((name, text(query), found))
        else:
            raise AssertionError(line)
    return sets, queries


def configuration(about):
    """The lines of the configuration of an index with these fields, zones and rules."""
    fields, zones, sp, strip = about.split("; ")
    return [
        "index i {",
        "type = rt",
        "path = a",
        f"index_sp = {sp}",
        f"html_strip = {strip}",
        *([f"index_zones = {zones}"] if zones != "none" else []),
        *[f"rt_field = {field}" for field in fields.split(", ")],
        "}",
    ]


def told(found):
    """What is found as the tests tell it: the ids of all documents that match, then what is found in each where something is.

    The hits of a document are in the order of its places there, which is that of the program's lists.
    """
    ids, parts = [], []
    for one in found.split("; ") if found != "none" else []:
        number, places, hits = re.fullmatch(rf"(\d+): ({PLACES}), ({HITS})", one).groups()
        ids.append(number)
        places = [] if places == "-" else places.split(" ")
        hits = [] if hits == "-" else sorted(hits.split(" "), key=by_place)
        if places or hits:
            parts.append(f"{number}:{''.join(f' {it}' for it in places)},{''.join(f' {it}' for it in hits)}")
    return "; ".join([" ".join(ids)] + parts)


def by_place(hit):
    """Where a hit stands among those of its document: by its field, its position, its query position and its word."""
    query, word, field, position = map(int, re.split(r"[/@.]", hit))
    return field, position, query, word


# The most words that a query has.
WORDS_OF_LONG = 255
# The one that the second document doesn't have.
MISSING = 128
# What joins the words of a query, whether each word has an occurrence of its own or one goes over all, and the documents that match.
JOINS = [
    (" ", True, "1"),
    (" | ", True, "12"),
    (" MAYBE ", True, "12"),
    (" << ", False, "1"),
    (" NEAR/3 ", False, "1"),
    (" SENTENCE ", False, "1"),
    (" PARAGRAPH ", False, "1"),
]


def long_words(missing=None):
    return [number for number in range(1, WORDS_OF_LONG + 1) if number != missing]


def found_of_long(document, each):
    """What is found of the words in the first document, which has them all, or in the second one."""
    words = long_words(None if document == "1" else MISSING)
    places = [f"0.{place}-{place}" for place in range(1, len(words) + 1)] if each else [f"0.1-{len(words)}"]
    hits = [f"{number}/{number - 1}@0.{place}" for place, number in enumerate(words, 1)]
    return f"{document}: {' '.join(places)}, {' '.join(hits)}"


def long_set():
    """Queries of the most words, joined by one operator, over a document that has them all, one that lacks one, and one without any."""
    texts = [" ".join(f"w{number}" for number in long_words(missing)) for missing in (None, MISSING)] + ["none of them"]
    documents = [(str(number), [text]) for number, text in enumerate(texts, 1)]
    asked = [(between.join(f"w{number}" for number in long_words()), "; ".join(found_of_long(it, each) for it in found))
             for between, each, found in JOINS]
    return ("text; none; 1; 1", documents, []), [("long", query, found) for query, found in asked]


def headed(rows):
    """Lines, with one of its own where the set changes."""
    before = None
    for name, line in rows:
        if name != before:
            yield f"# {name}"
        before = name
        yield line


def file(what, how, constants):
    return HEAD.format(what=what, how=how) + "\n" + "\n".join(constants)


def made():
    sets, queries = sets_and_queries(read(DOCUMENT))
    sets["long"], more = long_set()
    queries += more
    schemas = [(name, line) for name, (about, _, _) in sets.items() for line in configuration(about)]
    documents = [(name, " ⇒ ".join([number] + texts)) for name, (_, docs, _) in sets.items() for number, texts in docs]
    asked = [(name, f"{query} ⇒ {told(found)}".rstrip()) for name, query, found in queries]
    yield EVALUATION, file("documents and queries", SECTIONS, [
        constant("Sets with the configurations of their indexes.", "SETS", headed(schemas)),
        constant("Documents: the id and the text of each field.", "DOCUMENTS", headed(documents)),
        constant("Queries with the ids of the documents that match, and what they find in each: occurrences, and hits.", "QUERIES", headed(asked)),
    ])


if __name__ == "__main__":
    sys.exit(run(made))
