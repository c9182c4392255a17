"""Writes the texts of docs/cases/extended_queries.md, and those with prefixes, that have trees as a constant that the test of the
written form runs over.

What the texts find, and the faults of the others, `query_runs` asks the program, and `prefix_runs`. At the top of the repository:
python3 -m scripts.cases.query_cases [--check]
"""

import re
import sys
from typing import NamedTuple

from scripts.cases.tables import constant, read, run

DOCUMENT = "docs/cases/extended_queries.md"
PREFIXES = "docs/cases/prefix_texts.md"
TABLE = "crates/text_vectors/src/query_trees.rt"
# A text above so many bytes, or with a sign that has a name, is asked by its tree alone.
LONGEST = 100

HEAD = """//! The trees of docs/cases/extended_queries.md, and of the page of texts with prefixes, as `query_cases` of scripts/ writes them: edit
//! them there. After `# ` stands the configuration of the index by which texts are read, and then an empty line. Each text is followed
//! by `⇒` and by its tree. `⟨x × n⟩` is x written n times, `⟨tab⟩` a tab.
"""

# The fewest characters of a prefix, by schema, where these aren't 0.
SHORTEST = {"prefix1": 1, "prefix2": 2, "prefix3": 3, "prefix42": 42, "zoned2": 2}
# The fields and the zones of the schemas.
FIELDS = {
    **dict.fromkeys(["prefix0", *SHORTEST], ["title", "content"]),
    "rt": ["title", "content"],
    "pages": ["title", "content"],
    "one": ["title"],
    "wide": [f"f{number}" for number in range(32)],
    "long": ["n" * 64, "title"],
}
ZONES = {"pages": ["th", "td", "x-a:b_1"], "long": ["z" * 64], "zoned2": ["th", "td"]}


class Row(NamedTuple):
    """A text with what it is."""

    place: str
    schema: str
    table: str  # a character table, or `default`
    text: str
    tree: str  # None where it has a fault
    fault: str  # what a session says of it, or None
    keywords: list  # each with its query position, where the page tells them


def cell(written):
    """The text of a cell, None where it is no text."""
    if written in ("(empty)", "none"):
        return ""
    inside = re.fullmatch(r"`` (.*) ``", written)
    return inside.group(1).replace("\\|", "|") if inside else None


def fault(written):
    """What a session says of a fault."""
    kind, place, name = re.fullmatch(r"([A-Za-z0-9 ]+) at (\d+)(?: `(.*)`)?", written).groups()
    return f"query: {kind} '{name}' at {place}" if name else f"query: {kind} at {place}"


def rows(document):
    """The texts of the page."""
    setting = None
    for number, line in enumerate(document.split("\n"), 1):
        head = re.match(r"Schema `(\w+)`[;,] (?:table `` (.*) ``|.*default)", line)
        if head:
            setting = head[1], head[2] or "default"
            has_keywords = "query position" in line
        row = re.fullmatch(r"\| (\(empty\)|``.*?``(?=(?: \|)* \| )) \| (.*) \|", line)
        if row and setting:
            text, meant = row.groups()
            meant, keywords = meant.rsplit(" | ", 1) if has_keywords else (meant, None)
            named = keywords and [] if keywords == "none" else keywords and keywords.split(" ")
            tree = cell(meant)
            told = fault(meant) if tree is None else None
            yield Row(f"{DOCUMENT}:{number}", *setting, cell(text), tree, told, named)


def asked(row):
    """The text by which the test asks for a tree."""
    is_plain = len(row.text.encode()) <= LONGEST and not re.search("⟨(?:LF|CR)⟩|× 10000⟩", row.text)
    return row.text if is_plain else row.tree


def configuration(schema, table):
    """The lines of the configuration of an index."""
    lines = ["type = rt", "path = a", *(f"rt_field = {field}" for field in FIELDS[schema])]
    lines += [f"charset_table = {table}"] if table != "default" else []
    lines += ["html_strip = 1", f"index_zones = {', '.join(ZONES[schema])}"] if schema in ZONES else []
    lines += [f"min_prefix_len = {SHORTEST[schema]}"] if schema in SHORTEST else []
    return [f"# index {schema} {{", *lines, "}", ""]


def lines(found):
    """The lines of the constant, each once below the setting that it is read by."""
    before, known = None, set()
    for row in found:
        if (row.schema, row.table) != before:
            yield from configuration(row.schema, row.table)
        before = row.schema, row.table
        line = f"{asked(row)} ⇒ {row.tree}"
        if (before, line) not in known:
            yield line
        known.add((before, line))


def made():
    found = [row for page in (DOCUMENT, PREFIXES) for row in rows(read(page)) if row.tree is not None]
    yield TABLE, HEAD + "\n" + constant("Texts with their trees.", "TREES", lines(found))


if __name__ == "__main__":
    sys.exit(run(made))
