#!/usr/bin/env python3
"""Makes the tables of documents that would otherwise drift from crates.txt and from the clauses.

    docs/ARCHITECTURE.md    a row for each crate but those of tests, in the order and the groups of crates.txt; what it
                            stands on are its libraries that no other one of its libraries stands on
    docs/PROVED.md          a row for each group: its crates, each with how many public calls it has, the ghost members of
                            its traits and types among them

What a row says besides is written by hand in the document, and kept. At the top of the repository

    python3 -m scripts.gate.house_tables [--check]

writes both, or names those that differ, as scripts/gate/house.py does.
"""

import re
import sys
from collections import Counter

from scripts.cases.tables import read, run
from scripts.gate.promises import House

TESTS = "tests by tables of values from outside"
ROW = re.compile(r"^\| `(\w+)` \| (.*?) \|")


def groups():
    """The groups of crates.txt in order: the heading, and the crates with their libraries."""
    found = []
    for line in read("crates.txt").split("\n"):
        if line.startswith("# "):
            found.append((line[2:], {}))
        elif ":" in line:
            crate, libraries = line.split("#")[0].split(":")
            found[-1][1][crate.split()[0]] = libraries.split()
    return [(heading, crates) for heading, crates in found if crates]


def below(crate, libraries_of):
    """All that a crate stands on."""
    todo, seen = list(libraries_of.get(crate, [])), set()
    while todo:
        library = todo.pop()
        if library not in seen:
            seen.add(library)
            todo += libraries_of.get(library, [])
    return seen


def stands_on(crate, libraries_of):
    """A crate's libraries without those that another one of them stands on; those of the kit last."""
    listed = libraries_of[crate]
    passed = set().union(*(below(library, libraries_of) for library in listed))
    own = [f"`{library}`" for library in listed if library in libraries_of and library not in passed]
    kit = [f"`{library}`" for library in listed if library not in libraries_of and library not in passed]
    return ", ".join(own + (["the kit's " + " and ".join(kit)] if kit else [])) or "none"


def replaced(document, head, rows):
    """The document with these rows in its table that has this head."""
    before, after = document.split(head + "\n", 1)
    line, rest = after.split("\n", 1)
    end = re.search(r"^(?!\|)", rest, re.M).start()
    return before + head + "\n" + line + "\n" + "".join(row + "\n" for row in rows) + rest[end:]


def architecture(all_groups):
    document = read("docs/ARCHITECTURE.md")
    told = dict(found.groups() for found in map(ROW.match, document.split("\n")) if found)
    libraries_of = {crate: libraries for _, crates in all_groups for crate, libraries in crates.items()}
    rows = []
    for heading, crates in all_groups:
        if heading != TESTS:
            rows.append(f"| **{heading}** | | |")
            for crate in crates:
                what = told.get(crate, "(to be said)")
                rows.append(f"| `{crate}` | {what} | {stands_on(crate, libraries_of)} |")
    return replaced(document, "| crate | what it does | stands on |", rows)


def proved(all_groups):
    document = read("docs/PROVED.md")
    counts = Counter(crate for crate, *_ in House().clauses)
    told = {row[0]: row[2] for row in (line[2:-2].split(" | ") for line in document.split("\n")) if len(row) == 3}
    rows = []
    for heading, crates in all_groups:
        if heading != TESTS:
            names = ", ".join(f"`{crate}` {counts[crate]}" if counts[crate] else f"`{crate}`" for crate in crates)
            rows.append(f"| {heading} | {names} | {told.get(heading, '(to be said)')} |")
    return replaced(document, "| group | crates, with how many public calls each has | not proved |", rows)


def made():
    """The path and the text of each document."""
    all_groups = groups()
    yield "docs/ARCHITECTURE.md", architecture(all_groups)
    yield "docs/PROVED.md", proved(all_groups)


if __name__ == "__main__":
    sys.exit(run(made))
