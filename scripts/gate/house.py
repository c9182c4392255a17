"""Checks what no proof and no test looks at: that the repository's files agree with one another.

It refuses, by file and line,

    markers       marks that a merge left in a file
    links         relative links of README.md, CHANGELOG.md, docs/ and the crates' README.md to a file, or to a heading of
                  one, that isn't there
    dependencies  a library in a crate's line of crates.txt that neither its src/ nor its specs/ nor its proofs/ name; one
                  of the repository's that they name and the line has not. The toolchain wants no more: what a crate
                  below passes on, by `pub use`, in a type or in a clause, it finds by itself. What it does want beside a
                  library of the kit (`BESIDE`) may be listed
    tables        tables of tests that differ from what the scripts `*_cases.py` make of docs/cases, and tables of
                  documents that differ from what house_tables.py makes of crates.txt and the clauses
    scripts       a script that scripts/README.md doesn't name below its folder's heading

and says how many of each it looked at. Whatever it refuses counts as failed, and all else that it looked at as passed.

    python3 -m scripts.gate.house
"""

import importlib
import re
import subprocess
import sys
from pathlib import Path

from scripts.cases.tables import ROOT, difference
from scripts.gate import house_tables
from scripts.gate.last_line import ended

MARK = re.compile(r"(<<<<<<<|>>>>>>>)( |$)")
LINK = re.compile(r"\]\(([^)\s]+)\)")
CODE = re.compile(r"(`+)(?!`).*?(?<!`)\1(?!`)")
FENCE = re.compile(r"\s*```")
NAMED = re.compile(r"\b(?:Rattle\.(\w+)\.|(\w+)::|use (\w+)[;\s])")
# what the kit asks of whoever names a library: the ruled ends of left_right are made of the other two
BESIDE = {"left_right": {"crossbeam_utils", "atomic_table"}}
OWN_MODULE = re.compile(r"^\s*(?:pub(?:\(crate\))? )?mod (\w+)", re.M)


def tracked():
    """The files of the repository, also those that are to be added, as paths from its top."""
    listed = subprocess.run(
        ["git", "ls-files", "-z", "--cached", "--others", "--exclude-standard"], cwd=ROOT, check=True, capture_output=True
    )
    return sorted({path for path in listed.stdout.decode().split("\0") if path and (ROOT / path).is_file()})


def lines_of(path):
    """The lines of a text with their numbers, none of a file that is no text."""
    try:
        return list(enumerate((ROOT / path).read_text(encoding="utf8").split("\n"), 1))
    except UnicodeDecodeError:
        return []


def markers(paths):
    for path in paths:
        inside = False
        for number, line in lines_of(path):
            mark = MARK.match(line)
            if mark or (inside and line == "======="):
                yield path, number, f"a mark of a merge, {line[:7]}"
            if mark:
                inside = mark.group(1)[0] == "<"


def prose(path):
    """The lines of a Markdown file outside its blocks of code."""
    fenced = False
    for number, line in lines_of(path):
        if FENCE.match(line):
            fenced = not fenced
        elif not fenced:
            yield number, line


def anchors(path):
    """The anchors of a file's headings; a further heading of the same words has a number behind it."""
    seen = {}
    for _, line in prose(path):
        heading = re.match(r"#{1,6} +(.*?)[ #]*$", line)
        if heading:
            text = re.sub(r"\[([^]]*)\]\([^)]*\)", r"\1", heading.group(1)).replace("`", "")
            anchor = re.sub(r"[^\w\- ]", "", text.lower()).replace(" ", "-")
            seen[anchor] = seen.get(anchor, 0) + 1
            yield anchor if seen[anchor] == 1 else f"{anchor}-{seen[anchor] - 1}"


def is_document(path):
    return path.endswith(".md") and (path.startswith("docs/") or "/" not in path or re.fullmatch(r"crates/\w+/README.md", path))


def relative_links(paths):
    for path in filter(is_document, paths):
        for number, line in prose(path):
            for target in LINK.findall(CODE.sub("", line)):
                if not re.match(r"\w+:", target):
                    yield path, number, target


def dead_links(links, paths):
    there = set(paths) | {str(parent) for path in paths for parent in Path(path).parents}
    for path, number, target in links:
        name, _, anchor = target.partition("#")
        file = (ROOT / path).parent.joinpath(name).resolve() if name else ROOT / path
        inside = str(file.relative_to(ROOT)) if file.is_relative_to(ROOT) else None
        if inside not in there:
            yield path, number, f"a link to {target}, which isn't there"
        elif anchor and anchor not in anchors(inside):
            yield path, number, f"a link to {target}, a heading that isn't there"


def names_of(crate):
    """The libraries that a crate's files name, and its own modules, where paths may begin as well."""
    named, own = set(), set()
    for folder, comment in (("src", "//"), ("specs", "--"), ("proofs", "--")):
        for file in (ROOT / "crates" / crate / folder).rglob("*.*t*"):
            lines = file.read_text(encoding="utf8").split("\n")
            text = "\n".join(line for line in lines if not line.lstrip().startswith(comment))
            named.update(name for names in NAMED.findall(text) for name in names if name)
            own.update(OWN_MODULE.findall(text))
    return named, own


def dependencies():
    """The lines of crates.txt: the number, the crate and the libraries."""
    for number, line in lines_of("crates.txt"):
        crate, colon, libraries = line.split("#")[0].partition(":")
        if colon:
            yield number, crate.split()[0], libraries.split()


def wrong_dependencies(lines):
    crates = {crate for _, crate, _ in lines}
    for number, crate, listed in lines:
        named, own = names_of(crate)
        beside = set().union(*(BESIDE.get(library, set()) for library in listed))
        for library in listed:
            if library not in named | beside:
                yield "crates.txt", number, f"{crate} lists {library}, which nothing in it names"
        for library in sorted(named & crates - own - {crate} - set(listed)):
            yield "crates.txt", number, f"{crate} names {library}, which its line has not"


def made_tables(paths):
    """What the scripts make of docs/cases, of crates.txt and of the clauses: the script, the file and its text."""
    for path in paths:
        found = re.fullmatch(r"scripts/cases/(\w+_cases)\.py", path)
        if found:
            for file, text in importlib.import_module(f"scripts.cases.{found.group(1)}").made():
                yield path, file, text
    yield from (("scripts/gate/house_tables.py", file, text) for file, text in house_tables.made())


def differing_tables(tables):
    for script, file, text in tables:
        number = difference(file, text)
        if number:
            yield file, number, f"differs from what {script} makes"


def unnamed_scripts(paths):
    """Scripts that have no line in the README of scripts/; tests need none."""
    parts = ("\n" + (ROOT / "scripts" / "README.md").read_text(encoding="utf8")).split("\n## ")[1:]
    named = {part.split(":")[0]: re.findall(r"`(\w+)(?:\.py)?`", part) for part in parts}
    for path in paths:
        script = re.fullmatch(r"scripts/(?:(\w+)/)?(\w+)\.py", path)
        if script and script[1] != "tests" and script[2] != "__init__" and script[2] not in named.get(script[1], []):
            yield path, 1, "a script that scripts/README.md doesn't name below the heading of its folder"


def main():
    paths = tracked()
    links, lines, tables = list(relative_links(paths)), list(dependencies()), list(made_tables(paths))
    refused = [*markers(paths), *dead_links(links, paths), *wrong_dependencies(lines), *differing_tables(tables)]
    refused += unnamed_scripts(paths)
    for path, number, what in refused:
        print(f"{path}:{number}: {what}")
    listed = sum(len(libraries) for _, _, libraries in lines)
    print(f"files: {len(paths)}; links: {len(links)}; dependencies: {listed}; tables: {len(tables)}")
    return ended("house", max(0, len(paths) + len(links) + listed + len(tables) - len(refused)), len(refused))


if __name__ == "__main__":
    sys.exit(main())
