"""What the scripts share that read the tables of docs/cases.

Those that make the tables of tests out of them are named `*_cases.py`. Each has a function `made`, which gives the path and
the text of each file that it makes. At the top of the repository `python3 -m scripts.cases.NAME` writes these files; with
--check it names those that differ instead, as scripts/gate/house.py does for all of them.
"""

import re
import sys
from itertools import zip_longest
from pathlib import Path

ROOT = Path(__file__).resolve().parents[2]


def read(path):
    return (ROOT / path).read_text(encoding="utf8")


def cells(line):
    """The cells of a table's row, None for any other line."""
    if not (line.startswith("| ") and line.endswith(" |")):
        return None
    return re.split(r" (?<!\\)\| ", line[2:-2])


def text(cell):
    """What a cell with a text says."""
    if cell == "(empty)":
        return ""
    inside = re.fullmatch(r"`` (.*) ``", cell) or re.fullmatch(r"`([^`]*)`", cell)
    assert inside, cell
    return inside.group(1).replace("\\|", "|")


def constant(about, name, lines, escapes=False):
    """A constant with a text of these lines. Where it has escapes, `\\u{..}` is a character."""
    lines = "\n".join(lines)
    before, after = ('"', '"') if escapes else ('r#"', '"#')
    assert after not in lines and "\t" not in lines
    return f"/// {about}\npub(crate) const {name}: &str = {before}\n{lines}\n{after};\n"


def difference(path, text):
    """The number of the first line in which a file differs from its text, None where it is the same."""
    there = read(path) if (ROOT / path).exists() else ""
    if there == text:
        return None
    both = zip_longest(there.split("\n"), text.split("\n"))
    return next(number for number, (old, new) in enumerate(both, 1) if old != new)


def run(made):
    """Writes the files, or with --check names those that differ; the exit status."""
    wrong = 0
    for path, text in made():
        if sys.argv[1:] != ["--check"]:
            (ROOT / path).write_text(text, encoding="utf8")
        elif line := difference(path, text):
            print(f"{path}:{line}: differs from what {Path(sys.argv[0]).name} makes")
            wrong += 1
    return 1 if wrong else 0
