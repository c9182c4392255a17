"""Writes what a session doesn't show of the directories of docs/cases/directories.md, as the constants of the tests that open
them: which commit put each document, its boundaries, spans and words. The rest is asked of the program by directory_runs.py.

At the top of the repository: python3 -m scripts.cases.directory_cases [--check]
"""

import re
import sys

from scripts.cases.directories import DOCUMENT, directories, written_out
from scripts.cases.tables import constant, run

FILE = "crates/directory_vectors/src/directories.rt"

HEAD = f"""//! Directories of {DOCUMENT}, as `directory_cases` of scripts/ writes them: edit them there. A line is what the
//! directory is, ` | `, its files and ` ⇒ ` with how many documents, records and chunks are found in it, and what no session shows of the
//! documents. A file is its number, `=` and its bytes. `⟨x×n⟩` is x written n times.
"""

# The constants: the index, and what they are about.
TABLES = {
    "ONE_FIELD": ("one", "Directories of an index with one field."),
    "SIX_COLUMNS": ("two", "Directories of an index with two fields and four attributes."),
}
HIDDEN = re.compile(r"(\d+ born \d+) ((?:\([^()]*\))+)[^\[]*(.*)")
STANDS = re.compile(r"number .*, above (\d+)(?:, chunks (\d+))?: (?!none)(.*)")


def words_of(fields):
    """The words of fields, and what stands between them: `.` and `¶`."""
    return [word for field in re.findall(r"\(([^()]*)\)", fields) for word in written_out(field).split()]


def shortened(word):
    """A long word as it is written in a line."""
    return f"⟨{word[0]}×{len(word)}⟩" if len(word) > 40 and set(word) == {word[0]} else word


def by_bytes(word):
    return re.sub(r"\\u\{(.*?)\}", lambda code: chr(int(code.group(1), 16)), word).encode()


def hidden(documents):
    """What no session shows of documents: their commits, how many sentences and paragraphs end in them, their spans; and words."""
    told, words = "", set()
    for document in documents.split("; "):
        born, fields, spans = HIDDEN.fullmatch(document).groups()
        found = words_of(fields)
        words.update(set(found) - {".", "¶"})
        told += f"; {born}"
        if {".", "¶"} & set(found):
            told += f" {found.count('.')}. {found.count('¶')}¶"
        told += "".join(f" {span}" for span in re.findall(r"\[.*?\]", spans))
    return told + "".join(f" /{shortened(word)}" for word in sorted(words, key=by_bytes))


def lines_of(directory):
    """The lines of the directories of a row that has documents."""
    found = STANDS.fullmatch(directory.stands)
    if not found:
        return
    above, chunks, documents = found.groups()
    told = f"{documents.count('; ') + 1} {above} {chunks or 0}{hidden(documents)}"
    for files in directory.spelled_files():
        written = " ".join(f"{file}={digits}" for file, digits in files.items())
        assert " | " not in directory.about and " ⇒ " not in directory.about + written, directory.about
        yield f"{directory.about} | {written} ⇒ {told}"


def made():
    of = list(directories())
    file = HEAD
    for name, (index, about) in TABLES.items():
        lines = (line for directory in of if directory.index == index for line in lines_of(directory))
        file += "\n" + constant(about, name, lines, escapes=True)
    assert file.count("\n") < 400
    yield FILE, file


if __name__ == "__main__":
    sys.exit(run(made))
