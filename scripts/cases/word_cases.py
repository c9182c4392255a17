"""Writes the lists of words of docs/cases/words.md whose values no run shows as the constant that the test of the command line
runs over: addresses and numbers. All lists are tried by word_runs.py.

At the top of the repository: python3 -m scripts.cases.word_cases [--check]
"""

import sys

from scripts.cases.command_words import DOCUMENT, lists
from scripts.cases.tables import constant, run

FILE = "crates/command_vectors/src/words.rt"

HEAD = f"""//! Lists of words of {DOCUMENT}, as `word_cases` of scripts/ writes them: edit them there. The words stand with `|`
//! between, and behind ` ⇒ ` what they stand for: an address and the numbers of workers and sessions, or the numbers of a selftest.
"""


def line(words, values):
    written = "|".join(word.decode() for word in words)
    assert written.count("|") == len(words) - 1 and " ⇒ " not in written and "\n" not in written, written
    return f"{written} ⇒ {' '.join(value for name, value in values.items() if name != 'config')}"


def made():
    lines = [line(one.words, one.values) for one in lists() if one.mode in ("serve", "selftest")]
    yield FILE, HEAD + "\n" + constant("Lists of the modes `serve` and `selftest`.", "WORDS", lines)


if __name__ == "__main__":
    sys.exit(run(made))
