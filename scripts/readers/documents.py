"""Tells how many words the texts of a row have, and how many bytes an operation takes in a transaction.

This is by docs/MANUAL.md alone, with the default character table, for indexes without markup and sentences. A folded word has as
many bytes as it had before, since the table folds each letter to one of equal length.
"""

import re

from scripts.readers.query_pieces import LETTER

WORD = re.compile(rb"(?:%s)+" % LETTER)
CUT = re.compile(rb"(?:%s){1,42}" % LETTER)
MOST_POSITIONS, MOST_BYTES = 65535, 8388608
FIRST_BYTES, KILL_BYTES = 4, 9


def words(text):
    return WORD.findall(text)


def put_bytes(index, texts):
    """The bytes of a row with these texts."""
    found = [word for text in texts for word in words(text)]
    fixed = 13 + 8 * len(index.attributes) + 4 * len(index.fields)
    return fixed + sum(2 + len(CUT.match(word)[0]) for word in found)
