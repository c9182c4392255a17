"""Cuts an extended query into its pieces, by the rules of docs/EXTENDED_QUERIES.md alone, with the default character table.

Places are those of bytes; before its first and behind its last byte a text has a blank. What only separates is no piece, nor is
a quoted piece without a word.
"""

import re
from typing import NamedTuple

LETTER = rb"[0-9A-Za-z_]|\xd0[\x81\x90-\xbf]|\xd1[\x80-\x8f\x91]"
WORD = re.compile(rb"\^?(?:\\?(?:%s))+\$?" % LETTER)
INNER_WORD = re.compile(rb"(?:\\?(?:%s))+" % LETTER)
QUOTED = re.compile(rb'"([^"]*)"(?:~(\d+)|/(0\.\d+)|/(\d+))?')
BOUND = rb'[ \t\r\n()"]'
OPERATOR = re.compile(rb"(?<=%s)(?:(MAYBE|SENTENCE|PARAGRAPH)|NEAR/(\d+))(?=%s)" % (BOUND, BOUND))
NOT = re.compile(rb'(?<=[ \t\r\n(|"])[-!](?=[^ \t\r\n])')
FIELDS = re.compile(rb"@!?(?:\*|([A-Za-z_]\w*)|\(([A-Za-z_]\w*(?:,[A-Za-z_]\w*)*)\))(?:\[(\d+)\])?", re.ASCII)
TAG = rb"[A-Za-z][A-Za-z0-9_:-]*"
ZONES = re.compile(rb"(ZONE|ZONESPAN):(?:(%s)|\((%s(?:,%s)*)\))" % (TAG, TAG, TAG))
RELAXED = re.compile(rb"@@relaxed(?!\w)", re.ASCII)
# `\` with what isn't a letter after it, and all else that isn't a piece.
APART = re.compile(rb"\\[\xc0-\xff][\x80-\xbf]*|\\.|[\xc0-\xff][\x80-\xbf]*|.", re.DOTALL)


class Piece(NamedTuple):
    """A piece: `word`, `quoted`, `numbered` (quoted with `~` or `/`), `(`, `)`, `|`, `<<`, `not`, `fields`, `zones`, `relaxed`,
    or the operators MAYBE, SENTENCE, PARAGRAPH and NEAR; `unclosed` is a quote without its end."""

    kind: str
    at: int
    words: int = 0
    names: tuple = ()
    number: bytes = None
    is_span: bool = False


def pieces(text):
    """The pieces of a text, from left to right; an unclosed quote is the last one."""
    text, at, behind_word = b" " + text + b" ", 1, False
    while at < len(text) - 1:
        piece, end = piece_at(text, at, behind_word)
        behind_word = piece is not None and piece.kind == "word" and text[end - 1 : end] != b"$"
        if piece and not (piece.kind in ("quoted", "numbered") and not piece.words):
            yield piece._replace(at=at - 1)
        at = end if piece is None or piece.kind != "unclosed" else len(text)


def piece_at(text, at, behind_word):
    """The piece at a place, None where one separates, and the place behind it."""
    sign = text[at : at + 1]
    if sign == b'"':
        return quoted_at(text, at)
    if text.startswith(b"<<", at):
        return Piece("<<", at), at + 2
    if sign in (b"(", b")", b"|"):
        return Piece(sign.decode(), at), at + 1
    if sign in (b"-", b"!") and NOT.match(text, at):
        return Piece("not", at), at + 1
    if sign == b"@":
        return fields_at(text, at)
    found = None if behind_word else OPERATOR.match(text, at)
    if found:
        return Piece(found[1].decode() if found[1] else "NEAR", at, number=found[2]), found.end()
    found = None if behind_word or text[at - 1 : at] == b"^" else ZONES.match(text, at)
    if found:
        return Piece("zones", at, names=named(found[2] or found[3]), is_span=found[1] == b"ZONESPAN"), found.end()
    found = WORD.match(text, at)
    if found:
        return Piece("word", at, 1), found.end()
    return None, min(APART.match(text, at).end(), len(text) - 1)


def quoted_at(text, at):
    found = QUOTED.match(text, at)
    if not found:
        return Piece("unclosed", at), len(text)
    number = found[2] or found[3] or found[4]
    words = sum(1 for _ in INNER_WORD.finditer(escaped_apart(found[1])))
    return Piece("quoted" if number is None else "numbered", at, words, number=number), found.end()


def escaped_apart(inside):
    """What stands between quotes, with blanks for each `\\` and the character after it that is no letter."""
    return re.sub(rb"\\(?!%s)(?:[\xc0-\xff][\x80-\xbf]*|.)?" % LETTER, b" ", inside, flags=re.DOTALL)


def fields_at(text, at):
    relaxed = RELAXED.match(text, at) if at == 1 else None
    if relaxed:
        return Piece("relaxed", at), relaxed.end()
    found = FIELDS.match(text, at)
    if not found:
        return None, at + 1
    return Piece("fields", at, names=named(found[1] or found[2]), number=found[3]), found.end()


def named(names):
    return tuple(names.decode().lower().split(",")) if names else ()
