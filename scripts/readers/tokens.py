"""Reads the tokens of a SphinxQL text, by the rules of docs/SPHINXQL.md alone.

What is read here is what a statement may say; nothing of it is taken from the program. A fault is a `Fault` with the text of
the refusal, whose code is 1064 and whose state 42000.
"""

import re
from typing import NamedTuple

LARGEST_NUMBER = 2**64 - 1
LONGEST_NAME = 64

RESERVED = frozenset(
    """and as asc between by desc distinct facet from group having in into limit match not null option order select values where
    within""".split()
)
KEYWORDS = RESERVED | frozenset(
    """autocommit begin commit count database databases delete describe flush global groupby id index insert max meta min names
    optimize ramchunk replace rollback rtindex session set show start status sum tables transaction truncate variables warnings
    weight""".split()
)

BETWEEN = re.compile(rb"(?:[ \t\r\n]|/\*.*?\*/)*", re.DOTALL)
TOKEN = re.compile(
    rb"(?P<name>[A-Za-z_][A-Za-z0-9_]*)"
    rb"|`(?P<quoted>[^`]*)`"
    rb"|@@(?P<sysvar>[A-Za-z_][A-Za-z0-9_.]*)"
    rb"|(?P<number>[0-9]+)"
    rb"|'(?P<single>[^'\\]*(?:\\.[^'\\]*)*)'"
    rb'|"(?P<double>[^"\\]*(?:\\.[^"\\]*)*)"'
    rb"|(?P<sign><>|<=|>=|!=|[(),;*=<>-])",
    re.DOTALL,
)
NAME = re.compile(rb"[A-Za-z_][A-Za-z0-9_]*")
ESCAPE = re.compile(rb"\\(.)", re.DOTALL)
CONTROLS = {b"n": b"\n", b"r": b"\r", b"t": b"\t", b"0": b"\0"}


class Fault(Exception):
    """The first fault of a text, as it is answered."""


class Token(NamedTuple):
    """A token: what the grammar sees of it, its value, and its place."""

    kind: str  # a keyword, a sign, or name, quoted, number, text, sysvar
    value: object  # the name in small letters, the number, the bytes of the text
    at: int


def lex(text):
    """The tokens of a text."""
    tokens, at = [], BETWEEN.match(text).end()
    while at < len(text):
        found = TOKEN.match(text, at)
        if not found:
            raise Fault(f"{no_token(text, at)} at {at}")
        tokens.append(token(found, text))
        at = BETWEEN.match(text, found.end()).end()
    return tokens


def no_token(text, at):
    """Why no token is at a place."""
    if text.startswith(b"/*", at):
        return "unclosed comment"
    return "unclosed quote" if text[at] in b"'\"`" else "bad character"


def token(found, text):
    kind, at = found.lastgroup, found.start()
    inside = found[kind]
    if kind == "sign":
        return Token(inside.decode(), None, at)
    if kind == "number":
        return Token("number", number(inside, at, text[found.end() : found.end() + 1] == b"."), at)
    if kind in ("single", "double"):
        return Token("text", unescaped(inside, at), at)
    if kind == "quoted" and not NAME.fullmatch(inside):
        raise Fault(f"bad character at {at}")
    if len(inside) > LONGEST_NAME:
        raise Fault(f"name too long at {at}")
    name = inside.decode().lower()
    return Token(name if kind == "name" and name in KEYWORDS else kind, name, at)


def number(digits, at, is_pointed):
    digits = digits.lstrip(b"0") or b"0"
    value = int(digits) if len(digits) <= 20 else LARGEST_NUMBER + 1
    if value > LARGEST_NUMBER:
        raise Fault(f"number too large at {at}")
    if is_pointed:
        raise Fault(f"number with a point at {at}")
    return value


def unescaped(inside, at):
    """What stands between quotes, without its escapes."""
    try:
        inside.decode()
    except UnicodeDecodeError:
        raise Fault(f"text is not UTF-8 at {at}") from None
    if b"\\" not in inside:
        return inside
    return ESCAPE.sub(lambda found: CONTROLS.get(found[1], found[1]), inside)
