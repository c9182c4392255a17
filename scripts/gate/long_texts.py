"""Texts that are made of one sign or one part, written over and over, up to the longest that a packet may have."""

LARGEST = 8388608

# What texts are made of: the front, the part that is repeated, the end, and what is answered, `None` where it is no refusal.
MADE_OF = {
    ";": (b"", b";", b"", "syntax error at 0"),
    "(": (b"", b"(", b"", "syntax error at 0"),
    "backquotes": (b"", b"``", b"", "bad character at 0"),
    "comments that don't end": (b"", b"/* ", b"", "unclosed comment at 0"),
    "comments": (b"", b"/**/", b"", "syntax error at {length}"),
    "a quote that doesn't end": (b"'", b"\\'", b"", "unclosed quote at 0"),
    "pairs of quotes": (b"", b"''", b"", "syntax error at 0"),
    "a SELECT of names": (b"SELECT ", b"a,", b"a FROM rt", "unknown column 'a'"),
    "an IN of numbers": (b"SELECT id FROM rt WHERE id IN (", b"1,", b"1)", None),
    "an INSERT of rows": (b"INSERT INTO rt (id) VALUES ", b"(1),", b"(1)", "transaction above 10000 operations"),
    "a field of words": (b"INSERT INTO rt (id, title) VALUES (1, '", b"a ", b"')", "field 'title' above 65535 positions"),
    "a field of one word": (b"REPLACE INTO rt (id, title) VALUES (1, '", b"a", b"')", None),
    "a query of (": (b"SELECT id FROM rt WHERE MATCH('", b"(", b"')", "query: nesting above 32 at 32"),
    "a query of quotes": (b"SELECT id FROM rt WHERE MATCH('", b'""', b"')", None),
    "a query of words": (b"SELECT id FROM rt WHERE MATCH('", b"a ", b"')", "query: too many keywords at 510"),
    "a query of words behind NOT": (b"SELECT id FROM rt WHERE MATCH('-x ", b"a ", b"')", "query: too many keywords at 511"),
    "a query of ORs behind NOT": (b"SELECT id FROM rt WHERE MATCH('-x a", b"|a", b"')", "query: too many keywords at 511"),
    "a query of signs": (b"SELECT id FROM rt WHERE MATCH('", b"&", b"')", None),
    "a query of fields": (b"SELECT id FROM rt WHERE MATCH('", b"@(title,@", b"a')", "query: nesting above 32 at 289"),
}  # fmt: skip


def made(name, size):
    """A text of one make, of at most so many bytes."""
    front, part, end, _ = MADE_OF[name]
    return front + part * ((size - len(front) - len(end)) // len(part)) + end
