"""Draws texts of SphinxQL as somebody sends them who means harm: statements, mended and broken ones, and fragments.

Few of them are right as they are drawn; how each is read is told by scripts/readers. All hang on the draws alone.
"""

# The columns of the two indexes of a client; the second has zones.
COLUMNS = ("id", "title", "content", "gid", "flag", "price", "seen")
WORDS = """select from where match and group by within order having limit option facet as asc desc insert replace into values delete
in not between begin start transaction commit rollback set autocommit names global session flush ramchunk rtindex optimize index
truncate describe show status meta tables warnings variables databases count distinct min max sum weight groupby database null
ranker max_matches field_weights comment max_query_time proximity wordcount none nosuch rt""".split()
SIGNS = "( ) , ; * = != <> < > <= >= - . / ! @ @@x @@version_comment ` ' \" /* */ /**/ [ ] { } # % \\".split()
NUMBERS = "0 1 2 007 31 32 255 1000 65535 65536 100000 100001 4294967295 4294967296 9223372036854775807 9223372036854775808 " \
    "18446744073709551615 18446744073709551616 99999999999999999999 1.5 1. .5 12abc".split()
TEXTS = [
    "''", "'a'", '"b c"', "'it\\'s'", "'привет мир'", "'\\0\\n\\r\\t\\\\'", "'<th>x</th> y.'", '"\\""', "'a", '"', "'\\",
]  # fmt: skip
QUERY_PARTS = """a b c Ab я привет "a "a_b" "a_b_c"~2 "a_b"/1 "a_b"/0.5 "a"/0 ""/0 " ( ) | << NEAR/3 NEAR/0 NEAR/99999 MAYBE SENTENCE
PARAGRAPH - ! -a !b @title @nosuch @(title,content) @!title @* @!* @title[3] @title[0] @ ZONE:th ZONE:nosuch ZONESPAN:th
ZONESPAN:(th,td) @@relaxed ^a b$ ^ $ \\ \\( \\a \\" ~3 /2 [2] & = * 42 a-b a@title a"b a|b (a) (-a) (a|b) maybe near/3""".split()
FIELD_PARTS = ("a", "b", "c", "Привет", "x.", "<th>", "</th>", "'", "\\")
OPTIONS = """ranker=proximity ranker=matchany ranker=bm25 ranker=5 ranker='none' max_matches=10 max_matches=0 max_matches=100001
max_matches=x field_weights=(title=2,content=3) field_weights=(title=0) field_weights=(gid=1) field_weights=(nosuch=1)
field_weights=(title=1,title=2) field_weights=title ranker=expr ranker=foo('1') comment=f('1') comment='c' comment=(a=1) max_query_time=5 cutoff=1""".split()
KEYS = ["id", "gid", "price", "title", "nosuch", "w", "WEIGHT()", "COUNT(*)", "seen"]
ITEMS = ["*", "id", "gid", "price", "flag", "seen", "title", "nosuch", "WEIGHT()", "COUNT(*)", "COUNT(DISTINCT gid)", "MIN(price)",
         "MAX(id)", "SUM(gid)", "SUM(title)", "GROUPBY()", "weight", "count", "MIN(nosuch)"]  # fmt: skip


class Texts:
    """Texts over the indexes of these names, by some draws."""

    def __init__(self, draws, names):
        self.draws, self.names = draws, names

    def of(self, *some):
        return self.draws.choice(some)

    def chance(self, share):
        return self.draws.random() < share

    def text(self):
        """A text, as bytes."""
        kinds = (self.one, self.broken, self.fragments, self.asked, self.several, self.noise, self.long)
        made = self.draws.choices(kinds, (30, 26, 18, 15, 6, 4, 1))[0]()
        return made if isinstance(made, bytes) else made.encode("utf-8", "surrogateescape")

    def one(self):
        """A statement."""
        made = self.draws.choices((self.select, self.insert, self.delete, self.other), (45, 25, 10, 20))[0]()
        return made.swapcase() if self.chance(0.05) else made

    def index(self):
        return self.draws.choices((*self.names, "nosuch"), (60, 35, 5))[0]

    def number(self):
        return self.of(*NUMBERS[:19]) if self.chance(0.1) else str(self.draws.randrange(200))

    def column(self):
        return "nosuch" if self.chance(0.03) else self.of(*COLUMNS)

    def keys(self, most):
        return ", ".join(self.of(*KEYS) + self.of("", " ASC", " DESC") for _ in range(self.draws.randint(1, most)))

    def condition(self):
        if self.chance(0.4):
            return f"MATCH({quoted(self.query())})"
        column = self.of("id", "gid", "price", "seen", "flag", self.column())
        numbers = [self.of("", "-") + self.number() for _ in range(2)]
        return column + self.of(
            f" {self.of('=', '!=', '<>', '<', '>', '<=', '>=')} {numbers[0]}", f" IN ({', '.join(numbers)})",
            f" NOT IN ({numbers[0]})", f" BETWEEN {numbers[0]} AND {numbers[1]}",
        )  # fmt: skip

    def query(self):
        """The text of a MATCH."""
        parts = [self.of(*QUERY_PARTS).replace("_", " ") for _ in range(self.draws.randint(0, 8))]
        return self.of(" ", " ", " ", "", "\t").join(parts)

    def select(self):
        plain = self.chance(0.6)
        items = ", ".join(
            self.of(*(ITEMS[:6] if plain else ITEMS)) + self.of("", "", "", " AS w", " g") for _ in range(self.draws.randint(1, 4))
        ).replace("* AS w", "*").replace("* g", "*")
        text = f"SELECT {items} FROM {self.index()}"
        if self.chance(0.6):
            text += " WHERE " + " AND ".join(self.condition() for _ in range(self.of(1, 1, 1, 2, 3)))
        for share, clause in (
            (0.2, lambda: " GROUP BY " + self.column()),
            (0.06, lambda: " WITHIN GROUP ORDER BY " + self.keys(2)),
            (0.06, lambda: f" HAVING {self.of('COUNT(*)', 'w', self.column())} > {self.number()}"),
            (0.3, lambda: " ORDER BY " + self.keys(3)),
            (0.3, lambda: f" LIMIT {self.number()}" + self.of("", f", {self.number()}")),
            (0.2, lambda: " OPTION " + ", ".join(self.of(*OPTIONS) for _ in range(self.of(1, 1, 2)))),
            (0.1, lambda: f" FACET {self.column()}" + self.of("", " ORDER BY COUNT(*)", f" ORDER BY {self.column()}", " LIMIT 3")),
        ):
            text += clause() if self.chance(share) else ""
        return text

    def insert(self):
        index, columns = self.index(), None
        if self.chance(0.6):
            columns = [name for name in COLUMNS if name == "id" or self.chance(0.5)]
            self.draws.shuffle(columns)
            columns += [self.column()] if self.chance(0.1) else []
            columns = columns if self.chance(0.97) else [name for name in columns if name != "id"] or ["gid"]
        width = columns if columns is not None else COLUMNS if index != self.names[1] else COLUMNS[:4]
        rows = ", ".join(self.row(width) for _ in range(self.of(1, 1, 2, 5)))
        named = "" if columns is None else f" ({', '.join(columns)})"
        return f"{self.of('INSERT', 'REPLACE')} INTO {index}{named} VALUES {rows}"

    def row(self, columns):
        values = [self.value(name) for name in columns]
        values += [self.number()] if self.chance(0.03) else []
        return f"({', '.join(values)})"

    def value(self, column):
        if self.chance(0.03):
            return self.of("''", "-1", self.number())
        if column in ("title", "content", "nosuch"):
            return quoted(" ".join(self.of(*FIELD_PARTS) for _ in range(self.draws.randrange(6))))
        return self.of("0", "1") if column == "flag" else self.number()

    def delete(self):
        ids = ", ".join(self.number() for _ in range(self.of(1, 1, 2, 8)))
        return f"DELETE FROM {self.index()} WHERE ID " + self.of(f"= {self.number()}", f"IN ({ids})")

    def other(self):
        index = self.index()
        usual = ("BEGIN", "START TRANSACTION", "COMMIT", "ROLLBACK", f"SET AUTOCOMMIT = {self.of(0, 1, 1, 1, 2)}")
        rare = (f"FLUSH RAMCHUNK {index}", f"FLUSH RTINDEX {index}", f"OPTIMIZE INDEX {index}", f"TRUNCATE RTINDEX {index}")
        shown = (
            "SHOW META", "SHOW TABLES", "SHOW WARNINGS", "SHOW VARIABLES", "SHOW DATABASES", f"SHOW INDEX {index} STATUS",
            f"DESCRIBE {index}", "SELECT @@version_comment LIMIT 1", f"SELECT @@x.y LIMIT {self.of(0, 1)}", "SELECT DATABASE()",
            "SET NAMES utf8", "SET NAMES 'utf8'", "SET GLOBAL x = -1", "SET SESSION @@a.b = 'c'", "SET `autocommit` = 0", "SET x = NULL",
        )  # fmt: skip
        return self.of(*rare) if self.chance(0.04) else self.of(*usual) if self.chance(0.5) else self.of(*shown)

    def broken(self):
        """A statement of which some bytes are others."""
        text = bytearray(self.one().encode())
        for _ in range(self.of(1, 1, 2, 3)):
            at = self.draws.randrange(len(text) + 1)
            part = bytes([self.draws.randrange(256)]) if self.chance(0.5) else self.of(*SIGNS, *NUMBERS, *WORDS, *TEXTS).encode()
            end = self.of(at, at, at + 1, at + len(part), self.draws.randint(at, len(text)))
            text[at:end] = self.of(part, part, b"", b" " + part + b" ")
        return bytes(text)

    def fragments(self):
        some = [self.of(*self.of(WORDS, SIGNS, NUMBERS, TEXTS, COLUMNS, self.names)) for _ in range(self.draws.randint(0, 14))]
        return self.of(" ", " ", " ", "", "\n", "/**/").join(some)

    def asked(self):
        """A SELECT whose query is the point."""
        return f"SELECT id FROM {self.of(*self.names)} WHERE MATCH({quoted(self.query())})"

    def several(self):
        count = self.of(2, 3, 5, 32, 33, 40)
        some = [self.one() if self.chance(0.2) else self.of("COMMIT", "SHOW META", self.other()) for _ in range(count)]
        return self.of(";", "; ", ";;" if self.chance(0.1) else ";").join(some) + self.of("", ";", " ;", ";'")

    def noise(self):
        return self.draws.randbytes(self.draws.randrange(40))

    def long(self):
        """A text at some limit or beyond it."""
        index, name = self.of(*self.names), "n" * self.of(63, 64, 65, 3000)
        several = lambda word, *counts: ", ".join([word] * self.of(*counts))
        return self.of(
            f"DESCRIBE {name}", f"DESCRIBE `{name}`", f"SELECT @@{name}", f"SELECT {several('id', 128, 129)} FROM {index}",
            f"SELECT id FROM {index} ORDER BY {several('id', 5, 6)}", f"SELECT id FROM {index}{' FACET gid' * self.of(16, 17)}",
            f"SELECT id FROM {index} WHERE MATCH('{'(' * self.of(32, 33)}a{')' * self.of(32, 33)}')",
            f"SELECT id FROM {index} WHERE MATCH('{'a ' * self.of(255, 256)}')",
            f"SELECT id FROM {index} WHERE MATCH('@{name} a')", f"SELECT id FROM {index} WHERE MATCH('ZONE:{name} a')",
            f"SELECT id FROM {index} WHERE MATCH('-a {'b ' * self.of(254, 255)})')", "'" * self.of(1, 2, 999), "/*" * 500, "(" * 999,
            f"SELECT id FROM {index} WHERE id IN ({several('1', 2, 3000)})",
            f"DELETE FROM {index} WHERE ID IN ({several('7', 10000, 10001)})",
        )  # fmt: skip


def quoted(text):
    """A text between quotes."""
    return "'" + text.replace("\\", "\\\\").replace("'", "\\'") + "'"
