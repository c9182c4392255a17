"""Reads the cases of docs/cases that are sent to a running program.

A page is made of parts (`## `), sections (`### `), words, blocks of code and tables, and is read from top to bottom:

    ## Configurations    a block of code is a configuration; its section names it, alone it is the page's only one
    ## Documents         sections with tables are sets of documents, which others begin with; `Configuration `c`.` among the
                         words says over which indexes
    all other parts      tables of cases; `How it is written`, `What the replies follow` and `Open` have none

The heads of a table's columns say what its rows are:

    text, reply                   a text and its reply. Below `Set `s`.` all such rows are sent in turn to one session over the
                                  documents s; elsewhere each is sent to a session of its own over new, empty indexes
    sent before, its reply, ..    the same, behind a text that comes first in the same session
    packet, replies               a packet of the section's script, which begins with the documents of `Over the s.`; where a
                                  column `client` stands before it, A or B sends it
    packet, bytes                 the same, where the reply is told by its bytes
    packet, last bytes            the same, by those at its end
    sent, end, written            a line, by the bytes that are sent and written behind two texts that all have at their front:
                                  the codes of the page that stand alone
    sent in two, end, written     the same, cut at each place

What comes of it is a list of scripts: packets that are sent in turn to sessions over new indexes, with what is wanted.
"""

import re
from itertools import groupby
from typing import NamedTuple

from scripts.cases.tables import cells, read, text

FOLDER = "docs/cases"
WORDS = ("How it is written", "What the replies follow", "Open")
# Where a page names no configuration, it is this one, of statements.md.
USUAL_CONFIGURATION = "two"
# Statuses that are left out, as the statement about replies in statements.md has it.
USUAL_STATUS = re.compile(r"(?<![^⟨ ])(?:2|10): ")


class Step(NamedTuple):
    """A packet, as its page writes it, and what is wanted of its reply."""

    place: str  # the page and the line
    case: str  # the place of the case that it belongs to, empty of documents
    client: str
    packet: str
    wanted: str
    by_bytes: bool = False
    by_end: bool = False  # by the bytes at the end of the reply
    after: str = ""  # the job that was done before it, if one was


class Script(NamedTuple):
    """Steps that are taken in turn over new indexes. The first of them put the documents."""

    configuration: str
    steps: list


class Line(NamedTuple):
    """All the bytes that a client sends, how its line ends, and all the bytes that are written to it."""

    place: str
    sent: str
    end: str
    written: str
    is_cut: bool  # in two, anywhere


class Block(NamedTuple):
    """A table with the words before it, or the words and the code of a section without one."""

    page: str
    part: str
    section: str
    words: str
    code: str
    columns: tuple
    rows: list  # each with its place


def blocks(page):
    """The blocks of a page, from top to bottom."""
    part = section = ""
    words, code, columns, rows, in_code = [], [], (), [], False

    def block():
        made = Block(page, part, section, "\n".join(words), "\n".join(code), columns, list(rows))
        for some in (words, code, rows):
            some.clear()
        return made

    for number, line in enumerate(read(page).split("\n"), 1):
        row = None if in_code else cells(line)
        if columns and row is None and not line.startswith("|---"):
            yield block()
            columns = ()
        if line.startswith("```"):
            in_code = not in_code
        elif in_code:
            code.append(line)
        elif line.startswith(("## ", "### ")):
            if words or code:
                yield block()
            head = line.split(" ", 1)[1].strip("`")
            part, section = (head, "") if line.startswith("## ") else (part, head)
        elif row is None:
            words.append(line)
        elif not columns:
            columns = tuple(row)
        else:
            assert len(row) == len(columns), f"{page}:{number}"
            rows.append((f"{page}:{number}", row))
    if words or columns:
        yield block()


class Page:
    """What is read of a page: its configurations, its documents, and then its scripts and lines."""

    def __init__(self, name):
        self.path = f"{FOLDER}/{name}.md"
        self.configurations = {} if name == "statements" else Page("statements").configurations
        self.documents = {}
        self.scripts, self.lines = [], []
        for (part, section), some in groupby(blocks(self.path), lambda block: (block.part, block.section)):
            if part.startswith("Configuration"):
                self.configurations |= {section or USUAL_CONFIGURATION: block.code for block in some if block.code}
            elif part == "Documents":
                self.take_documents(section, list(some))
            elif part and part not in WORDS:
                self.take_cases(list(some))

    def take_documents(self, section, some):
        """A set of documents: the configuration, and the steps that put them."""
        configuration = named(some, "Configuration ", r"\.") or USUAL_CONFIGURATION
        steps = [step(place, "", block.columns, row) for block in some for place, row in block.rows]
        self.documents[section] = Script(self.configurations[configuration], steps)

    def begin(self, documents, configuration, steps):
        """A new script, over documents or over empty indexes."""
        over = self.documents[documents] if documents else Script(self.configurations[configuration], [])
        self.scripts.append(over._replace(steps=over.steps + steps))

    def take_cases(self, some):
        """The cases of a section."""
        over = named(some, "Over the ", "[.,:]")
        configuration = named(some, "Configuration ", "[.:]") or USUAL_CONFIGURATION
        packets, asked = [], None
        for block in some:
            asked = named([block], "Set ", r"\.") or asked
            if block.columns[-1:] == ("written",):
                self.take_lines(block)
            elif block.columns == ("text", "reply") and asked:
                self.begin(asked, configuration, [step(place, place, block.columns, row) for place, row in block.rows])
            elif block.columns[-2:] == ("text", "reply"):
                for place, row in block.rows:
                    self.begin(None, configuration, texts(place, row))
            else:
                packets += [(place, block.columns, row) for place, row in block.rows]
        if packets:
            case = packets[0][0]
            self.begin(over, configuration, [step(place, case, columns, row) for place, columns, row in packets])

    def take_lines(self, block):
        """The lines of a table, behind the response and the OK that the page has above them."""
        codes = [re.findall(r"^`(⟨.*⟩)`$", above.words, re.MULTILINE) for above in blocks(self.path)]
        response, accepted = sum(codes, [])
        is_cut = block.columns[0] == "sent in two"
        for place, (sent, end, written) in block.rows:
            self.lines.append(Line(place, response + text(sent), end, accepted + text(written), is_cut))


def named(some, before, after):
    """What the words of blocks name between these two."""
    found = re.search(rf"^{before}`?(\w+)`?{after}", "\n".join(block.words for block in some), re.MULTILINE)
    return found and found[1]


def texts(place, row):
    """The steps of a text, and of the one that is sent before it."""
    pairs = [row[at : at + 2] for at in range(0, len(row), 2) if row[at]]
    return [step(place, place, ("text", "reply"), pair) for pair in pairs]


def step(place, case, columns, row):
    """The step of a row."""
    client = "A"
    if columns[0] == "client":
        client, columns, row = row[0], columns[1:], row[1:]
    packet, wanted = map(text, row)
    assert client in ("A", "B"), place
    if columns == ("packet", "replies"):
        wanted = USUAL_STATUS.sub("", wanted)
    else:
        known = (("packet", "bytes"), ("packet", "last bytes"), ("text", "reply"))
        assert columns in known, f"{place}: no table of cases has the columns {columns}"
    return Step(place, case, client, packet, wanted, columns[-1].endswith("bytes"), columns[-1] == "last bytes")


def copies_of(part, first, last):
    """The copies of a part that have these numbers, each with its own for `#`."""
    between = " " if part.endswith(";") or part.startswith("FACET") else ", "
    return between.join(part.replace("#", str(number)) for number in range(first, last + 1)).encode()


def spelled(short):
    """What stands between `⟨` and `⟩`, written out: copies, or bytes."""
    copies = re.fullmatch(r"(.*) × (?:(\d+)\.\.)?(\d+)", short, re.DOTALL)
    if copies:
        part, first, last = copies.groups()
        return copies_of(part, int(first or 1), int(last))
    repeated = re.fullmatch(r"(\d+) times (.*)", short, re.DOTALL)
    if repeated:
        return repeated[2].encode() * int(repeated[1])
    return bytes.fromhex(short.removeprefix("byte "))


def written_out(short):
    """The bytes of a text as the pages write it."""
    parts = re.split(r"⟨(.*?)⟩", short, flags=re.DOTALL)
    return b"".join(spelled(part) if number % 2 else part.encode() for number, part in enumerate(parts))
