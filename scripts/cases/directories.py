"""Reads the directories of docs/cases/directories.md: the files of an index, and what they stand for."""

import re
from typing import NamedTuple

from scripts.cases.tables import cells, read

DOCUMENT = "docs/cases/directories.md"
NAMED = "one: directories that others begin with"
# Parts that have no directories.
TEXTS = ("How it is written", "Indexes", "What the rules are")

DOCUMENTS = r"none|\d+ born \d+ (?:\([^()]*\))+[^;()]*(?:; \d+ born \d+ (?:\([^()]*\))+[^;()]*)*"
IN_CHUNKS = r"chunk missing|chunk length|magic|sizes|row order|marks|word table|word order|postings|cover|dead rows|born|id twice"
DAMAGE = rf"\d+ at \d+: (?:(?:root|log|record) \w+|{IN_CHUNKS})"
STANDS = rf"empty index|{DAMAGE}|number \d+, through \d+, above \d+(?:, chunks \d+)?: (?:{DOCUMENTS})"
REPEATED = re.compile(r"⟨([^⟨⟩]+?)×(\d+)⟩")


class Directory(NamedTuple):
    """A row of the page, or one of those that it stands for where it has a range of bytes."""

    place: str  # the page and the line
    part: str
    index: str
    about: str
    # The bytes of each file by its number, in hexadecimal; `⟨x×n⟩` is x written n times, and with `-N` behind them the row is
    # as many directories and one more, in which the file lacks 0 to N bytes at its end.
    files: dict
    stands: str

    def spelled_files(self):
        """The files of each directory that the row stands for, spelled as they are, each with all of its bytes."""
        parted = {number: text.partition("-") for number, text in self.files.items()}
        most = max((int(lacking or 0) for _, _, lacking in parted.values()), default=0)
        for lacked in range(most + 1):
            yield {
                number: digits[: -2 * lacked if lacking and lacked else None]
                for number, (digits, _, lacking) in parted.items()
            }

    def whole_files(self):
        """The bytes of the files of each of them."""
        for files in self.spelled_files():
            yield {number: bytes.fromhex(written_out(digits)) for number, digits in files.items()}


def written_out(text):
    """A text in which `⟨x×n⟩` is written out."""
    return REPEATED.sub(lambda times: times.group(1) * int(times.group(2)), text)


def digits(text):
    """Bytes as they stand in the page, without blanks and commas."""
    found = re.sub(r"[ ,]", "", text)
    assert re.fullmatch(r"(?:[0-9a-f]{2}|⟨(?:[0-9a-f]{2})+×\d+⟩)*", found), text
    return found


def cut(old, first, last):
    """The first bytes, any number of them from `first` to `last`."""
    assert first <= last < len(old) // 2, old
    return old[: 2 * last] + (f"-{last - first}" if first < last else "")


def put(old, at, new):
    """Bytes with others in the place of as many that begin at a place."""
    assert 2 * at + len(new) <= len(old), old
    return old[: 2 * at] + new + old[2 * at + len(new):]


# The parts that change a file: what they say, and the bytes that they make of the file's.
CHANGES = {
    r"more (.*)": lambda old, new: old + digits(new),
    r"cut (\d+)": lambda old, size: cut(old, int(size), int(size)),
    r"cut ⟨(\d+)\.\.(\d+)⟩": lambda old, first, last: cut(old, int(first), int(last)),
    r"at (\d+): (.*)": lambda old, at, new: put(old, int(at), digits(new)),
    r"from (\d+): (.*)": lambda old, at, new: old[: 2 * int(at)] + digits(new),
}


def change(files, part):
    """Makes the change of a part that names a file."""
    file, colon, what = re.fullmatch(r"(\d+)(:?) (.*)", part).groups()
    if colon:
        files[file] = digits(what)
    elif what == "gone":
        del files[file]
    else:
        (how, said), = [(how, said) for form, how in CHANGES.items() if (said := re.fullmatch(form, what))]
        assert re.fullmatch("[0-9a-f]*", files[file]), part
        files[file] = how(files[file], *said.groups())


def files_of(text, named):
    """The files of a directory by their numbers."""
    if text == "no files":
        return {}
    files = {}
    for part in text.split("; "):
        if part.startswith("as "):
            files.update(named[part[3:]])
        else:
            change(files, part)
    return dict(sorted(files.items(), key=lambda file: int(file[0])))


def spread(text):
    """The texts of a row's files, one for each byte where it has a range of bytes."""
    found = re.search(r"(?<!cut )⟨([0-9a-f]{2})\.\.([0-9a-f]{2})⟩", text)
    if not found:
        return [text]
    first, last = (int(byte, 16) for byte in found.groups())
    return [text[: found.start()] + f"{byte:02x}" + text[found.end():] for byte in range(first, last + 1)]


def stands(text):
    """What a directory stands for, with its repetitions spelled as those of bytes are."""
    assert re.fullmatch(STANDS, text), text
    return re.sub(r"⟨(.+?) × (\d+)⟩", lambda times: f"⟨{times.group(1).replace('␣', ' ')}×{times.group(2)}⟩", text)


def directories():
    """All of them, from the top of the page; those that have names come to be known by them."""
    part, named = "", {}
    for number, line in enumerate(read(DOCUMENT).split("\n"), 1):
        if line.startswith("## "):
            part = line[3:]
            assert part in TEXTS or re.match("one: |two: ", part), part
        row = cells(line)
        if part in TEXTS or not row or len(row) != 4 or row[0] == "name":
            continue
        name, text, about, wanted = row
        for written in spread(text):
            files = files_of(written, named)
            if name:
                named[name] = files
            yield Directory(f"directories.md:{number}", part, part[:3], about, files, stands(wanted))
