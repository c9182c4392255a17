"""Tries the texts of docs/cases/texts.md by the program that was built.

    python3 -m scripts.cases.text_runs --program PROGRAM [--longest SECONDS]

Each text has an empty folder of its own, which is removed afterwards; four are tried side by side.

    configurations      `check` says the line and the kind of the first fault, or one line for each index
    indexes             SHOW TABLES, DESCRIBE, the folder of the index, and what becomes of a text in its first field
    character tables    one character is put into a field: its word is the value
    fields              the text is put into a field: its words, boundaries and spans are those of the record in the log

A line of the page is one case, and so is each field of the documents of docs/cases/evaluation.md whose words are worked out
there.
"""

import re
import subprocess
import sys
import tempfile
from pathlib import Path

from scripts.cases.case_pages import Step
from scripts.cases.case_sessions import over_pipes
from scripts.cases.evaluation_runs import quoted
from scripts.cases.log_records import Words, first_document
from scripts.cases.runs import finish, lost, options, program_of, side_by_side
from scripts.cases.texts import KNOWN, all_parts, written_out

ZONES = ("th", "i", "td", "em")
TOO_LONG = "ERR 1064 42000 field 'f' above 65535 positions"
UNKNOWN = "ERR 1064 42000 query: unknown zone 'nosuch' at 0"
EMPTY = re.compile(r"(?:\w+: 0 documents, 0 disk chunks, 0 log records\n)+")
# The character tables of fields, where it isn't the default one.
TABLES = {"Fields: a table with `!`": "a..z, !", "Fields: bytes of a word": "U+10428..U+1044F"}


class Different(Exception):
    """The program does something else than its line says."""


def replies(program, folder, line, asked):
    """Sends texts to a session, each with its reply. Different where one is another."""
    steps = [Step(line.place, line.place, "A", text, wanted) for text, wanted in asked]
    wrong = over_pipes(program, folder, steps)
    if wrong:
        raise Different("; ".join(f"{some.packet} ⇒ {some.found}, wanted {some.wanted}" for some in wrong))


def put(program, folder, line, text, reply="OK 1"):
    """Puts a document with a text in its field, and gives its words and spans."""
    replies(program, folder, line, [(f"INSERT INTO rt (id, f) VALUES (1, {quoted(text)})", reply)])
    return first_document((folder / "p" / "2").read_bytes()) if reply == "OK 1" else None


def configured(folder, *options):
    """Writes the configuration of an index with one field and these options."""
    lines = ["index rt {", "type = rt", "path = p", "rt_field = f", *options, "}", ""]
    (folder / "conf").write_text("\n".join(lines), encoding="utf8")


def fault(program, folder, line, by_kind):
    """Looks for the first fault of a configuration."""
    (folder / "data").mkdir()
    (folder / "conf").write_bytes(written_out(line.text))
    command = [program.path, "check", "--config", "conf"]
    ran = subprocess.run(command, cwd=folder, stdin=subprocess.DEVNULL, capture_output=True, timeout=program.patience())
    found = f"{ran.returncode} {ran.stdout.decode()}{ran.stderr.decode()}"
    if line.wanted == "none":
        is_wanted = ran.returncode == 0 and not ran.stderr and EMPTY.fullmatch(ran.stdout.decode())
    elif by_kind:
        is_wanted = re.fullmatch(rf"3 searchd: config line \d+: {line.wanted}\n", found)
    else:
        is_wanted = found == "3 searchd: config line {}: {}\n".format(*line.wanted.split(" ", 1))
    if not is_wanted:
        raise Different(found)


def folded(program, folder, line):
    """Looks which word a character makes by a table."""
    table, _, character = written_out(line.text).decode().rpartition(": ")
    configured(folder, *([f"charset_table = {table}"] if table != "default" else []))
    found = put(program, folder, line, character)
    word = b"" if line.wanted == "none" else written_out(line.wanted)
    if found.words != ([Words(word, 1, "")] if word else []) or found.spans:
        raise Different(str(found))


def told(found, part):
    """The words and spans of a field, as the lines of a part write them."""
    if part == "Fields: long texts":
        return f"{len(found.words)} words, {len(found.spans)} spans"
    if part == "Fields: bytes of a word":
        return str(len(found.words[0].word))
    if part == "Fields: the last position":
        return str(found.words[-1].position)
    words = ", ".join(f"{word.decode()} {position}{end}" for word, position, end in found.words)
    return f"{words} ⇒ " + ", ".join(f"{ZONES[zone]} {first}-{last}" for zone, first, last in found.spans)


def of_field(program, folder, line, part):
    """Looks for the words and spans of a text."""
    strip, sentences, text = written_out(line.text).decode().split(" ", 2)
    options = [f"html_strip = {strip}", f"index_sp = {sentences}"]
    options += [f"index_zones = {', '.join(ZONES)}"] if strip == "1" else []
    options += [f"charset_table = {TABLES[part]}"] if part in TABLES else []
    configured(folder, *options)
    if line.wanted == "too long":
        put(program, folder, line, text, TOO_LONG)
        return
    found = told(put(program, folder, line, text), part)
    if found != line.wanted:
        raise Different(found)


def of_index(program, folder, line):
    """Looks what an index has by its configuration."""
    characters, _, text = written_out(line.text).decode().partition("\n")
    (folder / "data").mkdir()
    (folder / "conf").write_text(text.replace("/var/", f"{folder}/"), encoding="utf8", newline="")
    named, rules, fields, attributes, zones, values = line.wanted.split(";")
    (name, path), fields, kinds, zones = named.split(), fields.split(), attributes.split(), zones.split()
    strips, has_ends = (word == "true" for word in rules.split())
    columns = [("id", "bigint"), *((field, "field") for field in fields), *zip(kinds[::2], kinds[1::2])]
    replies(program, folder, line, [
        ("SHOW TABLES", f"Index, Type | {name}, rt"),
        (f"DESCRIBE {name}", "Field, Type" + "".join(f" | {column}, {kind}" for column, kind in columns)),
    ])
    insert = f"INSERT INTO {name} (id, {fields[0]}) VALUES (1, {quoted(' '.join(characters))})"
    replies(program, folder, line, [(insert, "OK 1")])
    log = (folder / path.replace("/var/", f"{folder}/") / "2").read_bytes()
    found = first_document(log, len(fields), len(kinds) // 2)
    if [word.word.decode() for word in found.words] != [value for value in values.split() if value != "none"]:
        raise Different(str(found))
    of_rules(program, folder, line, (name, fields[0], strips, has_ends, zones))


def of_rules(program, folder, line, index):
    """Looks what an index takes out of a text, and which ends and zones it keeps and knows."""
    name, field, strips, has_ends, zones = index
    text = "a<u>b</u>! " + " ".join(f"<{zone}>c</{zone}>" for zone in (*zones, "th"))
    replies(program, folder, line, [
        (f"INSERT INTO {name} (id, {field}) VALUES (2, {quoted(text)})", "OK 1"),
        (f"SELECT id FROM {name} WHERE MATCH('ab')", "id | 2" if strips else "id"),
        (f"SELECT id FROM {name} WHERE MATCH('\"a u b\"')", "id" if strips else "id | 2"),
        (f"SELECT id FROM {name} WHERE MATCH('{'ab' if strips else 'a'} SENTENCE c')", "id" if has_ends else "id | 2"),
        *((f"SELECT id FROM {name} WHERE MATCH('ZONE:{zone} c')", "id | 2") for zone in zones),
        (f"SELECT id FROM {name} WHERE MATCH('ZONE:nosuch c')", UNKNOWN if zones else "id | 2"),
    ])


def run(program, part, line):
    """What is wrong with a line, None where nothing is."""
    with tempfile.TemporaryDirectory(prefix="text_runs.") as folder:
        folder = Path(folder)
        try:
            if part.startswith("Configurations"):
                fault(program, folder, line, part.endswith("by the kind alone"))
            elif part == "Indexes":
                of_index(program, folder, line)
            elif part == "Character tables":
                folded(program, folder, line)
            else:
                of_field(program, folder, line, part)
        except (Different, AssertionError, OSError, ValueError, IndexError, subprocess.SubprocessError) as why:
            return f"{line.place}: {line.text[:200]}: {str(why)[:600]}, wanted {line.wanted[:300]}"
    return None


def main():
    program, parts = program_of(options(__doc__).parse_args()), all_parts()
    jobs = [(part, line) for part, lines in parts.items() for line in lines]
    wrong = list(filter(None, side_by_side(lambda job: run(program, *job), jobs)))
    return finish("text_runs", len(jobs), wrong, lost(KNOWN, {part: len(lines) for part, lines in parts.items()}))


if __name__ == "__main__":
    sys.exit(main())
