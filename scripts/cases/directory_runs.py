"""Opens the directories of docs/cases/directories.md by the program that was built, and compares what it says of them.

    python3 -m scripts.cases.directory_runs --program PROGRAM [--line LINE] [--longest SECONDS]

Each directory is written to an empty folder, which is removed afterwards; four run side by side. `check` says which damage it
has, or how many documents, chunks and records it stands for. Where it stands for documents, a session
over it shows them: their ids and values, and of each word in each field how often it stands up to each position, in which zones,
and with which others it shares a sentence, a paragraph or a span; in a long field, of which not each position is tried, also
which others stand behind it (`shown_documents`). Then the session puts one document: the record that is written has the next
number, and a second check counts one more. What no session shows of a document, which commit put it and words that can't be
asked for, is left to the tests of `directory_vectors`.

A second reader (`stored`) says of each directory what it stands for; where that isn't what the page says, the case is wrong too.

A directory is one case.
"""

import re
import subprocess
import sys
import tempfile
from pathlib import Path

from scripts.cases.case_pages import Step
from scripts.cases.case_sessions import over_pipes
from scripts.cases.directories import DOCUMENT, directories, written_out
from scripts.cases.runs import finish, lost, options, program_of, side_by_side
from scripts.cases.shown_documents import Documents, configuration, schema_of
from scripts.cases.stored import stands_for

KNOWN = {DOCUMENT: 1327}
# The document that is put last, and the number behind which there is none.
PUT = 77
LAST_NUMBER = 2**63 - 1


def check(program, folder):
    """What a check says: its status and all that it prints."""
    command = [program.path, "check", "--config", "conf"]
    ran = subprocess.run(command, cwd=folder, stdin=subprocess.DEVNULL, capture_output=True, timeout=program.patience())
    return f"{ran.returncode} {ran.stdout.decode()}{ran.stderr.decode()}"


def counted(index, documents, chunks, records):
    return f"0 {index}: {documents} documents, {chunks} disk chunks, {records} log records\n"


def contents(folder):
    """The bytes of the numbered files of a folder."""
    return {path.name: path.read_bytes() for path in folder.iterdir() if path.name.isdecimal()}


def record_number(before, after):
    """The number of the one record that was appended to one file. None where no file changed."""
    changed = [name for name in after if before.get(name) != after[name]]
    if not changed and before.keys() == after.keys():
        return None
    name, = changed
    old = before[name].ljust(len(after[name]), b"\0")
    gate = next(at for at, (one, two) in enumerate(zip(old, after[name])) if one != two)
    assert after[name][gate] == 1, f"the gate at {gate} of the file {name} isn't open"
    return int.from_bytes(after[name][gate + 5 : gate + 13], "little")


def shown(program, folder, directory, last, documents):
    """What is wrong with a session over a directory whose last commit has this number, and with what it leaves."""
    before = contents(folder / directory.index)
    is_full = last == LAST_NUMBER
    wanted = f"ERR 1064 42000 numbers full at {LAST_NUMBER} needs 1" if is_full else "OK 1"
    put = f"INSERT INTO {directory.index} (id, title) VALUES ({PUT}, '')"
    pairs = [*documents.questions(), (put, wanted)]
    steps = [Step(directory.place, directory.place, "A", asked, wanted) for asked, wanted in pairs]
    wrong = [some.said() for some in over_pipes(program, folder, steps)]
    number = record_number(before, contents(folder / directory.index))
    if number != (None if is_full else last + 1):
        wrong.append(f"{directory.place}: the next record has the number {number} behind {last}")
    return wrong


def opened(program, folder, directory):
    """What is wrong with a directory that stands for documents."""
    stands = directory.stands.replace("empty index", "number 0, through 0, above 0: none")
    form = r"number (\d+), through (\d+), above (\d+)(?:, chunks (\d+))?: (.*)"
    last, through, records, chunks, told = re.fullmatch(form, stands).groups()
    last, records, chunks = int(last), int(records), int(chunks or 0)
    assert last == int(through) + records, directory.place
    documents = Documents(directory.index, told)
    (folder / "conf").write_text(configuration(directory.index, documents.characters()), encoding="utf8")
    found = [check(program, folder)]
    wrong = shown(program, folder, directory, last, documents)
    found.append(check(program, folder))
    more = last != LAST_NUMBER
    wanted = [counted(directory.index, len(documents.all) + one, chunks, records + one) for one in (0, more)]
    return wrong + [f"{directory.place}: {one}, wanted {two}" for one, two in zip(found, wanted) if one != two]


def read_otherwise(directory, files):
    """What the second reader says of a directory of these files, where it isn't what the page says."""
    found = stands_for(*schema_of(directory.index), {int(file): data for file, data in files.items()})
    return [] if found == written_out(directory.stands) else [f"{directory.place}: read as {found[:600]}"]


def run(program, directory, files):
    """What is wrong with one directory of these files."""
    return read_otherwise(directory, files) + opened_by(program, directory, files)


def opened_by(program, directory, files):
    """What is wrong with what the program makes of a directory of these files."""
    with tempfile.TemporaryDirectory(prefix="directory_runs.") as folder:
        folder = Path(folder)
        (folder / directory.index).mkdir()
        for name, data in files.items():
            (folder / directory.index / name).write_bytes(data)
        try:
            if re.match("number|empty", directory.stands):
                return opened(program, folder, directory)
            (folder / "conf").write_text(configuration(directory.index, "a"), encoding="utf8")
            found = check(program, folder)
        except (AssertionError, OSError, ValueError, subprocess.SubprocessError) as why:
            return [f"{directory.place}: {why}"]
    wanted = f"5 searchd: index {directory.index}: file {directory.stands}\n"
    return [] if found == wanted else [f"{directory.place}: {found}, wanted {wanted}"]


def main():
    words = options(__doc__)
    words.add_argument("--line", type=int, help="only the directories of this line of the page")
    given = words.parse_args()
    program = program_of(given)
    some = [one for one in directories() if given.line is None or one.place.endswith(f":{given.line}")]
    jobs = [(directory, files) for directory in some for files in directory.whole_files()]
    wrong = ["\n".join(said) for said in side_by_side(lambda job: run(program, *job), jobs) if said]
    known = KNOWN if given.line is None else {DOCUMENT: 1}
    return finish("directory_runs", len(jobs), wrong, lost(known, {DOCUMENT: len(jobs)}))


if __name__ == "__main__":
    sys.exit(main())
