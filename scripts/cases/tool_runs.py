"""Looks at the directories of docs/cases/directories.md by the tool that was built, and compares what it says of them.

    python3 -m scripts.cases.tool_runs --tool TOOL --program PROGRAM [--line LINE] [--longest SECONDS]

Each directory is written to an empty folder, which is removed afterwards; four run side by side. The daemon's `check` says of it
what it says, over a copy, and the tool's has to say the same: the damage with its file, its place and its words, or the same
documents, chunks and records. The lines of chunks, words and places are worked out from the bytes alone, by the second reader
(`stored`). The tool leaves the folder as it was: no file is made, removed or changed, and no lock taken.

A directory is one case, and so is each list of words over a folder that isn't there, is empty, has no rights, or prints to a full
disk. Words are asked for in other letters than they are kept in.
"""

import os
import re
import shutil
import subprocess
import sys
import tempfile
from pathlib import Path

from scripts.cases.chunk_images import Image, Taken, read_list
from scripts.cases.directories import DOCUMENT, directories
from scripts.cases.runs import finish, lost, options, program_of, side_by_side
from scripts.cases.shown_documents import FIELDS, configuration, schema_of
from scripts.cases.stored import Wrong, read_root

KNOWN = {DOCUMENT: 1327}
IN_FIELD = 65536
# A word as it is asked for, and as it is kept.
ASKED, WORD = "Hello", "hello"
LETTERS = "A..Z->a..z, a..z"
NOBODY = 65534


def ran(command, folder, patience, before=None):
    """The status of a program in a folder, and all that it prints."""
    done = subprocess.run(command, cwd=folder, stdin=subprocess.DEVNULL, capture_output=True, timeout=patience, preexec_fn=before)
    return f"{done.returncode} {done.stdout.decode()}{done.stderr.decode()}"


def configured(index):
    """The configuration of an index whose words have the letters, each folded to a small one."""
    return re.sub("charset_table = .*", f"charset_table = {LETTERS}", configuration(index, WORD))


def written(folder, index, files):
    """Writes the files of an index, and its configuration."""
    (folder / index).mkdir()
    for name, data in files.items():
        (folder / index / name).write_bytes(data)
    (folder / "conf").write_text(configured(index), encoding="utf8")


def as_nobody():
    """Leaves the rights of the superuser, whom no folder shuts out."""
    if os.geteuid() == 0:
        os.setgid(NOBODY)
        os.setuid(NOBODY)


def as_the_tool(said, index):
    """What the daemon's check says, in the words of the tool's."""
    return said.replace("searchd: ", "indextool: ").replace(f"0 {index}: ", f"0 {index}: ok, ", 1)


def chunks_of(index, files):
    """The chunks that the root of a directory without damage names: the file, the dead rows and the image of each."""
    root = read_root(files)
    return [(file, dead, Image(schema_of(index)[0], files[file])) for file, _, dead in root[2].chunks] if root else []


def words_in(image):
    """The words of an image in their order, each with the places that it has in each row."""
    dictionary, lists = Taken(image.dictionary()), Taken(image.postings())
    for place in range(image.words):
        word = dictionary.bytes(dictionary.bytes(1)[0])
        yield word, read_list(lists, image.entry(place)[1], image.rows)


def chunk_lines(chunks):
    return "".join(f"chunk {file}: {image.rows} rows, {len(dead)} dead, {image.words} words, {len(image.data)} bytes\n" for file, dead, image in chunks)


def word_lines(chunks):
    return "".join(f"{file} {len(rows)} {word.decode()}\n" for file, _, image in chunks for word, rows in words_in(image))


def hit_lines(index, chunks, wanted):
    lines = []
    for file, dead, image in chunks:
        for word, rows in words_in(image):
            for row, hits in sorted(rows.items()):
                if word == wanted.encode() and row not in dead:
                    its_id = int.from_bytes(image.data[image.row_at(row) :][:8], "little")
                    lines += [f"{file} {its_id} {FIELDS[index][hit // IN_FIELD]} {hit % IN_FIELD}\n" for hit in hits]
    return "".join(lines)


def contents(folder):
    """All that a folder has, with the bytes of its files."""
    return {str(path.relative_to(folder)): path.read_bytes() for path in folder.rglob("*") if path.is_file()}


def asked(tool, folder, patience, index, mode, *more):
    return ran([tool, "--config", "conf", mode, index, *more], folder, patience)


def different(place, what, found, wanted):
    return [] if found == wanted else [f"{place}: {what} {found!r}, wanted {wanted!r}"[:800]]


def look(tool, program, directory, files):
    """What is wrong with what the tool says of a directory of these files."""
    index, place = directory.index, directory.place
    with tempfile.TemporaryDirectory(prefix="tool_runs.") as folder:
        folder = Path(folder)
        written(folder, index, files)
        shutil.copytree(folder, folder / "copy")
        before = contents(folder)
        try:
            said = ran([program.path, "check", "--config", "conf"], folder / "copy", program.patience())
            before = before | contents(folder)
            wanted = as_the_tool(said, index)
            found = [asked(tool, folder, program.patience(), index, mode, *more) for mode, *more in (("--check",), ("--dumpdict",), ("--dumphitlist", ASKED))]
        except (OSError, ValueError, subprocess.SubprocessError) as why:
            return [f"{place}: {why}"]
        wrong = different(place, "files", contents(folder), before)
    if not re.match("number|empty", directory.stands):
        return wrong + [line for said in found for line in different(place, "said", said, wanted)]
    try:
        chunks = chunks_of(index, {int(file): data for file, data in files.items()})
    except Wrong as why:
        return wrong + [f"{place}: read as {why}"]
    all_wanted = [wanted + chunk_lines(chunks), "0 " + word_lines(chunks), "0 " + hit_lines(index, chunks, WORD)]
    return wrong + [line for said, lines in zip(found, all_wanted) for line in different(place, "said", said, lines)]


def of_folders(tool, patience):
    """What is wrong with what the tool says of words and folders that no directory has."""
    wrong, cases = [], 0
    with tempfile.TemporaryDirectory(prefix="tool_runs.") as folder:
        folder = Path(folder)
        (folder / "conf").write_text(configured("one"), encoding="utf8")
        (folder / "bad").write_text("index one\n{\ntype = rt\nrt_feld = title\n}\n", encoding="utf8")
        usage, host = "2 indextool: bad arguments\n", "4 indextool: host fault\n"
        for words, wanted in [
            ([], usage),
            (["--config", "conf", "--check"], usage),
            (["--check", "one", "--config", "conf"], usage),
            (["--config", "conf", "--check", "one", "more"], usage),
            (["--config", "conf", "--dumphitlist", "one"], usage),
            (["--config", "conf", "--dumpdict", "one", "more"], usage),
            ([b"--config", b"conf", b"--dumphitlist", b"one", b"\xff"], usage),
            (["--config", "nowhere", "--check", "one"], host),
            (["--config", "bad", "--check", "one"], "3 indextool: config line 4: unknown key\n"),
            (["--config", "conf", "--check", "two"], "7 indextool: unknown index\n"),
            (["--config", "conf", "--check", "one"], host),
        ]:
            cases += 1
            wrong += different("words", words, ran([tool, *words], folder, patience), wanted)
        wrong += different("words", "files", sorted(contents(folder)), ["bad", "conf"])
        (folder / "one").mkdir()
        for words, wanted in [
            (["--check", "one"], "0 one: ok, 0 documents, 0 disk chunks, 0 log records\n"),
            (["--dumpdict", "one"], "0 "),
            (["--dumphitlist", "one", WORD], "0 "),
            (["--dumphitlist", "one", "x" * 42], "0 "),
            (["--dumphitlist", "one", "x" * 43], "0 "),
            (["--dumphitlist", "one", "!"], "0 "),
        ]:
            cases += 1
            wrong += different("words", words, ran([tool, "--config", "conf", *words], folder, patience), wanted)
        cases += 1
        with open("/dev/full", "wb") as full:
            done = subprocess.run([tool, "--config", "conf", "--check", "one"], cwd=folder, stdout=full, stderr=subprocess.PIPE)
        wrong += different("words", "a full disk", f"{done.returncode} {done.stderr.decode()}", host)
        wrong += different("words", "files", sorted(contents(folder)), ["bad", "conf"])
    return cases, wrong


def of_rights(tool, patience):
    """What is wrong with what the tool says where it may not read a configuration, a folder or a file."""
    wrong, cases = [], 0
    with tempfile.TemporaryDirectory(prefix="tool_runs.") as folder:
        folder = Path(folder)
        written(folder, "one", {"0": bytes(49), "2": b"\0"})
        folder.chmod(0o755)
        for place in (folder / "conf", folder / "one", folder / "one" / "0"):
            cases += 1
            rights = place.stat().st_mode
            place.chmod(0)
            said = ran([tool, "--config", "conf", "--check", "one"], folder, patience, as_nobody)
            place.chmod(rights)
            wrong += different("rights", place.name, said, "4 indextool: host fault\n")
    return cases, wrong


def of_two_words(tool, patience):
    """What is wrong with what the tool says of one document of two words in a chunk, line by line, and of one byte that is changed."""
    directory = next(one for one in directories() if one.stands == "number 2, through 2, above 0, chunks 1: 7 born 1 (hello world)")
    files = next(directory.whole_files())
    wrong = []
    with tempfile.TemporaryDirectory(prefix="tool_runs.") as folder:
        folder = Path(folder)
        written(folder, "one", files)
        questions = [
            (["--check", "one"], "0 one: ok, 1 documents, 1 disk chunks, 0 log records\nchunk 3: 1 rows, 0 dead, 2 words, 99 bytes\n"),
            (["--dumpdict", "one"], "0 3 1 hello\n3 1 world\n"),
            (["--dumphitlist", "one", "World"], "0 3 7 title 2\n"),
            (["--dumphitlist", "one", "word"], "0 "),
        ]
        for words, wanted in questions:
            wrong += different(directory.place, words, ran([tool, "--config", "conf", *words], folder, patience), wanted)
        chunk = bytearray(files["3"])
        chunk[86] = 0x61
        (folder / "one" / "3").write_bytes(chunk)
        for words, _ in questions:
            said = ran([tool, "--config", "conf", *words], folder, patience)
            wrong += different(directory.place, words, said, "5 indextool: index one: file 3 at 85: word order\n")
    return 2 * len(questions), wrong


def main():
    words = options(__doc__)
    words.add_argument("--tool", required=True, help="the tool to run")
    words.add_argument("--line", type=int, help="only the directories of this line of the page")
    given = words.parse_args()
    program, tool = program_of(given), str(Path(given.tool).resolve())
    some = [one for one in directories() if given.line is None or one.place.endswith(f":{given.line}")]
    jobs = [(directory, files) for directory in some for files in directory.whole_files()]
    cases, wrong = 0, []
    for tried in (of_folders, of_rights, of_two_words):
        more, said = tried(tool, program.patience())
        cases, wrong = cases + more, wrong + said
    wrong += ["\n".join(said) for said in side_by_side(lambda job: look(tool, program, *job), jobs) if said]
    known = KNOWN if given.line is None else {DOCUMENT: 1}
    return finish("tool_runs", len(jobs) + cases, wrong, lost(known, {DOCUMENT: len(jobs)}))


if __name__ == "__main__":
    sys.exit(main())
