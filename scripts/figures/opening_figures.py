"""Measures what an index costs to open from chunks, beside opening it from a log.

    python3 -m scripts.figures.opening_figures --program PROGRAM [--docs N] [--logged N] [--chunks N] [--rounds N] [--folder FOLDER]

The documents are those of scripts/figures/hundred_words.py. A daemon puts some of them into a log and is killed; chunk files of the
others are written here, by the rules of docs/FILES.md alone. In each round `check` opens the one folder and then the other, and
a line is printed of each: processor time of a document, the clock, and the most memory. Further options, with what they are without
being given:

    --docs 100000   documents in chunks
    --logged 45000  documents in the log
    --chunks 1      chunks, each of the same number of documents
    --rounds 3      how many times
    --folder        where the indexes stand: /dev/shm, a folder in memory
"""

import argparse
import re
import subprocess
import sys
import tempfile
from pathlib import Path

from scripts.cases.chunk_images import MAGIC, little, places, short
from scripts.cases.image_runs import CLOSED, root
from scripts.clients.daemon import COLUMNS, Daemon
from scripts.figures import hundred_words as documents

INDEX = "rt"
ROW = re.compile(r"\((\d+), '(.*)', '(.*)', (\d+), (\d+), (\d+), (\d+)\)")
# The files of the folder with chunks: two logs, and chunks from the third on.
OLDER, NEWER, FIRST = 2, 3, 4


class Lists:
    """Posting lists that grow row by row."""

    def __init__(self):
        self.bytes, self.rows, self.last = {}, {}, {}

    def add(self, row, hits_of):
        """Adds the hits of a row, by words."""
        for word, hits in hits_of.items():
            spelled, before = short(len(hits)), 0
            for hit in hits:
                spelled += short(hit - before)
                before = hit
            entry = short(row - self.last.get(word, -1)) + short(len(spelled)) + spelled
            self.bytes.setdefault(word, bytearray()).extend(entry)
            self.rows[word] = self.rows.get(word, 0) + 1
            self.last[word] = row


def hits_of(*fields):
    """The hits of a row, by words."""
    found = {}
    for number, words in enumerate(fields):
        for position, word in enumerate(words, 1):
            found.setdefault(word, []).append(number * 65536 + position)
    return found


def image_of(numbers):
    """The image of the documents with these ids, each put by the commit of its number."""
    columns, marks, lists, at = [], [], Lists(), 0
    for row, number in enumerate(numbers):
        its_id, title, content, *values = ROW.fullmatch(documents.row(number)).groups()
        title, content = title.encode().split(), content.encode().split()
        mark = b"".join(map(short, (len(title), 0, len(content), 0, 0)))
        columns.append(little(int(its_id), number, *map(int, values), size=8) + little(at))
        marks.append(mark)
        at += len(mark)
        lists.add(row, hits_of(title, content))
    words = sorted(lists.bytes)
    entries = [bytes([len(word)]) + word for word in words]
    postings = [lists.bytes[word] for word in words]
    counts = little(len(columns)) + little(2, 4, size=2)
    sizes = little(len(words), at, sum(map(len, entries)), sum(map(len, postings)))
    starts = zip(words, places(entries), places(postings))
    table = [little(entry, lists.rows[word], list_at) for word, entry, list_at in starts]
    return b"".join([MAGIC, counts, sizes, *columns, *marks, *table, *entries, *postings])


def text_of(columns):
    """The text of the columns that a root has."""
    words = (column.replace("rt_attr_", "").replace("rt_field", "field").split(" = ") for column in columns)
    return "".join(f"{kind} {name}\n" for kind, name in words).encode()


def write_chunks(folder, docs, chunks):
    """Writes the files of an index whose documents stand in chunks; how many bytes the chunks have."""
    folder.mkdir()
    entries, total = [], 0
    for place in range(chunks):
        image = image_of(range(1 + docs * place // chunks, 1 + docs * (place + 1) // chunks))
        (folder / str(FIRST + place)).write_bytes(image)
        entries.append((FIRST + place, len(image), []))
        total += len(image)
    (folder / "0").write_bytes(root(text_of(COLUMNS), docs, FIRST + chunks, (OLDER, NEWER), entries))
    for log in (OLDER, NEWER):
        (folder / str(log)).write_bytes(CLOSED)
    return total


def write_log(daemon, docs):
    """Has a daemon put documents into its log, and kills it."""
    daemon.start()
    client = daemon.client()
    documents.load(client, 1, docs, 100)
    client.quit()
    daemon.kill()


# A process that is started counts the memory of the one that started it among its own, so a small one starts the program.
STARTER = """
import os, subprocess, sys, time
begun = time.perf_counter()
process = subprocess.Popen(sys.argv[1:])
_, _, used = os.wait4(process.pid, 0)
print(used.ru_utime + used.ru_stime, time.perf_counter() - begun, used.ru_maxrss * 1024)
"""


def opened(command):
    """What `check` says, its seconds of processors and by the clock, and the most bytes of memory."""
    ran = subprocess.run([sys.executable, "-c", STARTER, *command], stdout=subprocess.PIPE, check=True, text=True)
    said, figures = ran.stdout.strip().split("\n")
    worked, waited, memory = map(float, figures.split())
    return said, worked, waited, memory


def told(name, command, docs):
    said, worked, waited, memory = opened(command)
    return (
        f"{name}: {worked / docs * 1e6:.2f} us of processor a document, {worked:.2f} s in all, {waited:.2f} s by the clock, "
        f"{memory / 2**20:.0f} MB at most ({said})"
    )


def main():
    words = argparse.ArgumentParser(description=__doc__.split("\n\n", maxsplit=1)[0])
    words.add_argument("--program", required=True)
    for name, number in (("docs", 100000), ("logged", 45000), ("chunks", 1), ("rounds", 3)):
        words.add_argument(f"--{name}", type=int, default=number)
    words.add_argument("--folder", default="/dev/shm")
    given = words.parse_args()
    with tempfile.TemporaryDirectory(dir=given.folder) as folder:
        folders = [Path(folder) / name for name in ("log", "chunks")]
        for each in folders:
            each.mkdir()
        logged, chunked = (Daemon(given.program, each, {INDEX: COLUMNS}, 1) for each in folders)
        write_log(logged, given.logged)
        size = write_chunks(folders[1] / INDEX, given.docs, given.chunks)
        print(f"{given.docs} documents in {given.chunks} chunks of {size} bytes", flush=True)
        for _ in range(given.rounds):
            for name, daemon, docs in (("log", logged, given.logged), ("chunks", chunked, given.docs)):
                print(told(name, [given.program, "check", *daemon.command[2:4]], docs), flush=True)
    return 0


if __name__ == "__main__":
    sys.exit(main())
