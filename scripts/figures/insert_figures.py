"""Measures what documents cost to insert, to hold and to open again.

    python3 -m scripts.figures.insert_figures --program PROGRAM [--docs N] [--rows N] [--rounds N] [--folder FOLDER]

Each round starts a daemon over an empty folder, inserts N documents of 100 words (scripts/figures/hundred_words.py) in INSERTs of
so many rows, half of them into each of two indexes (a log ends before it has 100,000), one statement after the other, and
prints the processor time of a document, the longest statement, the memory that is left and the most that there was; then it
kills the daemon and has `check` open the folder. Further options, with what they are without being given:

    --docs 100000   documents in all
    --rows 1        documents of one INSERT
    --rounds 3      how many times
    --folder        where the indexes stand: /dev/shm, a folder in memory
"""

import argparse
import resource
import subprocess
import sys
import tempfile
import time
from pathlib import Path

from scripts.clients.daemon import COLUMNS, Daemon, most, processor, resident
from scripts.figures import hundred_words as documents

INDEXES = ["one", "two"]


def statements(docs, rows):
    """The INSERTs: the first half of the documents goes into one index, the others into the next one."""
    half = docs // 2
    for index, first, last in ((INDEXES[0], 1, half), (INDEXES[1], half + 1, docs)):
        for begin in range(first, last + 1, rows):
            yield documents.insert(range(begin, min(begin + rows, last + 1)), index)


def checked(daemon):
    """The seconds of processors, and by the clock, that `check` takes over the folder."""
    before, begun = resource.getrusage(resource.RUSAGE_CHILDREN), time.perf_counter()
    subprocess.run([daemon.command[0], "check", *daemon.command[2:4]], check=True, stdout=subprocess.DEVNULL)
    after = resource.getrusage(resource.RUSAGE_CHILDREN)
    worked = after.ru_utime - before.ru_utime + after.ru_stime - before.ru_stime
    return worked, time.perf_counter() - begun


def measured(program, texts, docs, folder):
    """One round, as a line."""
    daemon = Daemon(program, folder, {name: COLUMNS for name in INDEXES}, 2)
    daemon.start()
    client = daemon.client()
    pid, longest = daemon.process.pid, 0
    begun, worked = time.perf_counter(), processor(pid)
    for text in texts:
        before = time.perf_counter()
        client.query(text)
        longest = max(longest, time.perf_counter() - before)
    worked, lasted = processor(pid) - worked, time.perf_counter() - begun
    held, peak = resident(pid) / 2**20, most(pid) / 2**20
    client.quit()
    daemon.kill()
    opened, waited = checked(daemon)
    return (
        f"{worked / docs * 1e6:.1f} us of processor a document, {lasted:.1f} s in all; the longest statement {longest * 1000:.0f} ms; "
        f"{held:.0f} MB held, {peak:.0f} MB at most; opened by check in {waited:.2f} s, {opened:.2f} s of processor"
    )


def main():
    words = argparse.ArgumentParser(description=__doc__.split("\n\n", maxsplit=1)[0])
    words.add_argument("--program", required=True)
    for name, number in (("docs", 100000), ("rows", 1), ("rounds", 3)):
        words.add_argument(f"--{name}", type=int, default=number)
    words.add_argument("--folder", default="/dev/shm")
    given = words.parse_args()
    texts = list(statements(given.docs, given.rows))
    for _ in range(given.rounds):
        with tempfile.TemporaryDirectory(dir=given.folder) as folder:
            print(measured(given.program, texts, given.docs, Path(folder)), flush=True)
    return 0


if __name__ == "__main__":
    sys.exit(main())
