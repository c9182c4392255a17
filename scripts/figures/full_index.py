"""Loads documents of 100 words into one index until it takes no more, and then searches them.

    python3 -m scripts.figures.full_index --program PROGRAM --folder FOLDER [--until N] [--texts N]

starts a daemon over FOLDER and sends INSERTs of 100 rows. Where the log is full it sends FLUSH, and where that is refused,
since there are 16 chunks or their images have as many bytes as there may be, OPTIMIZE. Where that is refused too, or N
documents are there, loading ends. Each job has a line: the documents, how long they have been loaded since the last job, as the
client sees it, without the making of their texts; the job and how long it took; the chunks that there are then, their bytes
and those of all files; the memory that the daemon has, and the most that it had during the job.

Then the daemon is killed, `check` opens the folder, and it is started once more. It is said how long either took and what
memory it had, and in a table how long SELECTs take: the classes of `beside_sphinx`, the mean of the texts of each.

FOLDER and what stands in it are left: a run that was ended is gone on with by the same words, and one that loaded a part by
another N.
"""

import argparse
import sys
import time
from pathlib import Path

from scripts.clients import jobs
from scripts.clients.daemon import COLUMNS, Daemon, forget_most, most, resident
from scripts.clients.mysql_client import Refused
from scripts.figures import hundred_words as documents
from scripts.figures.beside_sphinx import CLASSES, found, texts_of, timed
from scripts.figures.opening_figures import told

TOGETHER = 100


def megabytes(size):
    return f"{size / 2**20:,.0f} MB"


class Index:
    """An index that is loaded, over files that may be there already."""

    def __init__(self, program, folder):
        folder.mkdir(parents=True, exist_ok=True)
        self.files, self.begun = folder / "rt", time.perf_counter()
        self.daemon = Daemon(program, folder, {"rt": COLUMNS}, 2)
        self.open()
        self.documents, chunks = jobs.status(self.client, "rt")
        print(f"{self.documents:,} documents are there, in {chunks} chunks and the log")

    def open(self):
        """Starts the daemon, and gives the seconds until a client has a reply."""
        begun = time.perf_counter()
        self.daemon.start()
        self.client = self.daemon.client()
        self.client.query("SELECT COUNT(*) FROM rt")
        return time.perf_counter() - begun

    def load(self, until):
        """Adds documents until there are so many, or the index is full."""
        taken = done = 0
        while self.documents < until:
            text = documents.insert(range(self.documents + 1, min(self.documents + TOGETHER, until) + 1))
            begun = time.perf_counter()
            try:
                added = self.client.query(text).affected
            except Refused as refused:
                if not refused.text.startswith("log full at "):
                    raise
                print(f"| {self.documents:,} | {done:,} in {taken:.1f} s |", end=" ", flush=True)
                if not self.make_room():
                    return
                taken = done = 0
                continue
            taken += time.perf_counter() - begun
            self.documents += added
            done += added

    def make_room(self):
        """Empties the log by a job, and says what it cost; whether one could be done."""
        pid, refusals = self.daemon.process.pid, []
        for job in (jobs.FLUSH, jobs.OPTIMIZE):
            forget_most(pid)
            begun = time.perf_counter()
            refused = jobs.tried(self.client, job)
            if not refused:
                print(f"{''.join(refusals)}{job} {time.perf_counter() - begun:.2f} s | {self.held()} |", flush=True)
                return True
            if not refused.text.startswith(("chunks full at ", "images full at ")):
                raise refused
            refusals.append(f"{job} {refused.text}, {time.perf_counter() - begun:.2f} s; ")
        print(f"{''.join(refusals)}no more | {self.held()} |", flush=True)
        return False

    def held(self):
        """What chunks, files and memory there are."""
        pid, (_, chunks) = self.daemon.process.pid, jobs.status(self.client, "rt")
        sizes = sorted((file.stat().st_size for file in self.files.iterdir()), reverse=True)
        return (
            f"{chunks} | {megabytes(sum(sizes[:chunks]))} | {megabytes(sum(sizes))} | {megabytes(resident(pid))} | "
            f"{megabytes(most(pid))}"
        )

    def reopen(self):
        """Kills the daemon, has the folder checked, and starts it again."""
        self.daemon.kill()
        program, *words = self.daemon.command
        print(told("check", [program, "check", *words[1:3]], max(1, self.documents)), flush=True)
        seconds, pid = self.open(), self.daemon.process.pid
        print(f"opened in {seconds:.2f} s, until a client has a reply: {megabytes(resident(pid))}, {megabytes(most(pid))} at most")

    def search(self, texts):
        """Prints how long the texts of each class take."""
        print("| class | found | time | processor |\n|---|---|---|---|")
        for title, template in CLASSES:
            asked = texts_of(template, texts, self.documents)
            mean = sum(found(self.client, text) for text in asked) / texts
            rounds = [timed(self.client, self.daemon.process.pid, asked) for _ in range(3)]
            waited, worked = map(min, zip(*rounds))
            print(f"| {title} | {mean:,.0f} | {waited * 1000:.2f} ms | {worked * 1000:.2f} ms |", flush=True)
        print(f"memory behind them: {megabytes(resident(self.daemon.process.pid))}")


def main():
    words = argparse.ArgumentParser(description=__doc__.split("\n\n", maxsplit=1)[0])
    words.add_argument("--program", required=True)
    words.add_argument("--folder", type=Path, required=True)
    words.add_argument("--until", type=int, default=4_194_304, help="so many documents, if the index takes them")
    words.add_argument("--texts", type=int, default=10, help="texts of a class")
    given = words.parse_args()
    index = Index(str(Path(given.program).resolve()), given.folder.resolve())
    try:
        print("| documents | loaded since | job | chunks | images | files | memory | at most |\n|---|---|---|---|---|---|---|---|")
        index.load(given.until)
        print(f"{index.documents:,} documents, {time.perf_counter() - index.begun:.0f} s with the making of their texts", flush=True)
        index.reopen()
        index.search(given.texts)
    finally:
        index.daemon.kill()
    return 0


if __name__ == "__main__":
    sys.exit(main())
