"""Measures what FLUSH and OPTIMIZE cost, beside the loading of the same documents, and what clients feel of them.

    python3 -m scripts.figures.job_figures --program PROGRAM [--sphinx PATH] [--docs N] [--chunks N] [--rounds N] [--folder FOLDER]

In each round a daemon over an empty folder is loaded with documents of 100 words by INSERTs of 100 rows, N of them for each
chunk, which are flushed; at the end all chunks are optimised. A line says of each job how long it took, which share that is
of the time of the INSERTs of its documents, and how much memory the daemon had at most beyond what it held before. Loading
and jobs are timed as a client sees them. With --sphinx the same is done with Sphinx 2.2.

Then a second client commits documents one by one, as fast as it can, and goes on beside a FLUSH of N more documents and an
OPTIMIZE of all: of each it is said how long half of the commits took at most, 99 of 100 and the longest, beside those of
the same client while there was no job. Further options, with what they are without being given:

    --docs 25000    documents of a chunk
    --chunks 4      chunks that are optimised
    --rounds 3      how many times
    --quiet 5       seconds of commits without a job
    --folder        where the index stands: below the system's folder for temporary files
"""

import argparse
import sys
import tempfile
import threading
import time
from pathlib import Path

from scripts.clients import jobs
from scripts.clients.daemon import COLUMNS, Daemon, forget_most, most, resident
from scripts.figures import hundred_words as documents

TOGETHER = 100
# The ids of documents that are committed beside a job begin here.
BESIDE = 10**9


class Committer(threading.Thread):
    """A client that commits one document after the other; of each commit it keeps when it began and ended."""

    def __init__(self, client):
        super().__init__(daemon=True)
        self.client, self.is_over, self.commits, self.fault = client, False, [], None

    def run(self):
        number = BESIDE
        try:
            while not self.is_over:
                text, begun = documents.insert([number]), time.perf_counter()
                self.client.query(text)
                self.commits.append((begun, time.perf_counter()))
                number += 1
        except Exception as fault:  # it is told at the end
            self.fault = fault

    def told(self, begun, ended):
        """What the commits took that were under way between two moments."""
        took = sorted(end - begin for begin, end in self.commits if end > begun and begin < ended)
        half, few = (took[min(len(took) - 1, int(len(took) * share))] * 1000 for share in (0.5, 0.99))
        return f"{len(took)} commits: half within {half:.2f} ms, 99 of 100 within {few:.2f} ms, the longest {took[-1] * 1000:.1f} ms"


class Measured:
    """A daemon that is loaded, flushed and optimised."""

    def __init__(self, name, program, folder, is_sphinx):
        folder.mkdir()
        self.name, self.documents, self.loading = name, 0, 0
        self.daemon = Daemon(program, folder, {"rt": COLUMNS}, 3, is_sphinx)
        self.daemon.start()
        self.client = self.daemon.client()

    def load(self, count):
        """Adds documents; the seconds that it took, without the making of their texts."""
        taken = 0
        for first in range(self.documents + 1, self.documents + count + 1, TOGETHER):
            text = documents.insert(range(first, min(first + TOGETHER, self.documents + count + 1)))
            begun = time.perf_counter()
            self.client.query(text)
            taken += time.perf_counter() - begun
        self.documents += count
        self.loading += taken
        return taken

    def job(self, job, count, loading):
        """Does a job over so many documents, and says what it took beside their loading."""
        pid = self.daemon.process.pid
        forget_most(pid)
        held = resident(pid)
        taken = jobs.timed(self.client, job)
        print(
            f"{self.name}: {job} of {count:,} documents: {taken:.3f} s, {taken / loading:.3f} of their loading in {loading:.3f} s; "
            f"{(most(pid) - held) / 2**20:.0f} MB at most beyond the {held / 2**20:.0f} that were held",
            flush=True,
        )

    def build(self, docs, chunks):
        for _ in range(chunks):
            self.job(jobs.FLUSH, docs, self.load(docs))
        self.job(jobs.OPTIMIZE, self.documents, self.loading)

    def beside(self, docs, quiet):
        """Commits beside jobs."""
        self.load(docs)
        committer = Committer(self.daemon.client())
        committer.start()
        time.sleep(quiet)
        spans = {"no job": (time.perf_counter() - quiet, time.perf_counter())}
        for job in (jobs.FLUSH, jobs.OPTIMIZE):
            begun = time.perf_counter()
            jobs.timed(self.client, job)
            spans[job] = begun, time.perf_counter()
            time.sleep(0.5)
        committer.is_over = True
        committer.join()
        if committer.fault:
            raise committer.fault
        for title, (begun, ended) in spans.items():
            print(f"{self.name}: beside {title}, {ended - begun:.3f} s: {committer.told(begun, ended)}", flush=True)
        asked = self.documents + len(committer.commits)
        there, _ = jobs.status(self.client, "rt")
        print(f"{self.name}: {asked:,} documents were acknowledged" + ("" if there == asked else f", and {there:,} are there"))
        return there == asked


def measured(given, folder):
    """One round; whether no document was lost."""
    programs = [("this program", given.program, False), *([("Sphinx", given.sphinx, True)] if given.sphinx else [])]
    are_kept = []
    for name, program, is_sphinx in programs:
        one = Measured(name, program, folder / name.split()[0], is_sphinx)
        try:
            one.build(given.docs, given.chunks)
            are_kept.append(one.beside(given.docs, given.quiet) or is_sphinx)
        finally:
            one.daemon.kill()
    return all(are_kept)


def main():
    words = argparse.ArgumentParser(description=__doc__.split("\n\n", maxsplit=1)[0])
    words.add_argument("--program", required=True)
    words.add_argument("--sphinx", help="searchd of Sphinx 2.2")
    for name, number in (("docs", 25000), ("chunks", 4), ("rounds", 3)):
        words.add_argument(f"--{name}", type=int, default=number)
    words.add_argument("--quiet", type=float, default=5)
    words.add_argument("--folder")
    given = words.parse_args()
    are_kept = []
    for number in range(1, given.rounds + 1):
        print(f"round {number}")
        with tempfile.TemporaryDirectory(dir=given.folder) as folder:
            are_kept.append(measured(given, Path(folder)))
    return 0 if all(are_kept) else 1


if __name__ == "__main__":
    sys.exit(main())
