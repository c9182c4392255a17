"""Kills the daemon at random moments, and looks whether it kept what it had acknowledged.

    python3 -m scripts.gate.kill_rounds --program PROGRAM [--rounds N] [--seed S] [--writers W] [--jobs J] [--most TEXTS] [--sphinx]

starts the daemon over an empty folder. In each round writers send single and multi-row INSERTs, REPLACEs and DELETEs,
transactions, packets of several statements, TRUNCATE, and statements that are refused, and other clients send FLUSH and
OPTIMIZE of any index, as writers do in their transactions, until SIGKILL ends the daemon, some milliseconds after it
answered a number of texts that is drawn, at most so many; one time in four it is started and killed once more, before it
listens or soon after. Then it is started over the same folder, and

    each document is there as it was last acknowledged, with all attributes and words, and no other is
    a commit that was sent and not answered is there as a whole or not at all, and of several such only the first ones
    nothing of what was refused, rolled back or not committed is there
    no index has more chunks than it may have

At the end it gets SIGTERM and is looked at once more. Then it says what was done; at the first violation it says what was
wrong, ends, and leaves the folder. What the system loses with its power isn't tried by this.

Each writer has ids of its own in the index that all share, and an index for itself (`kill_writers`). A document is known by
its attributes and by 24 words, of which it has some: so as many SELECTs give back the words of all documents. Where an index
is full for its log the rounds go on over an empty folder. With --sphinx the daemon is Sphinx 2.2, which takes no packet of
several INSERTs, has other rules inside a transaction, and was seen to keep fewer documents than it had acknowledged beside a
job: none of these is tried on it.
"""

import argparse
import random
import shutil
import sys
import tempfile
import time
from pathlib import Path

from scripts.clients import jobs
from scripts.clients.daemon import COLUMNS, Daemon, Ended
from scripts.clients.mysql_client import Lost, Refused
from scripts.gate.kill_writers import SHARED, WORDS, Territory, Worker, Writer, Wrong
from scripts.gate.last_line import ended

ALL = "LIMIT 100000 OPTION max_matches=100000"


def documents_in(client, index):
    """The documents of an index: for each id its attributes, and its words as bits."""
    columns = "id, gid, in_stock, price, added"
    rows = client.query(f"SELECT {columns} FROM {index} {ALL}").rows
    found = {int(row[0]): [*map(int, row[1:]), 0] for row in rows}
    if len(found) != len(rows):
        raise Wrong(f"{index}: {len(rows)} rows with {len(found)} ids")
    for bit, (field, word) in enumerate(WORDS):
        for (name,) in client.query(f"SELECT id FROM {index} WHERE MATCH('@{field} {word}') {ALL}").rows:
            if int(name) not in found:
                raise Wrong(f"{index}: document {name} has the word {word} and is in no list of all documents")
            found[int(name)][-1] |= 1 << bit
    return {number: tuple(document) for number, document in found.items()}


class Rounds:
    """The rounds over one folder, and what was done in them."""

    def __init__(self, options, folder):
        self.options, self.folder = options, folder
        self.draws = random.Random(options.seed)
        self.done = self.commits = self.refusals = self.unanswered = self.half = self.early = self.emptied = 0
        self.jobs = self.jobs_refused = self.jobs_killed = 0
        self.empty()

    def empty(self):
        """A daemon over an empty folder, with territories for each writer."""
        shutil.rmtree(self.folder, ignore_errors=True)
        self.folder.mkdir(parents=True)
        writers = self.options.writers
        own = [f"own{writer}" for writer in range(writers)]
        self.indexes = [SHARED, *own]
        workers = writers + self.options.jobs + 1
        self.daemon = Daemon(self.options.program, self.folder, dict.fromkeys(self.indexes, COLUMNS), workers, self.options.sphinx)
        self.territories = [
            [Territory(SHARED, writer + 1, writers), Territory(name, 1, 1)] for writer, name in enumerate(own)
        ]

    def look(self, writers):
        """Compares what is there with what the writers were told."""
        client = self.daemon.client()
        found = {}
        for writer, territories in enumerate(self.territories):
            for territory in territories:
                if territory.index not in found:
                    found[territory.index] = documents_in(client, territory.index)
                last = writers[writer] if writers else None
                pending = last.pending if last and last.place is territory else []
                self.half += territory.settle(pending, found[territory.index]) > 0
        for index in self.indexes:
            documents, chunks = jobs.status(client, index)
            if chunks > jobs.MOST_CHUNKS or documents != len(found[index]):
                raise Wrong(f"{index}: {documents} documents and {chunks} chunks are told of {len(found[index])} documents")
        client.quit()

    def clients(self):
        """Writers, and clients with jobs."""
        writers = [
            Writer(random.Random(self.draws.random()), self.daemon.client(), territories, self.options)
            for territories in self.territories
        ]
        workers = [
            Worker(random.Random(self.draws.random()), self.daemon.client(), self.indexes) for _ in range(self.options.jobs)
        ]
        return writers, workers

    def write(self):
        """Lets the writers write until the daemon is killed."""
        writers, workers = self.clients()
        count, delay = self.options.most ** self.draws.random(), self.draws.uniform(0, 0.01)
        for client in (*writers, *workers):
            client.start()
        while sum(writer.answered for writer in writers) < count and any(writer.is_alive() for writer in writers):
            time.sleep(0.0005)
        time.sleep(delay)
        self.daemon.look()
        self.daemon.kill()
        for client in (*writers, *workers):
            client.join()
            if client.wrong:
                raise Wrong(client.wrong)
        self.count(writers, workers)
        return writers

    def count(self, writers, workers):
        """Adds what the clients of a round have done."""
        for writer in writers:
            self.commits += writer.commits
            self.refusals += writer.refusals
            self.unanswered += any(change != {} for change in writer.pending)
            self.jobs += writer.jobs
        for worker in workers:
            self.jobs += worker.done
            self.jobs_refused += worker.refused
            self.jobs_killed += worker.is_asking

    def round(self):
        writers = self.write()
        if self.draws.randrange(4) == 0:
            self.daemon.start()
            time.sleep(self.draws.uniform(0, 0.1))
            self.daemon.kill()
            self.early += 1
        self.daemon.start()
        self.look(writers)
        if any(writer.full for writer in writers):
            self.daemon.kill()
            self.empty()
            self.daemon.start()
            self.emptied += 1

    def run(self):
        self.daemon.start()
        self.look(None)
        for number in range(1, self.options.rounds + 1):
            try:
                self.round()
            except (Wrong, Ended, Lost, Refused) as wrong:
                raise Wrong(f"round {number} of seed {self.options.seed}: {wrong}") from wrong
            self.done = number
        self.daemon.stop()
        self.daemon.start()
        self.look(None)

    def said(self):
        return (
            f"{self.options.rounds} rounds: {self.commits:,} commits acknowledged and kept; {self.unanswered} unanswered, "
            f"of which {self.half} were there; {self.refusals:,} refused and not there; {self.jobs:,} jobs done, {self.jobs_refused} "
            f"refused, {self.jobs_killed} killed; killed {self.early} times while it started; full {self.emptied} times"
        )


def options():
    words = argparse.ArgumentParser(description=__doc__.split("\n\n", maxsplit=1)[0])
    words.add_argument("--program", required=True)
    words.add_argument("--rounds", type=int, default=100)
    words.add_argument("--seed", type=int, default=1)
    words.add_argument("--writers", type=int, default=2)
    words.add_argument("--jobs", type=int, default=1, help="clients that send FLUSH and OPTIMIZE")
    words.add_argument("--most", type=int, default=1000, help="texts that are answered before a kill, at most")
    words.add_argument("--sphinx", action="store_true", help="PROGRAM is searchd of Sphinx 2.2")
    given = words.parse_args()
    given.jobs = 0 if given.sphinx else given.jobs
    return given


def main():
    folder = Path(tempfile.mkdtemp(prefix="kill_rounds."))
    rounds = Rounds(options(), folder / "data")
    try:
        rounds.run()
    except (Wrong, Ended, Lost, Refused) as wrong:
        print(f"{wrong}\nthe folder is {folder}")
        return ended("kill_rounds", rounds.done, 1)
    finally:
        if rounds.daemon.process:
            rounds.daemon.kill()
    print(rounds.said())
    shutil.rmtree(folder)
    return ended("kill_rounds", rounds.done, 0)


if __name__ == "__main__":
    sys.exit(main())
