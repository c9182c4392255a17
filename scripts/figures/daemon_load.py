"""Measures a daemon under readers and writers at once, without jobs and beside them.

    python3 -m scripts.figures.daemon_load --program PROGRAM [--sphinx] [--docs N] ..
    python3 -m scripts.figures.daemon_load --port PORT --pid PID ..

tries a daemon that it starts over an empty folder and loads with N documents of 100 words, or one that runs already: its
index `rt` has then the columns `COLUMNS` of scripts/clients/daemon.py. Further options, with what they are without being given:

    --seconds 10    how long
    --readers 3     clients that send one SELECT after the other: a word, two words, a phrase, a condition, an order
    --writers 1     clients that send INSERTs of new documents
    --rows 1        documents of one INSERT
    --rate 50       documents a second of all writers together; 0 is as many as they can
    --jobs 0        one client more sends a job every so many seconds: three times FLUSH, and then OPTIMIZE
    --rounds 1      so many times; with --jobs each time first without them and then with them, each over a new daemon
    --workers 8     workers of the daemon that is started; all clients together are at most as many
    --folder        where the index of a daemon that is started stands: below the system's folder for temporary files

It prints reads and written documents a second, of each statement the time that half and 99 of a hundred took at most, the same of jobs, the
daemon's memory before, in the middle and after, the time of its processors, and how many statements were refused, with
the text of the first. The status is 1 where a statement was refused for anything but a limit, a reply was wrong or a connection was lost.
"""

import argparse
import multiprocessing
import random
import sys
import tempfile
import time
from array import array
from pathlib import Path

from scripts.figures import hundred_words as documents
from scripts.clients.daemon import COLUMNS, Daemon, Ended, processor, resident
from scripts.clients.jobs import FLUSH, OPTIMIZE
from scripts.clients.mysql_client import Client, Lost, Refused

READS = [
    "SELECT id, WEIGHT() FROM rt WHERE MATCH('{rare}')",
    "SELECT id, gid, price FROM rt WHERE MATCH('{common} {rare}')",
    "SELECT id FROM rt WHERE MATCH('\"{common} {other}\"')",
    "SELECT id, price FROM rt WHERE MATCH('{mid}') AND gid < 500",
    "SELECT id, price FROM rt WHERE MATCH('{mid}') ORDER BY price DESC LIMIT 10",
]


class Told:
    """What one client was told: the time of each statement, and what was refused."""

    def __init__(self):
        self.times, self.done, self.refused, self.first, self.wrong = array("d"), 0, 0, None, None

    def ask(self, client, text, count=1):
        """Sends a statement and takes its time, and gives the reply, None of one that is refused."""
        before = time.perf_counter()
        try:
            reply = client.query(text)
            self.done += count
        except Refused as refused:
            reply = None
            self.refused += 1
            self.first = self.first or str(refused)
            if " full at " not in refused.text:
                self.wrong = self.wrong or str(refused)
        self.times.append(time.perf_counter() - before)
        return reply


def read(port, number, begin, seconds):
    draws, told, counted = random.Random(f"reader {number}"), Told(), 0
    client = Client(port)
    wait_until(begin)
    while time.time() < begin + seconds:
        common, other = (f"w{draws.randrange(3, 30)}" for _ in range(2))
        words = {"common": common, "other": other, "mid": f"w{draws.randrange(100, 1000)}"}
        text = draws.choice(READS).format(rare=f"w{draws.randrange(1000, documents.VOCABULARY)}", **words)
        reply = told.ask(client, text)
        told.wrong = told.wrong or (reply and fault(text, reply))
        if told.done % 50 == 0:
            counted, before = int(client.query("SELECT COUNT(*) FROM rt").rows[0][0]), counted
            if counted < before:
                told.wrong = told.wrong or f"{counted:,} documents where there were {before:,}"
    client.quit()
    return told


def fault(text, reply):
    """What is wrong with a page of documents, None if nothing is: `gid` follows from the id."""
    if len(reply.rows) > 20:
        return f"{len(reply.rows)} rows for {text}"
    ids = [row[0] for row in reply.rows]
    if len(set(ids)) < len(ids):
        return f"a document twice for {text}"
    if "gid" in reply.columns and any(int(row[1]) != documents.gid(int(row[0])) for row in reply.rows):
        return f"a wrong gid for {text}"
    return None


def write(port, first, begin, seconds, options):
    """Inserts documents from an id on, no sooner than the rate says."""
    told, pause = Told(), options.rows * options.writers / options.rate if options.rate else 0
    client = Client(port)
    wait_until(begin)
    due = begin
    while time.time() < begin + seconds:
        text = documents.insert(range(first, first + options.rows))
        wait_until(due)
        if told.ask(client, text, options.rows):
            first += options.rows
        due = max(due + pause, time.time() - 1)
    client.quit()
    return told


def work(port, begin, seconds, every):
    """Sends a job every so many seconds."""
    told, client = Told(), Client(port)
    due, number = begin + every / 2, 0
    while due < begin + seconds:
        wait_until(due)
        told.ask(client, f"{OPTIMIZE if number % 4 == 3 else FLUSH} rt")
        due, number = max(due + every, time.time()), number + 1
    client.quit()
    return told


def wait_until(moment):
    time.sleep(max(0, moment - time.time()))


def working(call, results, *words):
    """A client in a process of its own; what it was told comes by the queue."""

    def run():
        try:
            results.put((call.__name__, call(*words)))
        except (Lost, Refused) as error:
            told = Told()
            told.wrong = told.first = f"{call.__name__}: {error}"
            results.put((call.__name__, told))

    process = multiprocessing.get_context("fork").Process(target=run, daemon=True)
    process.start()
    return process


def line(title, told, seconds):
    """What clients of one kind were told together."""
    times = sorted(time for one in told for time in one.times)
    rate = sum(one.done for one in told) / seconds
    if not times:
        return f"{title}: none"
    half, most = (times[min(len(times) - 1, int(len(times) * share))] * 1000 for share in (0.5, 0.99))
    return (
        f"{title}: {rate:,.0f} a second by {len(told)}; half of the statements within {half:.2f} ms, 99 of 100 within "
        f"{most:.2f} ms, the longest {times[-1] * 1000:.1f} ms; {sum(one.refused for one in told)} refused"
    )


def measure(port, pid, options, every):
    """Lets readers and writers at the daemon, and a client with jobs where there are some; prints what came of it, and gives
    whether it was right."""
    before, last = stored(port)
    results, begin = multiprocessing.get_context("fork").Queue(), time.time() + 0.5
    for number in range(options.readers):
        working(read, results, port, number, begin, options.seconds)
    for number in range(options.writers):
        working(write, results, port, last + 1 + number * 10**9, begin, options.seconds, options)
    if every:
        working(work, results, port, begin, options.seconds, every)
    memory, worked = [resident(pid)], processor(pid)
    for share in (0.5, 1):
        wait_until(begin + options.seconds * share)
        memory.append(resident(pid))
    worked = processor(pid) - worked
    told = {"read": [], "write": [], "work": []}
    for _ in range(options.readers + options.writers + bool(every)):
        kind, one = results.get(timeout=300)
        told[kind].append(one)
    for title, kind in (("reads", "read"), ("documents written", "write"), ("jobs", "work")):
        print(line(title, told[kind], options.seconds))
    print("memory:", ", ".join(f"{size / 2**20:,.0f} MB" for size in memory), "before, in the middle and after")
    print(f"processors: {worked:.1f} s of the daemon in {options.seconds:.0f} s")
    return is_right(told, before, stored(port)[0])


def stored(port):
    """How many documents there are, and the greatest id, 0 of none."""
    client = Client(port)
    rows = client.query("SELECT COUNT(*), MAX(id) FROM rt").rows
    client.quit()
    return tuple(map(int, rows[0])) if rows else (0, 0)


def is_right(told, before, after):
    """Prints how many documents there were, what was refused first, and what was wrong."""
    print(f"documents: {before:,} before, {after:,} after")
    everyone = [one for some in told.values() for one in some]
    wrong = next((one.wrong for one in everyone if one.wrong), None)
    written = sum(one.done for one in told["write"])
    if not wrong and after != before + written:
        wrong = f"{written:,} documents were acknowledged"
    print("first refusal:", next((one.first for one in everyone if one.first), "none"))
    if wrong:
        print("wrong:", wrong)
    sys.stdout.flush()
    return not wrong


def options():
    words = argparse.ArgumentParser(description=__doc__.split("\n\n", maxsplit=1)[0])
    words.add_argument("--program")
    words.add_argument("--sphinx", action="store_true", help="PROGRAM is searchd of Sphinx 2.2")
    words.add_argument("--port", type=int)
    words.add_argument("--pid", type=int)
    for name, number in (("docs", 10000), ("readers", 3), ("writers", 1), ("rows", 1), ("workers", 8), ("rounds", 1)):
        words.add_argument(f"--{name}", type=int, default=number)
    for name, number in (("seconds", 10), ("rate", 50), ("jobs", 0)):
        words.add_argument(f"--{name}", type=float, default=number)
    words.add_argument("--folder", help="where the index of a daemon that is started stands")
    found = words.parse_args()
    if bool(found.program) == bool(found.port and found.pid):
        words.error("give --program, or --port and --pid")
    return found


def loaded(given, every):
    """Measures a new daemon, which is loaded with documents before."""
    with tempfile.TemporaryDirectory(dir=given.folder) as folder:
        daemon = Daemon(given.program, Path(folder), {"rt": COLUMNS}, given.workers, given.sphinx)
        daemon.start()
        try:
            client = daemon.client()
            documents.load(client, 1, given.docs)
            client.quit()
            return measure(daemon.port, daemon.process.pid, given, every)
        finally:
            daemon.kill()


def tried(given):
    """Measures as often as is asked; the exit status."""
    are_right = []
    for number in range(1, given.rounds + 1):
        for every in [0, given.jobs] if given.jobs else [0]:
            print(f"round {number}, {f'a job every {every:g} s' if every else 'no jobs'}")
            are_right.append(measure(given.port, given.pid, given, every) if given.port else loaded(given, every))
    return 0 if all(are_right) else 1


def main():
    try:
        return tried(options())
    except (Ended, Lost, Refused) as error:
        print("wrong:", error)
        return 1


if __name__ == "__main__":
    sys.exit(main())
