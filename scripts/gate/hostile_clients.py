"""Lets clients at a daemon that keep it waiting, leave it in the middle, or send texts of 8 MB, and looks what that costs others.

    python3 -m scripts.gate.hostile_clients --program PROGRAM [--seconds S] [--rounds R] [--folder F] [--only NAME] [--keeps]

starts a daemon over a new folder for each of these, and prints what was seen:

    silent       clients that connect and say nothing, and clients that send a byte a second
    unread       clients that take nothing of a reply of 8 MB
    left         clients that hang up in the middle of such a reply
    texts        texts of 1, 2, 4 and 8 MB made of one sign or one part: what is answered, the time of the daemon's processors,
                 how many times as long the doubled text takes, and the daemon's memory at most and afterwards
    memory       clients that send INSERTs of 8 MB, one after the other, where the daemon has 3,000 MB of addresses
    descriptors  more clients than the daemon has descriptors for

The daemon has the variables of the C library that the manual's unit sets, but with --keeps, where more memory stays with it.
Beside all but `texts` and `descriptors` another client sends one SELECT after the other, for so many seconds. What is
answered to a text stands in the table `long_texts`, which a test compares with what scripts/readers tell of shorter ones. It counts as
failed where a reply is another one, the other client isn't served, the daemon ends, a worker is lost, a text of twice
the length takes more than three times as long, or the daemon's memory afterwards is more than 16 MB above what it was before.
"""

import argparse
import multiprocessing
import os
import resource
import select
import socket
import struct
import subprocess
import sys
import tempfile
import time
from collections import Counter
from contextlib import contextmanager
from pathlib import Path

from scripts.cases.case_sessions import taken
from scripts.cases.replies import told
from scripts.clients.daemon import Daemon, Ended, forget_most, most, processor, resident
from scripts.clients.mysql_client import Client, Lost, Refused, handshake
from scripts.gate.hostile_packets import Shopper
from scripts.gate.last_line import ended
from scripts.gate.long_texts import LARGEST, MADE_OF, made

FORK = multiprocessing.get_context("fork")
LOGIN = len(handshake()).to_bytes(3, "little") + b"\1" + handshake()
PING, PONG = b"\1\0\0\0\x0e", b"\7\0\0\1\0\0\0\2\0\0\0"
SLOWLY = LOGIN + PING
COLUMNS = ["rt_field = title", *(f"rt_attr_bigint = a{number}" for number in range(32))]
ROWS, COPIES, CLIENTS = 400, 32, 8
MUCH = "; ".join([f"SELECT * FROM rt LIMIT {ROWS}"] * COPIES)
WORKERS, DESCRIPTORS = 16, 24
# What the manual's unit sets, so that the C library gives memory back.
GIVES_BACK = {"MALLOC_MMAP_THRESHOLD_": "4194304", "GLIBC_TUNABLES": "glibc.malloc.tcache_count=0"}
ROOM, SUPER_LINEAR, SHORT, ADDRESSES = 16 * 2**20, 3.0, 0.02, 3000 * 2**20


class Wrong(Exception):
    """Something isn't as it is to be."""


class Limited(Daemon):
    """A daemon with a limit of the system: which, and how much."""

    limited = None

    def start(self):
        with self.errors.open("wb") as errors:
            self.process = subprocess.Popen(
                self.command, stdin=subprocess.DEVNULL, stdout=subprocess.DEVNULL, stderr=errors, preexec_fn=self.limit
            )

    def limit(self):
        if self.limited:
            kind, most_of_it = self.limited
            resource.setrlimit(kind, (most_of_it, most_of_it))


class Looked:
    """A daemon over a folder of its own, with rows of which 8 MB can be asked, and what was seen of it."""

    def __init__(self, given, workers=CLIENTS + 2, limited=None):
        self.given, self.room = given, tempfile.TemporaryDirectory(prefix="hostile_clients.", dir=given.folder)
        self.daemon = Limited(given.program, Path(self.room.name), {"rt": COLUMNS, "shop": COLUMNS}, workers)
        self.daemon.command += ["--sessions", "1000000"]
        self.daemon.limited = limited
        self.port = self.daemon.port

    def __enter__(self):
        self.daemon.start()
        client = self.daemon.client()
        rows = ", ".join(f"({number}, ''{', -9223372036854775808' * 32})" for number in range(1, ROWS + 1))
        client.query(f"INSERT INTO rt VALUES {rows}")
        client.quit()
        self.pid = self.daemon.process.pid
        return self

    def __exit__(self, *_):
        self.daemon.kill()
        self.room.cleanup()

    def connected(self):
        """A connection that has sent nothing."""
        return socket.create_connection(("127.0.0.1", self.port), 60)

    @contextmanager
    def beside(self, title):
        """Another client, which asks as long as the block runs; how it was served is printed behind it."""
        queue, ends = FORK.Queue(), FORK.Event()
        process = FORK.Process(target=Shopper(self.port).work, args=(ends, queue))
        process.start()
        try:
            yield
        finally:
            ends.set()
            _, (times, wrong) = queue.get(timeout=60)
            process.join()
        if wrong or not times:
            raise Wrong(f"the other client {title}: {wrong or 'was never answered'}")
        half, most = (times[int(len(times) * share)] * 1000 for share in (0.5, 0.99))
        print(f"  another client {title}: {len(times):,} SELECTs, half within {half:.2f} ms, 99 of 100 within {most:.2f} ms, "
              f"the longest {times[-1] * 1000:.1f} ms")  # fmt: skip

    def usual(self, title):
        """Another client by itself."""
        with self.beside(title):
            time.sleep(self.given.seconds)

    def settled(self, before):
        """Looks at the memory when clients have gone."""
        end = time.monotonic() + 30
        while resident(self.pid) > before + ROOM and time.monotonic() < end:
            time.sleep(0.1)
        after = resident(self.pid)
        print(f"  memory: {before / 2**20:.1f} MB before, {after / 2**20:.1f} MB after")
        if after > before + ROOM:
            raise Wrong("memory is left behind")


def warmed(looked):
    """The memory once a reply of 8 MB was asked for and taken by each worker."""
    clients = [Client(looked.port) for _ in range(CLIENTS)]
    for client in clients:
        client.queries(MUCH)
        client.quit()
    return resident(looked.pid)


def silent(given):
    """Clients that say nothing, and clients that send a byte a second."""
    with Looked(given) as looked:
        before = resident(looked.pid)
        looked.usual("before")
        mute, slow = ([looked.connected() for _ in range(CLIENTS // 2)] for _ in range(2))
        with looked.beside("meanwhile"):
            over = byte_by_byte(slow, mute)
        print(f"  {len(over)} of {len(mute)} clients that said nothing were let go, after {min(over, default=0):.1f} to "
              f"{max(over, default=0):.1f} s")  # fmt: skip
        answered = [one.recv(4096).endswith(PONG) for one in slow]
        print(f"  clients that sent a byte a second for {len(SLOWLY)} s: {sum(answered)} of {len(slow)} were answered")
        if len(over) < len(mute) or not all(answered):
            raise Wrong("a client that said nothing was kept, or a slow one wasn't answered")
        for one in (*mute, *slow):
            one.close()
        looked.settled(before)


def byte_by_byte(slow, mute):
    """Sends a login and a COM_PING, a byte a second; gives after how many seconds each of those was let go that say nothing."""
    begun, over = time.monotonic(), {}
    for place in range(len(SLOWLY)):
        for one in slow:
            one.sendall(SLOWLY[place : place + 1])
        while (left_over := begun + place + 1 - time.monotonic()) > 0:
            waiting = [one for one in mute if one not in over]
            for one in select.select(waiting, [], [], left_over)[0]:
                if not one.recv(4096):
                    over[one] = time.monotonic() - begun
    return list(over.values())


def unread(given):
    """Clients that take nothing of a reply."""
    with Looked(given) as looked:
        before = warmed(looked)
        looked.usual("before")
        clients = [Client(looked.port) for _ in range(CLIENTS)]
        for client in clients:
            client.send(MUCH)
        looked.usual("meanwhile")
        print(f"  memory meanwhile: {resident(looked.pid) / 2**20:.1f} MB")
        for client in clients:
            client.close()
        looked.settled(before)


def left(given):
    """Clients that hang up in the middle of a reply."""
    with Looked(given) as looked:
        before = warmed(looked)
        end, count = time.monotonic() + given.seconds, 0
        while time.monotonic() < end or count < 2 * CLIENTS:
            client = Client(looked.port)
            client.send(MUCH)
            client.socket.recv(1000 * (count % 7))
            if count % 2:
                client.socket.setsockopt(socket.SOL_SOCKET, socket.SO_LINGER, struct.pack("ii", 1, 0))
            client.close()
            count += 1
        print(f"  {count} clients hung up")
        looked.usual("afterwards")
        looked.settled(before)


def answer(client, text):
    try:
        client.command(b"\x03" + text)
        client.reply()
        return None
    except Refused as refused:
        return refused.text


def texts(given):
    """Texts of one make, each twice as long as the one before."""
    with Looked(given) as looked:
        client = Client(looked.port)
        answer(client, made("pairs of quotes", LARGEST - 1))
        before = resident(looked.pid)
        wrong = [said for name in MADE_OF for said in one_make(looked, client, name)]
        client.quit()
        if wrong:
            raise Wrong("\n".join(wrong))
        looked.settled(before)


def one_make(looked, client, name):
    """Sends the texts of one make, prints what they took, and gives what is wrong."""
    times, wanted, wrong = [], MADE_OF[name][3], []
    forget_most(looked.pid)
    for size in (LARGEST // 8, LARGEST // 4, LARGEST // 2, LARGEST - 1):
        text, least = made(name, size), float("inf")
        for _ in range(looked.given.rounds):
            used = processor(looked.pid)
            found = answer(client, text)
            least = min(least, processor(looked.pid) - used)
            if found != (wanted and wanted.format(length=len(text))):
                wrong.append(f"{name}, {len(text)} bytes: {found}, wanted {wanted}")
        times.append(least)
    ratios = [after / max(first, 1e-6) for first, after in zip(times, times[1:])]
    held = [kind(looked.pid) / 2**20 for kind in (most, resident)]
    print(f"  {name}: {', '.join(f'{one * 1000:.1f}' for one in times)} ms, {', '.join(f'{one:.2f}' for one in ratios)} times; "
          f"{held[0]:.0f} MB at most, {held[1]:.0f} MB afterwards; {found or 'not refused'}", flush=True)  # fmt: skip
    if any(ratio > SUPER_LINEAR and after > SHORT for ratio, after in zip(ratios, times[1:])):
        wrong.append(f"{name}: takes more than {SUPER_LINEAR:g} times as long for twice the text")
    return wrong


def memory(given):
    """Clients that take much memory, of which there isn't enough for all."""
    with Looked(given, limited=(resource.RLIMIT_AS, ADDRESSES)) as looked:
        before, queue = resident(looked.pid), FORK.Queue()
        with looked.beside("meanwhile"):
            processes = [FORK.Process(target=insert_much, args=(looked.port, given.seconds, queue)) for _ in range(CLIENTS // 2)]
            for process in processes:
                process.start()
            told_all = sum((queue.get(timeout=120) for _ in processes), Counter())
        print(f"  answered to {CLIENTS // 2} clients: {dict(told_all)}; {most(looked.pid) / 2**20:.0f} MB at most")
        looked.settled(before)


def insert_much(port, seconds, queue):
    """Sends an INSERT of many rows as often as there is time; puts what was answered how often."""
    answers, end = Counter(), time.monotonic() + seconds
    try:
        client, text = Client(port), made("an INSERT of rows", LARGEST - 1)
        while time.monotonic() < end:
            answers[answer(client, text)] += 1
    except Lost as lost:
        answers[str(lost)] += 1
    queue.put(answers)


def descriptors(given):
    """More clients than descriptors: those that wait are let in once there is room, and no worker is lost."""
    with Looked(given, WORKERS, (resource.RLIMIT_NOFILE, DESCRIPTORS)) as looked:
        print(f"  {DESCRIPTORS} descriptors, of which {len(os.listdir(f'/proc/{looked.pid}/fd'))} are open, {WORKERS} workers")
        clients, last = crowd(looked)
        look_at_served(clients)
        kept = clients[: len(clients) // 2]
        for one in clients[len(kept) :]:
            one.close()
        demand(greeted(last), "half of them gone: the one that waited is greeted")
        last.close()
        look_at_served(kept)
        for one in kept:
            one.close()
        again, last = crowd(looked)
        for one in [*again, last]:
            one.close()
        demand(len(again) >= len(clients), "all gone: as many are greeted again")
        demand(looked.daemon.process.poll() is None, "the daemon goes on")


def crowd(looked):
    """Clients that are let in, as many as there is room for, and the next one, which isn't."""
    clients = []
    while len(clients) < WORKERS and greeted(last := looked.connected()):
        clients.append(last)
    demand(0 < len(clients) < WORKERS, f"{len(clients)} clients are greeted, the next one waits")
    return clients, last


def demand(holds, what):
    """Says what was seen, or that it wasn't."""
    if not holds:
        raise Wrong(f"not so: {what}")
    print(f"  {what}")


def greeted(connection):
    """Whether a client is greeted, and let in then."""
    connection.settimeout(3)
    try:
        if not connection.recv(4096):
            return False
        connection.sendall(LOGIN)
        return connection.recv(4096) != b""
    except (TimeoutError, ConnectionResetError):
        return False


def look_at_served(clients):
    """Looks whether clients are answered, and what the first of them is answered to commits and a job."""
    for one in clients:
        one.sendall(PING)
    demand(all(one.recv(4096) == PONG for one in clients), "each is answered")
    for text in (b"REPLACE INTO rt (id) VALUES (1)", b"REPLACE INTO shop (id) VALUES (1)", b"FLUSH RAMCHUNK rt"):
        clients[0].sendall((len(text) + 1).to_bytes(3, "little") + b"\0\3" + text)
        answered = told(lambda size: taken(clients[0].recv, size))[0]
        demand(answered.startswith("OK"), f"{text.decode()}: {answered}")


KINDS = {kind.__name__: kind for kind in (silent, unread, left, texts, memory, descriptors)}


def main():
    words = argparse.ArgumentParser(description=__doc__.split("\n\n", maxsplit=1)[0])
    words.add_argument("--program", required=True)
    words.add_argument("--seconds", type=float, default=5, help="how long another client is looked at")
    words.add_argument("--rounds", type=int, default=2, help="each text is sent so often, and the least time is told")
    words.add_argument("--folder", help="where the indexes stand: below the system's folder for temporary files")
    words.add_argument("--only", choices=KINDS)
    words.add_argument("--keeps", action="store_true", help="without the variables by which the C library gives memory back")
    given, failed = words.parse_args(), 0
    if not given.keeps:
        os.environ.update(GIVES_BACK)
    for name, kind in KINDS.items():
        if given.only in (None, name):
            print(f"{name}: {kind.__doc__}", flush=True)
            try:
                kind(given)
            except (Wrong, Ended, Lost, Refused, OSError) as wrong:
                failed += 1
                print(f"wrong: {wrong}", flush=True)
    return ended("hostile_clients", (1 if given.only else len(KINDS)) - failed, failed)


if __name__ == "__main__":
    sys.exit(main())
