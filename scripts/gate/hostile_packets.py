"""Sends a daemon packets by somebody who means harm, and compares what it answers with what the formats say of these bytes.

    python3 -m scripts.gate.hostile_packets --program PROGRAM [--packets N] [--seed S] [--clients C] [--longest P] [--folder F]

starts the daemon over an empty folder. Hostile clients, each with two indexes of its own, connect, send what is drawn
(`hostile_lines`, `hostile_texts`), and read until the daemon hangs up, over and over, until they have sent so many packets
together. What is answered is told before by scripts/readers from the bytes alone: which packets are answered at all, the number
of each packet of a reply, each refusal with its code, its state and its text, what is affected, the columns of result sets with
their kinds, and statuses. Rows of SELECTs and of SHOW META aren't told. Meanwhile a client of another index asks for documents
and looks whether it finds the same each time.

It says how many packets were sent, how many were refused and why, how long the other client waited, and the daemon's memory
twenty times. Whatever is answered otherwise is printed with the bytes, and the client goes on over empty indexes. At the end the
daemon still runs, its memory in the second half is not more than a tenth and 8 MB above the most of the first half, and a check
says of each index as many documents and chunks as are told. The status is 1 where any of this fails.
"""

import argparse
import collections
import multiprocessing
import random
import re
import socket
import subprocess
import sys
import tempfile
import time
from pathlib import Path

from scripts.cases.case_sessions import Bytes
from scripts.cases.replies import USUAL_STATUSES, Strange, one_reply, split
from scripts.clients.daemon import COLUMNS, Daemon, Ended, resident
from scripts.clients.mysql_client import Client, Lost, Refused
from scripts.gate.hostile_lines import Lines
from scripts.gate.hostile_texts import Texts
from scripts.gate.last_line import ended
from scripts.readers.lines import line
from scripts.readers.sessions import ROWS, Store, index

ZONED = ["rt_field = title", "rt_field = content", "rt_attr_uint = gid", "html_strip = 1", "index_zones = th, td"]
SHOP, LOOKS, PRINTED, PATIENCE = "shop", 20, 10, 120
FORK = multiprocessing.get_context("fork")


def named(number):
    """The indexes of a client; no byte or two that are changed make a name that of another client's."""
    return tuple(word + "abc"[number] * 6 for word in ("plain_", "zoned_"))


def stores_of(number):
    """What is known of the two indexes of a client at first."""
    plain, zoned = named(number)
    fields = ("title", "content")
    attributes = {"gid": "uint", "flag": "bool", "price": "bigint", "seen": "timestamp"}
    return {
        plain: Store(index(plain, fields, attributes)),
        zoned: Store(index(zoned, fields, {"gid": "uint"}, ("th", "td"))),
    }


def columns_of_plain():
    renamed = {"rt_attr_bool = in_stock": "rt_attr_bool = flag", "rt_attr_timestamp = added": "rt_attr_timestamp = seen"}
    return [renamed.get(line, line) for line in COLUMNS]


def exchanged(port, pieces):
    """All that is written to a client that sends these pieces and then nothing more."""
    with socket.create_connection(("127.0.0.1", port), PATIENCE) as connection:
        connection.setsockopt(socket.IPPROTO_TCP, socket.TCP_NODELAY, 1)
        try:
            for piece in pieces:
                connection.sendall(piece)
            connection.shutdown(socket.SHUT_WR)
        except (BrokenPipeError, ConnectionResetError):
            pass
        except OSError as error:
            if error.errno != 107:  # the daemon has hung up already
                raise
        written = []
        try:
            while piece := connection.recv(1 << 18):
                written.append(piece)
        except ConnectionResetError:
            pass
    return b"".join(written)


class Short(Exception):
    """What was written ends where more is wanted."""


class Written(Bytes):
    """What was written, from the front on."""

    def take(self, size):
        if self.at + size > len(self.data):
            raise Short(f"{len(self.data) - self.at} bytes were written where {size} more are due")
        return super().take(size)


def difference(written, wanted):
    """What differs between what was written and the answers that are wanted, None where nothing does."""
    data = Written(written)
    try:
        number, greeting, _ = split(data.take)
        if number != 0 or not greeting.startswith(b"\x0a2.2.11-rt1\0"):
            return f"greeted by {greeting.hex(' ')}, {number}"
        for place, answer in enumerate(wanted, 1):
            found = answered(data.take, answer)
            if found is not None:
                return f"answer {place}: {found}, wanted {answer}"
    except (Strange, IndexError, ValueError) as why:
        return f"{why}, wanted {wanted[-3:]}"
    return f"and then {data.rest()[:400]!r}, wanted no more" if data.rest() else None


def answered(take, answer):
    """What is found in place of an answer, None where it is as wanted."""
    due = answer.number

    def packet():
        nonlocal due
        number, payload, _ = split(take)
        if number != due:
            raise Strange(f"a packet with the number {number} where {due} is the next one")
        due = (due + 1) % 256
        return payload

    for place, wanted in enumerate(answer.replies, 1):
        reply, status = one_reply(packet)
        if not reply.startswith("ERR "):
            if bool(status & 8) != (place < len(answer.replies)):
                return f"{reply[:400]} with the status {status}"
            reply = reply if status in USUAL_STATUSES else f"{status}: {reply}"
        if reply != wanted and not (wanted.endswith(ROWS) and is_front(wanted[: -len(ROWS)], reply)):
            return reply[:400]
    return None


def is_front(columns, reply):
    return reply == columns or reply.startswith(columns + " | ")


class Hostile:
    """A client that means harm, with what it was told."""

    def __init__(self, options, port, number):
        self.port, self.number = port, number
        draws = random.Random(f"{options.seed} {number}")
        self.lines = Lines(draws, Texts(draws, named(number)), options.longest)
        self.packets, self.connections, self.wrong, self.stores = 0, 0, [], stores_of(number)
        self.unread = self.cut_short = 0
        self.told = collections.Counter()
        self.tables = [SHOP, *(name for other in range(options.clients) for name in named(other))]

    def connect(self):
        """Sends what is drawn on one connection."""
        data, packets = self.lines.line()
        pieces = self.lines.pieces(data)
        wanted = line(data, self.stores, self.tables)
        try:
            found = difference(exchanged(self.port, pieces), wanted.answers)
        except Short as short:
            # a system that closes a connection of which bytes are unread drops what it hasn't sent yet
            found = None if wanted.read < len(data) else f"{short}, wanted {wanted.answers[-3:]}"
            self.cut_short += wanted.read < len(data)
        self.packets, self.connections = self.packets + packets, self.connections + 1
        self.unread += wanted.read < len(data)
        for answer in wanted.answers:
            self.told.update(kind_of(reply) for reply in answer.replies)
        if found:
            self.wrong.append(f"client {self.number}, connection {self.connections}: {found}\n  sent {data!r}")
            print(self.wrong[-1], flush=True)
            self.begin_anew()

    def begin_anew(self):
        """Empties the indexes, after which again is known what they have."""
        client = Client(self.port)
        for name in named(self.number):
            client.queries(f"TRUNCATE RTINDEX {name}; OPTIMIZE INDEX {name}")
        client.quit()
        self.stores = stores_of(self.number)


def kind_of(reply):
    """The kind of a reply: of a refusal its text without places, numbers and names."""
    if not reply.startswith("ERR "):
        return "OK and result sets"
    return re.sub(r"(?<![-\w])\d+", "N", re.sub(r"'[^']*'", "'n'", reply[15:]))


def work(options, port, number, queue):
    """A hostile client in a process of its own."""
    hostile = Hostile(options, port, number)
    share, step = options.packets // options.clients, options.packets // options.clients // LOOKS
    try:
        for look in range(1, LOOKS + 1):
            while hostile.packets < (share if look == LOOKS else step * look) and len(hostile.wrong) < PRINTED:
                hostile.connect()
            queue.put((number, None))
    except (OSError, Lost, Refused) as error:
        hostile.wrong.append(f"client {number}, connection {hostile.connections + 1}: {error}")
    kept = {name: (len(store.fresh) + len(store.kept), store.chunks) for name, store in hostile.stores.items()}
    counts = hostile.packets, hostile.connections, hostile.unread, hostile.cut_short
    queue.put((number, (counts, hostile.wrong, hostile.told, kept)))


class Shopper:
    """A client that asks as one does, and looks whether it finds the same each time."""

    def __init__(self, port):
        self.port = port

    def work(self, ends, queue):
        """Asks until it is told to end; puts the times of its statements, and what went wrong."""
        times, wrong = [], None
        try:
            client = Client(self.port)
            client.query(f"REPLACE INTO {SHOP} (id, title) VALUES (1, 'tea'), (2, 'tea pot'), (3, 'cup')")
            while not ends.is_set():
                before = time.perf_counter()
                rows = client.query(f"SELECT id FROM {SHOP} WHERE MATCH('tea') ORDER BY id ASC").rows
                times.append(time.perf_counter() - before)
                wrong = wrong or (None if rows == [["1"], ["2"]] else f"found {rows}")
                time.sleep(0.002)
            client.quit()
        except (Lost, Refused) as error:
            wrong = str(error)
        queue.put((None, (sorted(times), wrong)))


class Run:
    """A run: the clients, and what they and the daemon were seen to do."""

    def __init__(self, options, folder):
        self.options, self.folder, self.memory = options, folder, []
        names = [named(number) for number in range(options.clients)]
        indexes = {SHOP: COLUMNS}
        for plain, zoned in names:
            indexes |= {plain: columns_of_plain(), zoned: ZONED}
        self.daemon = Daemon(options.program, folder, indexes, options.clients + 2)
        self.results, self.usual, self.wrong = {}, ([], None), []

    def go(self):
        self.daemon.start()
        self.daemon.client().quit()
        queue, ends = FORK.Queue(), FORK.Event()
        other = FORK.Process(target=Shopper(self.daemon.port).work, args=(ends, queue))
        processes = [
            FORK.Process(target=work, args=(self.options, self.daemon.port, number, queue)) for number in range(self.options.clients)
        ]
        for process in (other, *processes):
            process.start()
        looks = 0
        while len(self.results) < self.options.clients:
            number, result = queue.get(timeout=3600)
            self.daemon.look()
            if number is None:
                self.usual = result
            elif result:
                self.results[number] = result
            else:
                looks += 1
                if looks % self.options.clients == 0:
                    self.memory.append(resident(self.daemon.process.pid))
                    print(f"{100 * len(self.memory) // LOOKS} of 100: {self.memory[-1] / 2**20:.1f} MB", flush=True)
        ends.set()
        while not self.usual[0] and self.usual[1] is None:
            self.usual = queue.get(timeout=60)[1]
        self.daemon.look()
        self.daemon.stop()

    def check(self):
        """What a check says of each index, where it isn't what is told."""
        command = [self.options.program, "check", "--config", str(self.folder / "searchd.conf")]
        lines = subprocess.run(command, capture_output=True, text=True, timeout=PATIENCE).stdout.splitlines()
        for *_, kept in self.results.values():
            for name, (documents, chunks) in kept.items():
                wanted = f"{name}: {documents} documents, {chunks} disk chunks, "
                if not any(line.startswith(wanted) for line in lines):
                    yield f"a check says {lines}, wanted {wanted}"

    def judge(self):
        """What went wrong."""
        yield from (wrong for _, some, _, _ in self.results.values() for wrong in some)
        if self.usual[1]:
            yield f"the other client: {self.usual[1]}"
        half = len(self.memory) // 2
        if half and max(self.memory[half:]) > 1.1 * max(self.memory[:half]) + 8 * 2**20:
            yield "memory isn't level"
        if not any(some for _, some, _, _ in self.results.values()):
            yield from self.check()

    def said(self):
        packets, connections, unread, short = (sum(result[0][place] for result in self.results.values()) for place in range(4))
        told = sum((result[2] for result in self.results.values()), collections.Counter())
        print(f"{packets:,} packets on {connections:,} connections; {unread:,} of these were ended with bytes unread, and {short:,} of "
              "those lacked the end of what was written; replies:")  # fmt: skip
        for kind, count in told.most_common():
            print(f"{count:10,}  {kind}")
        times = self.usual[0]
        if times:
            half, most = (times[int(len(times) * share)] * 1000 for share in (0.5, 0.99))
            print(f"the other client: {len(times):,} SELECTs, half within {half:.2f} ms, 99 of 100 within {most:.2f} ms, "
                  f"the longest {times[-1] * 1000:.1f} ms")  # fmt: skip
        return packets


def options():
    words = argparse.ArgumentParser(description=__doc__.split("\n\n", maxsplit=1)[0])
    words.add_argument("--program", required=True)
    words.add_argument("--packets", type=int, default=1000000)
    words.add_argument("--seed", type=int, default=1)
    words.add_argument("--clients", type=int, choices=(1, 2, 3), default=2)
    words.add_argument("--longest", type=int, default=120, help="packets of one connection, at most")
    words.add_argument("--folder", help="where the indexes stand: below the system's folder for temporary files")
    return words.parse_args()


def main():
    given = options()
    with tempfile.TemporaryDirectory(prefix="hostile_packets.", dir=given.folder) as folder:
        run = Run(given, Path(folder))
        try:
            run.go()
            wrong = list(run.judge())
        except (Ended, Lost, Refused) as error:
            wrong = [str(error)]
        finally:
            if run.daemon.process:
                run.daemon.kill()
    packets = run.said()
    for text in wrong:
        if not text.startswith("client "):  # those were printed when they were met
            print(text)
    return ended("hostile_packets", packets, len(wrong))


if __name__ == "__main__":
    sys.exit(main())
