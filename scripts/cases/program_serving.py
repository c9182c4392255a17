"""Serves connections over a port by the lines of docs/cases/runs.md."""

import re
import select
import socket
import subprocess
import time

from scripts.clients.daemon import free_port
from scripts.cases.case_sessions import taken
from scripts.cases.program_lines import text_of

GREETING = 82
# For how long nothing comes where nothing is to come, in seconds.
SILENCE = 0.3
QUIT = b"\x01\0\0\0\x01"


class Serving:
    """`serve` with some options over an empty index `rt`."""

    def __init__(self, program, folder, options):
        self.program, self.folder, self.port = program, folder, free_port()
        (folder / "searchd.conf").write_bytes(text_of("", ["rt"]))
        listen = ["--listen", f"127.0.0.1:{self.port}"]
        command = [program.path, "serve", "--config", "searchd.conf", *listen, *options.split()]
        self.process = subprocess.Popen(command, cwd=folder, stdout=subprocess.PIPE, stderr=subprocess.STDOUT)

    def __enter__(self):
        return self

    def __exit__(self, *_):
        self.process.kill()
        self.process.communicate()

    def connected(self):
        """A connection, once the program listens."""
        end = time.monotonic() + self.program.patience()
        while True:
            try:
                return socket.create_connection(("127.0.0.1", self.port), self.program.patience())
            except ConnectionRefusedError:
                assert self.process.poll() is None and time.monotonic() < end, "the program doesn't listen"
                time.sleep(0.005)

    def ended(self):
        """The status with which the program ends by itself, all that it printed, and what a check says then."""
        printed, _ = self.process.communicate(timeout=self.program.patience())
        command = [self.program.path, "check", "--config", "searchd.conf"]
        ran = subprocess.run(command, cwd=self.folder, capture_output=True, timeout=self.program.patience())
        return f"{self.process.returncode} {printed.decode()}{ran.stdout.decode()}{ran.stderr.decode()}"


def look(connection, wanted):
    found = taken(connection.recv, len(wanted))
    assert found == wanted, f"written {found.hex(' ')}, wanted {wanted.hex(' ')}"


def look_at_greetings(found, wanted):
    """Each worker numbers its connections, and any worker takes the next one: so greetings come in any order."""
    assert sorted(found) == sorted(wanted), f"greeted as {[greeting[16] for greeting in found]}"


def one_by_one(program, folder, line, bytes_of):
    """Lets connections come one after the other, and gives how the program ends."""
    _, options, connections = line.parts
    lines = [bytes_of.line(words.strip()) for words in f" {connections}".split(" + ")]
    greetings = []
    with Serving(program, folder, options) as serving:
        for sent, written in lines:
            with serving.connected() as connection:
                greetings.append(taken(connection.recv, GREETING))
                connection.sendall(sent)
                look(connection, written[GREETING:])
                connection.shutdown(socket.SHUT_WR)
                assert not connection.recv(1), "more was written"
        look_at_greetings(greetings, [written[:GREETING] for _, written in lines])
        return serving.ended()


def turns_of(words, bytes_of):
    """The greeting of a connection, and its packets with their turns and their replies; QUIT has none."""
    sent, _, written = words.partition(" => ")
    packets = [re.fullmatch(r"@(\d+) (.*)", packet).groups() for packet in sent.strip().split("; ")]
    greeting, *replies = (bytes_of.one(part) for part in written.strip().split("; "))
    replies += [b""] * (len(packets) - len(replies))
    return greeting, [(int(turn), bytes_of.one(packet), reply) for (turn, packet), reply in zip(packets, replies)]


def in_turn(program, folder, line, bytes_of):
    """Lets connections send in turn, once all are greeted, and gives how the program ends."""
    _, options, words = line.parts
    lines = [turns_of(one, bytes_of) for one in words.split(" / ")]
    with Serving(program, folder, options) as serving:
        connections = [serving.connected() for _ in lines]
        look_at_greetings([taken(connection.recv, GREETING) for connection in connections], [greeting for greeting, _ in lines])
        packets = [(turn, connection, *rest) for connection, (_, some) in zip(connections, lines) for turn, *rest in some]
        for _, connection, packet, reply in sorted(packets, key=lambda packet: packet[0]):
            connection.sendall(packet)
            look(connection, reply)
        for connection in connections:
            assert not connection.recv(1), "more was written"
            connection.close()
        return serving.ended()


def is_greeted(connection, seconds):
    """Whether a connection is greeted within so many seconds."""
    return bool(select.select([connection], [], [], seconds)[0]) and len(taken(connection.recv, GREETING)) == GREETING


def at_once(program, folder, line):
    """How many connections are greeted at once. The next one is once the first has left."""
    with Serving(program, folder, line.parts[1]) as serving:
        connections = [serving.connected()]
        while is_greeted(connections[-1], program.patience() if len(connections) <= int(line.wanted) else SILENCE):
            connections.append(serving.connected())
        connections[0].sendall(QUIT)
        connections[0].close()
        assert is_greeted(connections[-1], program.patience()), "the next one isn't greeted"
        for connection in connections:
            connection.close()
        return str(len(connections) - 1)
