"""Clients of one listener, as docs/cases/packets.md has them: how many are served, and what becomes of calls that are
interrupted or that fail.

A stopped program that goes on has its waiting calls interrupted where they have a limit of time, as all reads and writes over
a connection have ("Interruption of system calls and library functions by stop signals" of Linux's signal(7)).
"""

import signal
import socket
import struct
import subprocess
import tempfile
import time
from contextlib import contextmanager
from pathlib import Path
from typing import NamedTuple

from scripts.cases.case_sessions import UNREAD, Served, Wrong, payload_of
from scripts.clients.daemon import processor
from scripts.cases.replies import told

# The rows of the index `numbers`, which are asked for so often in one text, so many texts, and the number in each cell.
ROWS, TIMES, TEXTS = 250, 10, 5
ATTRIBUTES, NUMBER = 32, -(2**63)


class Case(NamedTuple):
    """A case: its name, the configuration, the call that tells what was found, and what is wanted."""

    name: str
    configuration: str
    run: object
    wanted: str


def run(program, page, case):
    """What is wrong with a case."""
    with tempfile.TemporaryDirectory(prefix="packet_runs.") as folder:
        folder = Path(folder)
        (folder / "conf").write_text(page.configurations[case.configuration] + "\n", encoding="utf8")
        try:
            found = case.run(program, folder)
        except (*UNREAD, OSError, subprocess.TimeoutExpired) as why:
            found = f"{type(why).__name__}: {why}"
    return [] if found == case.wanted else [Wrong(page.path, case.name, case.name, found, case.wanted)]


@contextmanager
def serving(program, folder, *options):
    """The program that serves a folder, until the case is over."""
    served = Served(program, folder, *options)
    served.start()
    try:
        yield served
    finally:
        served.kill()


def asked(program, served):
    """A client that waits for no reply longer than the program may take."""
    client = served.client(program.patience())
    client.socket.settimeout(program.patience())
    return client


def answer(client, packet):
    client.command(payload_of(packet))
    return told(client.take)[0]


def two_and_two(program, folder):
    """Two clients at once, and two more when they have gone away."""
    answers = []
    with serving(program, folder, "--workers", "2", "--sessions", "2") as served:
        for word in ("hello", "again"):
            clients = [asked(program, served), asked(program, served)]
            answers += [answer(client, f"SELECT id FROM {word}") for client in clients]
            for client in clients:
                client.close()
        status = served.process.wait(program.patience())
        return f"{'; '.join(answers)}; status {status} {served.said()}"


def in_use(program, folder):
    """A port that somebody else listens on."""
    with socket.create_server(("127.0.0.1", 0)) as other:
        listen = f"127.0.0.1:{other.getsockname()[1]}"
        words = [program.path, "serve", "--config", "conf", "--listen", listen]
        silent = {"stdin": subprocess.DEVNULL, "capture_output": True}
        ran = subprocess.run(words, cwd=folder, timeout=program.patience(), **silent)
    said = f"{ran.stdout.decode()}{ran.stderr.decode()}"
    return f"status {ran.returncode} {said.replace(listen, 'A')}"


def states(pid):
    """The states of the program's threads."""
    stats = [path.read_text() for path in Path(f"/proc/{pid}/task").glob("*/stat")]
    return {stat.rpartition(")")[2].split()[0] for stat in stats}


def wait_for(program, pid, state):
    """Waits until all threads of the program are in a state, and have done nothing for a while."""
    end, before = time.monotonic() + program.patience(), None
    while time.monotonic() < end:
        now = processor(pid) if states(pid) == {state} else None
        if now is not None and now == before:
            return
        before = now
        time.sleep(0.05)
    raise TimeoutError(f"the program's threads are {states(pid)}")


def interrupt(program, served, times):
    """Stops the program, which waits, and lets it go on, so often."""
    pid = served.process.pid
    for _ in range(times):
        wait_for(program, pid, "S")
        served.process.send_signal(signal.SIGSTOP)
        wait_for(program, pid, "T")
        served.process.send_signal(signal.SIGCONT)
    wait_for(program, pid, "S")


def read_again(program, folder):
    """The program is interrupted while it reads."""
    with serving(program, folder) as served:
        client = asked(program, served)
        interrupt(program, served, 2)
        return answer(client, "COM_PING")


def ask_for_much(client):
    """Fills an index, and asks for more of it than lies on the way to a client that takes nothing."""
    answer(client, f"INSERT INTO numbers VALUES ⟨(#, ''{f', {NUMBER}' * ATTRIBUTES}) × {ROWS}⟩")
    for _ in range(TEXTS):
        client.command(payload_of("; ".join([f"SELECT * FROM numbers LIMIT {ROWS}"] * TIMES)))


def much():
    """What is replied to one of these texts."""
    columns = ", ".join(["id", *(f"a{number}:Whole" for number in range(ATTRIBUTES))])
    rows = "".join(f" | {number}" + f", {NUMBER}" * ATTRIBUTES for number in range(1, ROWS + 1))
    return "; ".join([columns + rows] * TIMES)


def written_again(program, folder):
    """The program is interrupted while it writes."""
    with serving(program, folder) as served:
        client = asked(program, served)
        ask_for_much(client)
        interrupt(program, served, 4)
        first, whole = told(client.take)
        others = [client.take(len(whole)) for _ in range(1, TEXTS)]
        all_same = all(other == whole for other in others)
        return f"{first == much()} and {all_same}; {answer(client, 'COM_PING')}"


def reset(client):
    """Ends a connection at once, whatever is on its way."""
    client.socket.setsockopt(socket.SOL_SOCKET, socket.SO_LINGER, struct.pack("ii", 1, 0))
    client.close()


def gone_away(program, folder):
    """One worker, two of whose three clients go away."""
    with serving(program, folder, "--workers", "1") as served:
        reset(asked(program, served))
        client = asked(program, served)
        ask_for_much(client)
        wait_for(program, served.process.pid, "S")
        reset(client)
        return answer(asked(program, served), "COM_PING")


IN_USE = "Address already in use (os error 98)"
UNKNOWN = "ERR 1064 42000 unknown index '{}'"
ANSWERS = "; ".join(UNKNOWN.format(word) for word in ("hello", "hello", "again", "again"))
CASES = (
    Case("two clients, and two more", "two", two_and_two, f"{ANSWERS}; status 0 "),
    Case("an address in use", "two", in_use, f"status 4 searchd: host fault\nsearchd: listening at A: {IN_USE}\n"),
    Case("a read that is interrupted", "two", read_again, "OK 0"),
    Case("a write that is interrupted", "numbers", written_again, "True and True; OK 0"),
    Case("clients that go away", "numbers", gone_away, "OK 0"),
)
