"""Sends scripts of packets to the program, and tells what it replies.

A script with one client is sent to `session` over its standard streams, all at once; one of two clients, or in which a client
leaves and comes again, to `serve` with two workers on a port of loopback, packet by packet. Either runs in an empty folder of
its own over the configuration of the script, and is ended before the script is.
"""

import fcntl
import subprocess
import tempfile
import termios
import threading
import time
from pathlib import Path
from typing import NamedTuple

from scripts.cases.case_pages import written_out
from scripts.cases.jobs_between import as_in_memory
from scripts.clients.daemon import Daemon, Ended, free_port
from scripts.clients.mysql_client import Client, Lost, handshake
from scripts.cases.replies import Strange, split, told

QUIT = "COM_QUIT"
NAMED = ("COM_PING", "COM_INIT_DB", "COM_SET_OPTION", "COM_FIELD_LIST", "COM_UNKNOWN", QUIT)
# What one script may take, in seconds, and how many times as much all may take together.
LONGEST, TIMES = 60, 10
# How a line ends where the client sends nothing more; at all other ends it still could.
ENDS_OF_INPUT = ("end", "truncated")
# What isn't a reply of the protocol comes up as one of these.
UNREAD = (Strange, Lost, Ended, IndexError, ValueError)


class Program:
    """The program, and for how many seconds one script is waited for."""

    def __init__(self, path, longest=LONGEST):
        self.path, self.longest, self.end = str(Path(path).resolve()), longest, time.monotonic() + TIMES * longest

    def patience(self):
        return min(self.longest, max(1, self.end - time.monotonic()))

    def session(self):
        return [self.path, "session", "--config", "conf"]


class Wrong(NamedTuple):
    """A packet to which something else was replied than is wanted."""

    place: str
    case: str
    packet: str
    found: str
    wanted: str

    def said(self):
        return f"{self.place}: {short(self.packet)} ⇒ {short(self.found)}, wanted {short(self.wanted)}"


def told_by_case(wrong):
    """What is wrong, as one text for each case; what belongs to none is one of its own."""
    texts = {}
    for some in wrong:
        texts.setdefault(some.case or some.place, []).append(some.said())
    return ["\n".join(said) for said in texts.values()]


def short(text):
    """A text as it is printed, without the middle of a long one."""
    return text if len(text) <= 600 else f"{text[:400]} .. {text[-150:]}"


def payload_of(packet):
    """The payload of a packet: the command that it names, or else the query whose text it is."""
    name, _, rest = packet.partition(" ")
    if name not in NAMED:
        return b"\x03" + written_out(packet)
    if name == "COM_UNKNOWN":
        return bytes([int(rest)]) if rest else b""
    if name == "COM_SET_OPTION":
        return b"\x1b" + int(rest).to_bytes(2, "little")
    return {"COM_PING": b"\x0e", "COM_INIT_DB": b"\x02", "COM_FIELD_LIST": b"\x04", QUIT: b"\x01"}[name] + rest.encode()


def whole_packet(place, payload):
    """The bytes of a packet with this number."""
    return len(payload).to_bytes(3, "little") + bytes([place]) + payload


class Bytes:
    """Bytes that are taken from the front on."""

    def __init__(self, data):
        self.data, self.at = data, 0

    def take(self, size):
        if self.at + size > len(self.data):
            raise Strange(f"the program wrote {len(self.data) - self.at} bytes where {size} are due")
        self.at += size
        return self.data[self.at - size : self.at]

    def pass_over(self, packets):
        for _ in range(packets):
            split(self.take)

    def rest(self):
        return self.data[self.at :]


def taken(more, size):
    """So many bytes of a stream, or those up to its end; a call gives the next ones, at most as many as it is asked for."""
    data = b""
    while len(data) < size:
        piece = more(size - len(data))
        if not piece:
            break
        data += piece
    return data


class TakingClient(Client):
    """A client whose replies are taken as bytes."""

    def take(self, size):
        return self._take(size)

    def is_over(self):
        """Whether the program ends the connection, and writes nothing before."""
        return self.at == len(self.ahead) and not self.socket.recv(1)


class Served(Daemon):
    """`serve` over the configuration of a folder, by two workers where no options are given."""

    kind = TakingClient

    def __init__(self, program, folder, *options):
        self.port, self.process, self.cwd, self.errors = free_port(), None, folder, folder / "stderr"
        listen = ["--listen", f"127.0.0.1:{self.port}", *(options or ("--workers", "2"))]
        self.command = [program.path, "serve", "--config", "conf", *listen]


def compare(step, take):
    """Takes the reply to a step, and gives what is wrong with it, None where it is as wanted."""
    text, whole = told(take)
    text = as_in_memory(step, text) if step.after else text
    wanted = written_out(step.wanted)
    if step.by_end:
        whole = whole[-len(wanted) :]
    if (whole if step.by_bytes else text.encode()) == wanted:
        return None
    shown = (whole.hex(" "), wanted.hex(" ")) if step.by_bytes else (text, step.wanted)
    return Wrong(step.place, step.case, step.packet, *shown)


def failed(steps, why):
    """The cases of all these steps are wrong, for one cause."""
    first = {step.case: step for step in reversed(steps)}
    return [Wrong(step.place, case, step.packet, why, step.wanted) for case, step in reversed(first.items())]


def over_pipes(program, folder, steps):
    """What is wrong where one client sends all steps to `session`."""
    sent = whole_packet(1, handshake()) + b"".join(whole_packet(0, payload_of(step.packet)) for step in steps)
    try:
        ran = subprocess.run(program.session(), cwd=folder, input=sent, capture_output=True, timeout=program.patience())
    except subprocess.TimeoutExpired as why:
        return failed(steps, f"no end after {why.timeout:.0f} seconds")
    replies, wrong = Bytes(ran.stdout), []
    for number, step in enumerate(steps):
        try:
            if number == 0:
                replies.pass_over(2)  # the greeting, and the OK of the response
            wrong.append(compare(step, replies.take))
        except UNREAD as why:
            return [*filter(None, wrong), *failed(steps[number:], f"{why}; status {ran.returncode} {ran.stderr.decode()}")]
    if ran.returncode or ran.stderr or replies.rest():
        end = f"and then {replies.rest().hex(' ')}, status {ran.returncode} {ran.stderr.decode()}"
        wrong += failed(steps[-1:], end)
    return list(filter(None, wrong))


def over_a_port(program, folder, steps):
    """What is wrong where clients send the steps to `serve`."""
    served, clients, wrong = Served(program, folder), {}, []
    served.start()
    try:
        for number, step in enumerate(steps):
            try:
                wrong.append(ask(program, served, clients, step))
            except (*UNREAD, OSError) as why:
                wrong += failed(steps[number:], str(why))
                break
        return list(filter(None, wrong))
    finally:
        served.kill()


def ask(program, served, clients, step):
    """What is wrong with the reply to a step, whose client comes anew where it isn't there."""
    if step.client not in clients:
        clients[step.client] = served.client(program.patience())
        clients[step.client].socket.settimeout(program.patience())
    client = clients[step.client]
    client.command(payload_of(step.packet))
    if step.packet != QUIT:
        return compare(step, client.take)
    is_over = client.is_over()
    clients.pop(step.client).close()
    return None if is_over and step.wanted == "end" else failed([step], "the connection goes on")[0]


def run_script(program, script):
    """What is wrong with the replies to a script."""
    with tempfile.TemporaryDirectory(prefix="case_runs.") as folder:
        folder = Path(folder)
        (folder / "conf").write_text(script.configuration + "\n", encoding="utf8")
        serves = any(step.client != "A" or step.packet == QUIT for step in script.steps)
        return (over_a_port if serves else over_pipes)(program, folder, script.steps)


def cuts(line):
    """Where a line is cut: nowhere, or after each number of its bytes."""
    return range(len(written_out(line.sent)) + 1) if line.is_cut else [0]


def conversed(program, configuration, talk):
    """What `session` writes to a client that talks so, and how it ends."""
    with tempfile.TemporaryDirectory(prefix="case_runs.") as folder:
        (Path(folder) / "conf").write_text(configuration + "\n", encoding="utf8")
        pipes = dict.fromkeys(("stdin", "stdout", "stderr"), subprocess.PIPE)
        with subprocess.Popen(program.session(), cwd=folder, bufsize=0, **pipes) as process:
            alarm = threading.Timer(program.patience(), process.kill)
            alarm.start()
            try:
                written = talk(process)
                return f"{written.hex(' ')}, status {process.wait()} {process.stderr.read().decode()}"
            except OSError as why:
                return str(why)
            finally:
                alarm.cancel()
                process.kill()


def run_line(program, configuration, line, cut):
    """What is wrong with a line whose first bytes come by themselves."""
    found = conversed(program, configuration, lambda process: talked(process, line, cut))
    wanted = f"{written_out(line.written).hex(' ')}, status 0 "
    return [] if found == wanted else [Wrong(line.place, line.place, f"{line.sent}, first {cut} bytes", found, wanted)]


def talked(process, line, cut):
    """What the program writes on a line, up to its end."""
    sent = written_out(line.sent)
    process.stdin.write(sent[:cut])
    wait_until_read(process)
    process.stdin.write(sent[cut:])
    if line.end in ENDS_OF_INPUT:
        process.stdin.close()
    return process.stdout.read()


def wait_until_read(process):
    """Waits until the program has read all that was sent."""
    while process.poll() is None and fcntl.ioctl(process.stdin, termios.FIONREAD, bytes(4)) != bytes(4):
        time.sleep(0.001)
