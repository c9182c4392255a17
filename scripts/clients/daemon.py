"""A daemon over a folder, as the scripts start, kill and end it.

One configuration serves the program of this repository and Sphinx 2.2: the section `searchd` in it is Sphinx's alone.
"""

import random
import socket
import subprocess
import time

from scripts.clients.mysql_client import Client, Lost

# The columns of an index with two fields and an attribute of each kind.
COLUMNS = [
    "rt_field = title",
    "rt_field = content",
    "rt_attr_uint = gid",
    "rt_attr_bool = in_stock",
    "rt_attr_bigint = price",
    "rt_attr_timestamp = added",
]

INDEX = """index {name}
{{
    type = rt
    path = {folder}/{name}
    rt_mem_limit = 1900M
{columns}
}}
"""

SPHINX = """searchd
{{
    listen = 127.0.0.1:{port}:mysql41
    pid_file = {folder}/searchd.pid
    log = {folder}/searchd.log
    binlog_path = {folder}
    binlog_flush = 2
    workers = threads
    max_packet_size = 64M
}}
"""


class Ended(Exception):
    """The daemon ended by itself."""


class Daemon:
    """A daemon that listens on a port of loopback; `indexes` has the lines of columns of each index by its name."""

    # what its clients are, and where it runs
    kind, cwd = Client, None

    def __init__(self, program, folder, indexes, workers, sphinx=False):
        self.port, self.process, self.errors = free_port(), None, folder / "stderr"
        conf = folder / "searchd.conf"
        self.command = [program, "--config", str(conf), "--nodetach"]
        if not sphinx:
            listen = ["--listen", f"127.0.0.1:{self.port}", "--workers", str(workers)]
            self.command = [program, "serve", "--config", str(conf), *listen]
        texts = [
            INDEX.format(name=name, folder=folder, columns="\n".join(f"    {column}" for column in columns))
            for name, columns in indexes.items()
        ]
        conf.write_text("".join(texts) + SPHINX.format(port=self.port, folder=folder))

    def start(self):
        """Starts it, and waits for nothing."""
        with self.errors.open("wb") as errors:
            self.process = subprocess.Popen(
                self.command, cwd=self.cwd, stdin=subprocess.DEVNULL, stdout=subprocess.DEVNULL, stderr=errors
            )

    def client(self, patience=300):
        """A client, as soon as the daemon listens."""
        end = time.monotonic() + patience
        while True:
            try:
                return self.kind(self.port)
            except Lost as lost:
                self.look()
                if time.monotonic() > end:
                    raise Ended(f"no client was let in for {patience} seconds: {lost}") from lost
                time.sleep(0.002)

    def look(self):
        """Ended if it isn't running."""
        status = self.process.poll()
        if status is not None:
            raise Ended(f"the daemon ended by itself with status {status}: {self.said() or 'no line on stderr'}")

    def said(self):
        """What it wrote to its standard error since it was started."""
        return self.errors.read_text(errors="replace").strip()

    def kill(self):
        """SIGKILL, and its end."""
        self.process.kill()
        self.process.wait()

    def stop(self):
        """SIGTERM, and its end."""
        self.process.terminate()
        self.process.wait(60)


def resident(pid):
    """The bytes of memory that a process has, of those that are in use by it now."""
    return memory(pid, "VmRSS:")


def most(pid):
    """The most bytes of memory that a process has had, since it began or since `forget_most`."""
    return memory(pid, "VmHWM:")


def forget_most(pid):
    """From now on the most memory is counted anew."""
    with open(f"/proc/{pid}/clear_refs", "w", encoding="ascii") as refs:
        refs.write("5")


def memory(pid, kind):
    with open(f"/proc/{pid}/status", encoding="ascii") as lines:
        return next(int(line.split()[1]) * 1024 for line in lines if line.startswith(kind))


def processor(pid):
    """The seconds of processors that a process has used, by the clock that Linux keeps of it."""
    return time.clock_gettime(~pid << 3 | 2)


def free_port():
    """A port of loopback that nobody listens on, below those that the system gives to clients."""
    while True:
        port = random.SystemRandom().randrange(10000, 30000)
        with socket.socket() as probe:
            probe.setsockopt(socket.SOL_SOCKET, socket.SO_REUSEADDR, 1)
            try:
                probe.bind(("127.0.0.1", port))
                return port
            except OSError:
                continue
