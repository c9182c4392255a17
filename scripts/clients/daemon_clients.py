"""Lets clients of many makers at a daemon, all at once.

    python3 -m scripts.clients.daemon_clients --program PROGRAM [--sphinx] [--count N]

starts the daemon with eight workers over an empty folder, and then the programs of scripts/clients together. Each adds N
documents of its own (100 if nothing is said) with quotes, backslashes, line feeds and Cyrillic letters in their texts,
and meanwhile asks for them; rolls a transaction back and commits one; is refused a document that is there; takes a page
with a facet; and deletes. It fails at the first reply that isn't what it wrote. At the end all documents are counted by a
client of this script's own. It prints a line for each, one with `skipped` where its package isn't there, and the status
is 1 where one failed.
"""

import argparse
import os
import subprocess
import sys
import tempfile
import time
from pathlib import Path

from scripts.figures import hundred_words as documents
from scripts.clients.daemon import COLUMNS, Daemon

CLIENTS = Path(__file__).resolve().parent
NODE_PATH = "/usr/share/nodejs"
# of each: how its program is run, what succeeds where the client is there, and the packages of Debian
PROGRAMS = {
    "mariadb.sh": (["bash"], ["mariadb", "--version"], "mariadb-client"),
    "pymysql_client.py": (["/usr/bin/python3"], ["/usr/bin/python3", "-c", "import pymysql"], "python3-pymysql"),
    "perl.pl": (["perl"], ["perl", "-MDBD::mysql", "-e", "1"], "libdbd-mysql-perl"),
    "php.php": (["php"], ["php", "-r", "exit(class_exists('mysqli') ? 0 : 1);"], "php-cli, php-mysql"),
    "ruby.rb": (["ruby"], ["ruby", "-rmysql2", "-e", "1"], "ruby, ruby-mysql2"),
    "node.js": (["node"], ["node", "-e", "require('mysql')"], "nodejs, node-mysql"),
}
WORKERS = 8


def is_there(probe, environment):
    try:
        return subprocess.run(probe, env=environment, capture_output=True, check=False).returncode == 0
    except OSError:
        return False


def started(port, count):
    """The programs, each with documents from another id on; and the names of those that aren't there."""
    environment = {**os.environ, "NODE_PATH": NODE_PATH}
    there = [name for name, (_, probe, _) in PROGRAMS.items() if is_there(probe, environment)]
    running = {}
    for place, name in enumerate(there):
        words = [*PROGRAMS[name][0], CLIENTS / name, str(port), str(place * 1000000 + 1), str(count)]
        running[name] = subprocess.Popen(
            words, env=environment, stdout=subprocess.PIPE, stderr=subprocess.STDOUT, text=True, stdin=subprocess.DEVNULL
        )
    return running, [name for name in PROGRAMS if name not in there]


def tried(daemon, count):
    """Runs all clients, and prints what they said; whether nothing was wrong."""
    own = daemon.client()
    before = time.monotonic()
    running, missing = started(daemon.port, count)
    said = {name: process.communicate(timeout=1800)[0].strip() for name, process in running.items()}
    taken = time.monotonic() - before
    for name in PROGRAMS:
        print(said.get(name) or f"{name}: skipped, since a package is missing: {PROGRAMS[name][2]}")
    well = all(process.returncode == 0 for process in running.values())
    found = int(own.query("SELECT COUNT(*) FROM rt").rows[0][0]) if running else 0
    own.quit()
    print(f"{len(running)} clients at once in {taken:.1f} s, {len(missing)} skipped; {found} documents")
    return well and found == len(running) * (count + 1)


def main():
    words = argparse.ArgumentParser(description=__doc__.split("\n\n", maxsplit=1)[0])
    words.add_argument("--program", required=True)
    words.add_argument("--count", type=int, default=100)
    words.add_argument("--sphinx", action="store_true", help="PROGRAM is searchd of Sphinx 2.2")
    given = words.parse_args()
    with tempfile.TemporaryDirectory() as folder:
        daemon = Daemon(given.program, Path(folder), {"rt": COLUMNS}, WORKERS, given.sphinx)
        daemon.start()
        try:
            return 0 if tried(daemon, given.count) else 1
        finally:
            daemon.kill()


if __name__ == "__main__":
    sys.exit(main())
