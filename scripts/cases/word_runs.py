"""Calls the program that was built with the lists of words of docs/cases/words.md, and looks which mode they ask for.

    python3 -m scripts.cases.word_runs --program PROGRAM [--longest SECONDS]

Each list has an empty folder of its own, with a configuration at the path that its words name, and else at `F`:

    Usage       status 2 and `bad arguments`, and the index of the configuration isn't made
    session     the greeting, and the index is made
    check       the line of its index
    serve       where the text at its path is no configuration, the line of its fault; where its address is `A`, which is none, a
                host fault once the index is made, and with an address in its place a client is greeted
    selftest    the summary that a scan finds; one of many documents runs, which is all that is waited for

A path at which no file can be is a host fault, which has a second line, with the path or the address. The addresses and numbers that
words stand for are tried by `command_vectors`.

A list is one case.
"""

import subprocess
import sys
import tempfile
from pathlib import Path

from scripts.cases.command_words import DOCUMENT, lists
from scripts.cases.runs import finish, lost, options, program_of, side_by_side
from scripts.clients.daemon import Daemon, free_port
from scripts.gate.selftest_run import summary

KNOWN = {DOCUMENT: 515}
CONFIGURATION = "index seen\n{\ntype = rt\npath = made\nrt_field = title\n}\n"
# Where it is no configuration any more.
FAULTY = CONFIGURATION + "\n" * 13 + "no\n"
FAULT = "searchd: config line 20: unknown section\n"
USAGE, HOST_FAULT = "searchd: bad arguments\n", "searchd: host fault\n"
MANY, SOON = 10_000, 2


class Called(Daemon):
    """`serve`, called by these words in a folder, with an address of loopback in the place of `A`."""

    def __init__(self, program, folder, words):
        self.port, self.process, self.cwd, self.errors = free_port(), None, folder, folder / "stderr"
        self.command = [program.path, *(f"127.0.0.1:{self.port}".encode() if word == b"A" else word for word in words)]


def call(program, folder, words, longest=None):
    """What the words come to: the status, what is printed to the output, and to the errors."""
    ran = subprocess.run(
        [program.path, *words], cwd=folder, stdin=subprocess.DEVNULL, capture_output=True, timeout=longest or program.patience()
    )
    return ran.returncode, ran.stdout, ran.stderr.decode()


def is_host_fault(called, doing):
    """Whether a call was a host fault, as the program did this."""
    status, out, errors = called
    said, _, cause = errors.partition("\n")
    return (status, out, said + "\n") == (4, b"", HOST_FAULT) and cause.startswith(f"searchd: {doing}: ")


def put(folder, path, text):
    """Writes a text below a folder. Whether a file can be at this path."""
    if path.startswith("/") or any(len(name.encode()) > 255 for name in path.split("/")):
        return False
    (folder / path).parent.mkdir(parents=True, exist_ok=True)
    (folder / path).write_text(text, encoding="utf8")
    return True


def of_usage(program, folder, one):
    put(folder, "F", CONFIGURATION)
    return call(program, folder, one.words) == (2, b"", USAGE) and not (folder / "made").exists()


def of_session(program, folder, one):
    if not put(folder, one.values["config"], CONFIGURATION):
        return is_host_fault(call(program, folder, one.words), f"reading {one.values['config']}")
    status, out, errors = call(program, folder, one.words)
    return (status, errors) == (0, "") and len(out) == 82 and (folder / "made").exists()


def of_check(program, folder, one):
    if not put(folder, one.values["config"], CONFIGURATION):
        return is_host_fault(call(program, folder, one.words), f"reading {one.values['config']}")
    return call(program, folder, one.words) == (0, b"seen: 0 documents, 0 disk chunks, 0 log records\n", "")


def of_serve(program, folder, one):
    if not put(folder, one.values["config"], FAULTY):
        return is_host_fault(call(program, folder, one.words), f"reading {one.values['config']}")
    if call(program, folder, one.words) != (3, b"", FAULT):
        return False
    return one.values["listen"] != "A" or greets(program, folder, one)


def greets(program, folder, one):
    """Whether words are a host fault once the index was made, and greet a client where an address stands in the place of `A`."""
    put(folder, one.values["config"], CONFIGURATION)
    if not is_host_fault(call(program, folder, one.words), "listening at A") or not (folder / "made").exists():
        return False
    served = Called(program, folder, one.words)
    served.start()
    try:
        served.client(program.patience()).close()
        return True
    finally:
        served.kill()


def of_selftest(program, folder, one):
    number, count = int(one.values["number"]), int(one.values["docs"])
    try:
        return call(program, folder, one.words, SOON if count > MANY else None) == (0, summary(number, count).encode(), "")
    except subprocess.TimeoutExpired:
        if count > MANY:
            return True
        raise


TRIED = {None: of_usage, "session": of_session, "check": of_check, "serve": of_serve, "selftest": of_selftest}


def run(program, one):
    """What is wrong with a list, None where nothing is."""
    said = f"{one.place}: {b' '.join(one.words)[:300]}, wanted {one.mode or 'Usage'} {str(one.values)[:300]}"
    with tempfile.TemporaryDirectory(prefix="word_runs.") as folder:
        try:
            return None if TRIED[one.mode](program, Path(folder), one) else said
        except Exception as why:  # whatever it is, it is told with its list
            return f"{said}: {why}"


def main():
    program, jobs = program_of(options(__doc__).parse_args()), list(lists())
    wrong = list(filter(None, side_by_side(lambda one: run(program, one), jobs)))
    return finish("word_runs", len(jobs), wrong, lost(KNOWN, {DOCUMENT: len(jobs)}))


if __name__ == "__main__":
    sys.exit(main())
