"""Compares what the selftest prints with a scan of its documents.

    python3 -m scripts.gate.selftest_run --program PROGRAM

runs `selftest` for some numbers, twice each: a run is to end with status 0 and to print the summary that a scan of the
generated documents gives, here, apart from the program. The generator is x := (x * 1103515245 + 12345) mod 2^31 with draws
(x / 65536) mod 32768: four for the words of a title, one for a group. In the end all documents are in one chunk. A run is one
case.
"""

import argparse
import subprocess
import sys

from scripts.gate.last_line import ended

RUNS = [(1, 2), (7, 2000), (0, 1), (2147483647, 500)]
WORDS, GROUPS = 50, 5


def documents(number, count):
    """The titles, each as the numbers of its words, and the groups."""

    def draws():
        x = number
        while True:
            x = (x * 1103515245 + 12345) % 2**31
            yield (x // 65536) % 32768

    drawn = draws()
    for _ in range(count):
        title = [next(drawn) % WORDS for _ in range(4)]
        yield title, next(drawn) % GROUPS


def summary(number, count):
    """The lines of the summary: documents, those that have each word, each two words in a row, the groups, and the chunk."""
    found = list(documents(number, count))
    words = sum(len(set(title)) for title, _ in found)
    pairs = sum(
        len({one for one, two in zip(title, title[1:]) if two == (one + 1) % WORDS}) for title, _ in found
    )
    groups = len({group for _, group in found})
    return f"documents {len(found)}\nwords {words}\npairs {pairs}\ngroups {groups}\nchunks 1\n"


def fault(program, number, count):
    """What is wrong with a run, None where nothing is."""
    wanted = summary(number, count)
    command = [program, "selftest", "--number", str(number), "--docs", str(count)]
    ran = subprocess.run(command, stdin=subprocess.DEVNULL, capture_output=True, timeout=300)
    if (ran.returncode, ran.stdout.decode(), ran.stderr) == (0, wanted, b""):
        return None
    return f"{' '.join(command[1:])}: status {ran.returncode}, {ran.stdout} {ran.stderr}, wanted {wanted!r}"


def main():
    words = argparse.ArgumentParser(description=__doc__.splitlines()[0])
    words.add_argument("--program", required=True, help="the program to run")
    program = words.parse_args().program
    found = [fault(program, *run) for run in RUNS for _ in range(2)]
    wrong = list(filter(None, found))
    for said in wrong:
        print(said)
    return ended("selftest_run", len(found) - len(wrong), len(wrong))


if __name__ == "__main__":
    sys.exit(main())
