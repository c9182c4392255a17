"""Runs the parts of the gate one after the other, and counts what passed and failed in all of them.

    python3 -m scripts.gate.parts < PARTS

Each line of PARTS is the name of a part, a colon and the words that run it; `first` before the name of one says that nothing
else is run where it fails. What a part prints is let through, and the last line of it is its count (`last_line`). A part
that says no count, that ends with another status than 0 and counts no failure, or of which a file below crates/ isn't there
that its words name, the program say, is one failure.

Behind all parts stands a line for each that failed, and then the sum: `N passed, M failed`. The status is 0 where M is 0.
"""

import shlex
import subprocess
import sys
from typing import NamedTuple

from scripts.cases.tables import ROOT
from scripts.gate.last_line import counts


class Part(NamedTuple):
    """A part of the gate: its name, the words that run it, and whether nothing else is run where it fails."""

    name: str
    words: list
    is_first: bool


class Result(NamedTuple):
    """What a part came to, and what is to be said of it beside its numbers."""

    passed: int
    failed: int
    why: str = ""


def parts(lines):
    """The parts that lines name; a line that begins with `#` is none."""
    for line in lines:
        if line.strip() and not line.startswith("#"):
            named, _, words = line.partition(":")
            yield Part(named.removeprefix("first ").strip(), shlex.split(words), named.startswith("first "))


def missing(words):
    """The file below crates/ that words name and that isn't there."""
    return next((word for word in words if word.startswith("crates/") and not (ROOT / word).is_file()), None)


def judged(status, line):
    """The result of a part that ended with this status and this last line."""
    found = counts(line)
    if found is None:
        return Result(0, 1, f"status {status}, and no count")
    passed, failed = found
    return Result(passed, failed) if failed or status == 0 else Result(passed, 1, f"status {status}")


def run(part):
    """Runs a part, lets through what it prints, and gives its result."""
    lacking = missing(part.words)
    if lacking:
        return Result(0, 1, f"{lacking} isn't there")
    last = ""
    try:
        with subprocess.Popen(
            part.words, cwd=ROOT, stdin=subprocess.DEVNULL, stdout=subprocess.PIPE, stderr=subprocess.STDOUT
        ) as process:
            for line in process.stdout:
                sys.stdout.buffer.write(line)
                sys.stdout.flush()
                last = line.decode(errors="replace").strip() or last
    except OSError as why:
        return Result(0, 1, str(why))
    return judged(process.returncode, last)


def said(part, result):
    """The line of a part that failed."""
    why = f" ({result.why})" if result.why else ""
    return f"failed: {part.name}, {result.failed:,} of {result.passed + result.failed:,}{why}"


def summed(results):
    """The last line over the results of all parts, and the status."""
    failed = sum(result.failed for result in results)
    return f"{sum(result.passed for result in results)} passed, {failed} failed", 1 if failed else 0


def main():
    ran = []
    for part in parts(sys.stdin):
        ran.append((part, run(part)))
        if part.is_first and ran[-1][1].failed:
            break
    for part, result in ran:
        if result.failed:
            print(said(part, result))
    line, status = summed([result for _, result in ran])
    print(line, flush=True)
    return status


if __name__ == "__main__":
    sys.exit(main())
