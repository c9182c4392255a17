"""Times the dumps of the tool over one chunk beside its check.

    python3 -m scripts.figures.tool_figures --tool TOOL [--documents N]

The chunk is written by the second writer of images (`chunk_images`): N documents of one field of 30 words, drawn of 20,000 so that the
word of place i is drawn as 1 / i. Each line says how long the processor took, the least of five calls, and how many lines were
printed: of a check, of the words, and of the places of a rare word, of a common one and of the most common of all.
"""

import argparse
import os
import random
import subprocess
import sys
import tempfile
from pathlib import Path

from scripts.cases.chunk_images import Row, Schema, image_of
from scripts.cases.image_runs import INDEX, configuration, files_of

WORDS, IN_DOCUMENT, CALLS = 20000, 30, 5
COMMON = {"rare": 15000, "common": 3, "most common": 0}


def drawn(documents):
    """Documents whose words are drawn."""
    draws = random.Random(1)
    words = [f"w{place}".encode() for place in range(WORDS)]
    weights = [1 / (place + 1) for place in range(WORDS)]
    for number in range(1, documents + 1):
        yield Row(number, 1, [], [dict(enumerate(draws.choices(words, weights, k=IN_DOCUMENT), 1))], [])


def timed(command, folder):
    """The processor time of a call, and how many lines it prints."""
    with open(folder / "printed", "wb") as printed:
        called = subprocess.Popen(command, cwd=folder, stdout=printed)
        _, status, used = os.wait4(called.pid, 0)
        assert status == 0, command
    return used.ru_utime + used.ru_stime, (folder / "printed").read_bytes().count(b"\n")


def main():
    words = argparse.ArgumentParser(description=__doc__.splitlines()[0])
    words.add_argument("--tool", required=True, help="the tool to run")
    words.add_argument("--documents", type=int, default=40000, help="how many documents the chunk has")
    given = words.parse_args()
    tool, schema = str(Path(given.tool).resolve()), Schema(1)
    image = image_of(schema, list(drawn(given.documents)))
    questions = [("check", "--check", []), ("words", "--dumpdict", [])]
    questions += [(f"places of a {name} word", "--dumphitlist", [f"w{place}"]) for name, place in COMMON.items()]
    with tempfile.TemporaryDirectory(prefix="tool_figures.") as folder:
        folder = Path(folder)
        (folder / INDEX).mkdir()
        for name, data in files_of(schema, image).items():
            (folder / INDEX / str(name)).write_bytes(data)
        (folder / "conf").write_text(configuration(schema), encoding="utf8")
        print(f"a chunk of {given.documents} documents, {len(image)} bytes")
        for name, mode, more in questions:
            command = [tool, "--config", "conf", mode, INDEX, *more]
            seconds, lines = min(timed(command, folder) for _ in range(CALLS))
            print(f"{name}: {1000 * seconds:.0f} ms, {lines} lines")
    return 0


if __name__ == "__main__":
    sys.exit(main())
