"""Has the program open chunk images, and compares which damage it finds.

    python3 -m scripts.cases.image_runs --program PROGRAM [--images N] [--seed S] [--longest SECONDS]

The images are those of docs/cases/chunk_images.md, and N that are drawn and changed in one place (`drawn_images`), 500 if nothing
is said. Each is the one chunk of an index in an empty folder of its own, which is removed afterwards: a root names it, its
length and no dead row, and two logs that end before their first record. `check` says the damage that `chunk_images` finds, or
one row that was put after all commits that the root knows of; or it counts the rows as documents.

An image is one case.
"""

import random
import subprocess
import sys
import tempfile
from pathlib import Path

from scripts.cases.chunk_images import Image, answer, image_of, little, number
from scripts.cases.directory_runs import check
from scripts.cases.drawn_images import changed, drawn
from scripts.cases.image_page import DOCUMENT, Case, cases
from scripts.cases.runs import finish, lost, options, program_of, side_by_side

KNOWN = {DOCUMENT: 301}
INDEX = "pieces"
# The files that the root names, and the last commit that is in the chunk.
OLDER, CHUNK, NEWER, NEXT = 2, 3, 4, 5
THROUGH = 2**40
OPEN, CLOSED = b"\1", b"\0"


def columns(schema):
    """The kinds and names of an index's columns."""
    fields = [("field", f"f{place}") for place in range(schema.fields)]
    return fields + [("bigint", f"a{place}") for place in range(schema.attributes)]


def configuration(schema):
    options_of = {"field": "rt_field", "bigint": "rt_attr_bigint"}
    lines = [f"{options_of[kind]} = {name}" for kind, name in columns(schema)]
    if schema.zones:
        lines += ["html_strip = 1", f"index_zones = {', '.join(f'z{place}' for place in range(schema.zones))}"]
    return "\n".join([f"index {INDEX}", "{", "type = rt", f"path = {INDEX}", *lines, "}", ""])


def root(text, through, next_file, logs, chunks):
    """Slot 0: of the schema's text, the last commit in chunks, the next file, the older and the newer log, and chunks, each with
    its file, its length and its dead rows."""
    parts = [little(len(text), size=2), text, little(through, size=8), little(next_file, *logs), little(len(chunks), size=2)]
    parts += [little(file, length, len(dead), *dead) for file, length, dead in chunks]
    state = b"".join(parts)
    return OPEN + little(1, size=8) + little(len(state)) + state


def files_of(schema, data):
    """The files of a directory whose chunk is this image."""
    text = "".join(f"{kind} {name}\n" for kind, name in columns(schema)).encode()
    slot = root(text, THROUGH, NEXT, (OLDER, NEWER), [(CHUNK, len(data), [])])
    return {0: slot, OLDER: CLOSED, CHUNK: data, NEWER: CLOSED}


def wanted(schema, data):
    """What a check says of an image."""
    said = answer(schema, data)
    if said == "ok":
        image = Image(schema, data)
        late = (at for at in map(image.row_at, range(image.rows)) if number(data, at + 8, 8) > THROUGH)
        said = next((f"{at}: born" for at in late), said)
    if said == "ok":
        return f"0 {INDEX}: {image.rows} documents, 1 disk chunks, 0 log records\n"
    return f"5 searchd: index {INDEX}: file {CHUNK} at {said}\n"


def run(program, case):
    """What is wrong with one image, None where nothing is."""
    with tempfile.TemporaryDirectory(prefix="image_runs.") as folder:
        folder = Path(folder)
        (folder / INDEX).mkdir()
        for file, data in files_of(case.schema, case.data).items():
            (folder / INDEX / str(file)).write_bytes(data)
        (folder / "conf").write_text(configuration(case.schema), encoding="utf8")
        try:
            found = check(program, folder)
        except (OSError, ValueError, subprocess.SubprocessError) as why:
            found = str(why)
    due = wanted(case.schema, case.data)
    about = f"{case.place}: {case.data.hex()[:600]} {' '.join(map(str, case.schema))}"
    return None if found == due else f"{about}: {found.strip()}, wanted {due.strip()}"


def drawn_cases(count, seed):
    draws = random.Random(seed)
    for place in range(1, count + 1):
        schema, rows = drawn(draws)
        data = changed(draws, schema, image_of(schema, rows))
        yield Case(f"image {place} of seed {seed}", schema, data, answer(schema, data))


def main():
    words = options(__doc__)
    words.add_argument("--images", type=int, default=500, help="how many are drawn")
    words.add_argument("--seed", type=int, default=1)
    given = words.parse_args()
    program, of_page = program_of(given), list(cases())
    jobs = [*of_page, *drawn_cases(given.images, given.seed)]
    wrong = list(filter(None, side_by_side(lambda case: run(program, case), jobs)))
    return finish("image_runs", len(jobs), wrong, lost(KNOWN, {DOCUMENT: len(of_page)}))


if __name__ == "__main__":
    sys.exit(main())
