"""Tries the pages of docs/cases about prefixes.

    python3 -m scripts.cases.prefix_runs --program PROGRAM [--longest SECONDS]

    selects          the packets, as `case_runs` sends those of docs/cases
    evaluation       each query with each ranker, over documents put at once, put one by one, and behind jobs (`evaluation_runs`)
    texts            a faulty text is refused for its fault; of all others SHOW META tells the keywords, over an empty index
    configurations   as `text_runs` tries those of docs/cases
"""

import re
import sys
from itertools import groupby

from scripts.cases import text_runs
from scripts.cases.case_pages import Page, Script, Step, blocks, named
from scripts.cases.case_sessions import run_script, told_by_case
from scripts.cases.evaluation_runs import Query, Set, quoted
from scripts.cases.jobs_between import states
from scripts.cases.prefix_pages import ABOUT, FIELDS, FOLDER, SHORTEST, ZONES
from scripts.cases.prefix_sessions import folding
from scripts.cases.query_cases import rows
from scripts.cases.query_reader import Index, read_query
from scripts.cases.query_runs import written_out
from scripts.cases.query_trees import Tree
from scripts.cases.runs import finish, lost, options, program_of, side_by_side
from scripts.cases.tables import read, text
from scripts.cases.texts import Line

# How many cases each page is known to have.
KNOWN = {"selects": 9, "evaluation": 102, "texts": 262, "configurations": 33}


class Asked(Query):
    """A query with prefixes: its keywords are those that it is read with."""

    def __init__(self, place, query, found, index):
        super().__init__(place, query, found)
        self.words = [key.word for key in Tree(read_query(query, index)).keys]

    def look(self):
        """What hits name isn't what the text has."""


def evaluation():
    """The scripts of the evaluated queries."""
    sets, name = {}, None
    for block in blocks(f"{FOLDER}/prefix_evaluation.md"):
        name = named([block], "Set ", r"\.") or name
        about = ABOUT.search(block.words)
        if about:
            *rules, shortest = about.groups()
            made, zones = Set(rules), rules[1].split(", ") if rules[1] != "none" else []
            made.configuration = made.configuration[:-1] + f"min_prefix_len = {shortest}\n}}"
            sets[block.section] = made, Index(made.fields, zones, folding("default"), int(shortest))
        if block.columns[:1] == ("id",):
            sets[block.section][0].add(block.rows)
        elif block.columns == ("query", "found"):
            made, index = sets[name]
            made.queries += [Asked(place, text(query), found, index) for place, (query, found) in block.rows]
    return [script for made, _ in sets.values() for script in made.scripts()]


def texts():
    """A script for the texts that are read by one index."""
    page = read(f"{FOLDER}/prefix_texts.md")
    shortest = dict(SHORTEST.findall(page))
    for (schema, table), some in groupby(rows(page), key=lambda row: (row.schema, row.table)):
        lines = ["type = rt", "path = found", *(f"rt_field = {field}" for field in FIELDS), f"min_prefix_len = {shortest[schema]}"]
        lines += ["html_strip = 1", f"index_zones = {', '.join(ZONES[schema])}"] if schema in ZONES else []
        lines += [f"charset_table = {table}"] if table != "default" else []
        yield Script("\n".join(["index found", "{", *lines, "}"]), [asked(row) for row in some])


def asked(row):
    """The SELECT of a text, behind which SHOW META tells its keywords."""
    place = row.place.replace("docs/cases/extended_queries.md", "prefix_texts.md")
    packet = f"SELECT id FROM found WHERE MATCH({quoted(written_out(row.text))})"
    if row.tree is None:
        return Step(place, place, "A", packet, f"ERR 1064 42000 {written_out(row.fault)}")
    told = enumerate(Tree(written_out(row.tree)).shown())
    known = "".join(f" | keyword[{at}], {word}{'*' * prefix} | docs[{at}], 0" for at, (word, prefix) in told)
    return Step(place, place, "A", f"{packet}; SHOW META", f"id; Variable_name, Value | total, 0 | total_found, 0{known}")


def configurations():
    """The lines of the page with the part that each is of."""
    part, is_inside = "", False
    for number, line in enumerate(read(f"{FOLDER}/prefix_configurations.md").split("\n"), 1):
        if line == "```":
            is_inside = not is_inside
        elif is_inside:
            whole, _, wanted = line.partition(" ⇒ ")
            yield f"Configurations: {part.lower()}", Line(f"prefix_configurations.md:{number}", whole, wanted)
        elif line.startswith("## "):
            part = line[3:]


def scripts():
    """The scripts of each page."""
    return {"selects": Page("prefix_selects").scripts, "evaluation": evaluation(), "texts": list(texts())}


def main():
    program = program_of(options(__doc__).parse_args())
    wrong, found = [], {}
    for name, made in scripts().items():
        every = [state for script in made for state in states(script)]
        said = told_by_case(some for one in side_by_side(lambda script: run_script(program, script), every) for some in one)
        found[name], wrong = len({step.case for script in made for step in script.steps if step.case}), wrong + said
    lines = list(configurations())
    wrong += filter(None, side_by_side(lambda line: text_runs.run(program, *line), lines))
    found["configurations"] = len(lines)
    return finish("prefix_runs", sum(found.values()), wrong, lost(KNOWN, found))


if __name__ == "__main__":
    sys.exit(main())
