"""Sends the cases of docs/cases to the program that was built, and compares what it replies.

    python3 -m scripts.cases.case_runs --program PROGRAM [--page PAGE] [--longest SECONDS]

Each script of packets runs over new indexes in an empty folder, which is removed afterwards (`case_sessions`): once over
documents in memory, once with FLUSH and once with OPTIMIZE between its packets, which change no reply (`jobs_between`); four
run side by side. What is sent and what is wanted stands in docs/cases alone: in statements.md, selects.md, transactions.md,
jobs.md and groups.md word for word (`case_pages`). From evaluation.md it is worked out which documents a query finds and what
each ranker weighs them (`evaluation_runs`), and from extended_queries.md which documents a text finds by its tree (`query_runs`).
`replies` tells the bytes of a reply as the pages write it.

A case is a text or a SELECT by itself, a script, a line that is cut at some place, or a query. Each packet with another reply
than is wanted is printed with its page and line.
"""

import sys

from scripts.cases.case_pages import USUAL_CONFIGURATION, Page
from scripts.cases.case_sessions import cuts, run_line, run_script, told_by_case
from scripts.cases.evaluation_runs import EvaluationPage
from scripts.cases.jobs_between import states
from scripts.cases.query_runs import QueriesPage
from scripts.cases.runs import finish, lost, options, program_of, side_by_side

# The pages, and how many cases each is known to have.
PAGES = {
    "statements": 316,
    "selects": 992,
    "transactions": 155,
    "jobs": 35,
    "groups": 68,
    "evaluation": 617,
    "extended_queries": 1045,
}
# Pages of which is worked out what is sent and wanted.
WORKED_OUT = {"evaluation": EvaluationPage, "extended_queries": QueriesPage}


def runs_of(page, program):
    """What is to be run of a page: the cases of each run, how many packets it has, and the call that gives what is wrong."""
    for script in (state for script in page.scripts for state in states(script)):
        cases = {step.case for step in script.steps if step.case}
        yield cases, len(script.steps), lambda script=script: run_script(program, script)
    for line in page.lines:
        for cut in cuts(line):
            configuration = page.configurations[USUAL_CONFIGURATION]
            yield {f"{line.place}, {cut}"}, 1, lambda line=line, cut=cut: run_line(program, configuration, line, cut)


def run_page(name, program):
    """Runs the cases of a page, and gives how many there are and what is wrong with each that is."""
    page = WORKED_OUT[name]() if name in WORKED_OUT else Page(name)
    runs = list(runs_of(page, program))
    wrong = told_by_case(some for found in side_by_side(lambda run: run[2](), runs) for some in found)
    cases = set().union(*(run[0] for run in runs))
    print(f"{name}: {len(cases)} cases in {sum(run[1] for run in runs):,} packets, {len(wrong)} wrong", flush=True)
    return len(cases), wrong


def main():
    words = options(__doc__)
    words.add_argument("--page", choices=PAGES, help="only the cases of this page")
    given = words.parse_args()
    program = program_of(given)
    ran = {name: run_page(name, program) for name in PAGES if given.page in (None, name)}
    found = {name: cases for name, (cases, _) in ran.items()}
    wrong = [said for _, of_page in ran.values() for said in of_page]
    return finish("case_runs", sum(found.values()), wrong, lost({name: PAGES[name] for name in ran}, found))


if __name__ == "__main__":
    sys.exit(main())
