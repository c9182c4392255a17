"""What the scripts share that try cases by the program that was built: their options, and how they run and end.

A part of a page that has fewer cases than it is known to have is told with how many are lost, so that it is noticed where some
are no longer read; each of these counts as failed.
"""

import argparse
from concurrent.futures import ThreadPoolExecutor

from scripts.cases.case_sessions import LONGEST, Program
from scripts.gate.last_line import ended

SIDE_BY_SIDE = 4
# Of so many wrong cases each is printed.
PRINTED = 100


def options(about):
    """The options that all have, below the first line of a script's own words."""
    words = argparse.ArgumentParser(description=about.splitlines()[0])
    words.add_argument("--program", required=True, help="the program to run")
    words.add_argument("--longest", type=int, default=LONGEST, help="the seconds that one case may take")
    return words


def program_of(given):
    return Program(given.program, given.longest)


def side_by_side(call, jobs):
    """What a call gives of each job, in their order; some run at once."""
    with ThreadPoolExecutor(SIDE_BY_SIDE) as pool:
        return list(pool.map(call, jobs))


def lost(known, found):
    """How many cases each part lacks that has fewer than are known."""
    return {part: count - found.get(part, 0) for part, count in known.items() if found.get(part, 0) < count}


def finish(name, cases, wrong, lacking):
    """Prints what is wrong and what is lost, and the last line; gives the exit status."""
    for said in wrong[:PRINTED]:
        print(said)
    if len(wrong) > PRINTED:
        print(f"and {len(wrong) - PRINTED} more")
    for part, count in lacking.items():
        print(f"{part}: {count} cases are lost")
    return ended(name, cases - len(wrong), len(wrong) + sum(lacking.values()))
