"""The last line of a part of the gate: what it says to a person, and what the gate reads of it.

    case_runs: 2,987 passed, 0 failed
    78 passed, 0 failed (how the toolchain ends)
"""

import re

FORM = re.compile(r"(?:\w+: )?(\d[\d,]*) passed, (\d[\d,]*) failed\b.*")


def ended(name, passed, failed):
    """Prints the last line of a part, and gives its exit status."""
    print(f"{name}: {passed:,} passed, {failed:,} failed", flush=True)
    return 1 if failed else 0


def counts(line):
    """How much passed and failed by a last line, None of any other line."""
    found = FORM.fullmatch(line)
    return found and tuple(int(number.replace(",", "")) for number in found.groups())
