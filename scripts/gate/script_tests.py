"""Runs the tests of scripts/tests.

    python3 -m scripts.gate.script_tests
"""

import sys
import unittest

from scripts.cases.tables import ROOT
from scripts.gate.last_line import ended

# How many tests there are known to be; each that is lost counts as failed.
KNOWN = 105


def run(folder, top, known):
    """Runs the tests of a folder below `top`, and gives the exit status."""
    tests = unittest.TestLoader().discover(str(folder), top_level_dir=str(top))
    ran = unittest.TextTestRunner(stream=sys.stdout, verbosity=0).run(tests)
    failed = len(ran.failures) + len(ran.errors) + len(ran.unexpectedSuccesses)
    lost = max(0, known - ran.testsRun)
    if lost:
        print(f"{lost} tests are lost")
    return ended("script_tests", max(0, ran.testsRun - failed), failed + lost)


if __name__ == "__main__":
    sys.exit(run(ROOT / "scripts" / "tests", ROOT, KNOWN))
