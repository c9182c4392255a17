"""Tests of what makes the tables of documents of crates.txt and the clauses."""

import unittest

from scripts.gate.house_tables import below, replaced, stands_on

LIBRARIES = {"low": [], "mid": ["low"], "other": ["low", "kit"], "top": ["mid", "low", "kit", "std"], "both": ["mid", "other", "kit"]}


class HouseTables(unittest.TestCase):
    def test_all_that_a_crate_stands_on(self):
        for crate, wanted in (("low", set()), ("mid", {"low"}), ("both", {"mid", "other", "low", "kit"})):
            self.assertEqual(below(crate, LIBRARIES), wanted)

    def test_only_what_no_other_library_stands_on(self):
        for crate, wanted in (
            ("low", "none"),
            ("mid", "`low`"),
            ("other", "`low`, the kit's `kit`"),
            ("top", "`mid`, the kit's `kit` and `std`"),
            ("both", "`mid`, `other`"),
        ):
            self.assertEqual(stands_on(crate, LIBRARIES), wanted)

    def test_rows_of_one_table_are_replaced(self):
        document = "a\n\n| b | c |\n|---|---|\n| old | 1 |\n| old | 2 |\n\nd\n| other | 3 |\n"
        wanted = "a\n\n| b | c |\n|---|---|\n| new | 4 |\n\nd\n| other | 3 |\n"
        self.assertEqual(replaced(document, "| b | c |", ["| new | 4 |"]), wanted)
        self.assertEqual(replaced(wanted, "| b | c |", ["| new | 4 |"]), wanted)


if __name__ == "__main__":
    unittest.main()
