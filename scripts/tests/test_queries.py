"""Tests of the scans with which the program's answers to queries are compared."""

import random
import unittest

from scripts.cases.query_trees import Field, Tree
from scripts.gate.random_queries import FIELDS, Pair, Quoted, Scan, Word, query
from scripts.gate.selftest_run import documents, summary

NAMES = ["title", "content"]


def field(text, sentences=(), paragraphs=(), spans=()):
    return Field([(word, place) for place, word in enumerate(text.split(), 1) if word != "."], list(sentences), list(paragraphs), list(spans))


DOCUMENT = [field("a b c a"), field("b . c d", sentences=[2], spans=[("h", 1, 3)])]


def found(written):
    return Tree(written).find(DOCUMENT, NAMES, True)


class Trees(unittest.TestCase):
    def test_what_matches(self):
        for written, wanted in (
            ("a", True), ("e", False), ("( a -d )", False), ("( a -e )", True), ("( e | d )", True), ("( a MAYBE e )", True),
            ('"a b c"', True), ('"b a"', False), ('"a a"~2', False), ('"a a"~3', True), ('"a e d"/2', True), ('"a e x"/2', False),
            ("( c << a )", True), ("( d << c )", False), ("( a NEAR/1 b )", True), ("( a NEAR/1 c )", True), ("( b NEAR/1 d )", False),
            ("( b SENTENCE c )", True), ("( b SENTENCE d )", False), ("( c SENTENCE d )", True), ("^b", True), ("^c", False), ("a$", True),
            ("(@(title) d)", False), ("(@(content) d)", True), ("(@*[1] b)", True), ("(@*[1] c)", False),
            ("(ZONESPAN:(h) ( b c ))", True), ("(ZONESPAN:(h) ( b d ))", False), ("", True),
        ):
            self.assertEqual(found(written).matches, wanted, written)

    def test_places_and_hits(self):
        its = found('"a b"')
        self.assertEqual(its.places, {(0, 1, 2)})
        self.assertEqual(its.hits, {(1, 0, 0, 1), (2, 1, 0, 2)})
        self.assertEqual(Tree("( a | ( b a ) )").words(), ["a", "b"])
        for wrong in ("( a", "a )", '"a'):
            with self.assertRaises((AssertionError, IndexError)):
                Tree(wrong)


class Scans(unittest.TestCase):
    def setUp(self):
        self.scan = Scan()
        self.scan.put(1, 10, ["w1 w2", "w3"])
        self.scan.put(2, 60, ["w2", "w1 w3"])

    def made(self, node, **values):
        one = node.__new__(node)
        one.__dict__.update(values)
        return one

    def word(self, word, of_field=None):
        return self.made(Word, word=word, field=of_field)

    def test_words(self):
        self.assertEqual(self.scan.find(self.word("w1"), 100), [1, 2])
        self.assertEqual(self.scan.find(self.word("w1"), 50), [1])
        self.assertEqual(self.scan.find(self.word("w1", 1), 100), [2])
        self.scan.put(1, 10, ["w9", ""])
        self.scan.drop(2)
        self.assertEqual((self.scan.find(self.word("w1"), 100), self.scan.find(self.word("w9"), 100)), ([], [1]))

    def test_quotes_and_pairs(self):
        for one, wanted in (
            (self.made(Quoted, kind="phrase", words=["w1", "w2"], number=1), [1]),
            (self.made(Quoted, kind="phrase", words=["w2", "w3"], number=1), []),
            (self.made(Quoted, kind="near", words=["w3", "w1"], number=1), [2]),
            (self.made(Quoted, kind="near", words=["w1", "w1"], number=9), []),
            (self.made(Quoted, kind="some", words=["w1", "w9"], number=2), []),
            (self.made(Quoted, kind="some", words=["w1", "w9"], number=1), [1, 2]),
            (self.made(Pair, left=self.word("w1"), right=self.word("w3"), near=None), [2]),
            (self.made(Pair, left=self.word("w3"), right=self.word("w1"), near=None), []),
            (self.made(Pair, left=self.word("w3"), right=self.word("w1"), near=1), [2]),
        ):
            self.assertEqual(self.scan.find(one, 100), wanted, str(one))

    def test_those_that_are_looked_at_are_enough(self):
        draws, scan = random.Random(1), Scan()
        for number in range(60):
            texts = [" ".join(f"w{draws.randrange(30, 60)}" for _ in range(6)) for _ in FIELDS]
            scan.put(number, draws.randrange(100), texts)
        for _ in range(300):
            one = query(draws)
            slowly = sorted(number for number, (_, places) in scan.live.items() if one.matches(places))
            self.assertEqual(scan.find(one, 100), slowly, str(one))


class Selftests(unittest.TestCase):
    def test_documents_and_summary(self):
        # what the generator that the C standard gives as an example draws from 1 on
        self.assertEqual(list(documents(1, 1)), [([16838 % 50, 5758 % 50, 10113 % 50, 17515 % 50], 31051 % 5)])
        self.assertEqual(summary(1, 1), "documents 1\nwords 4\npairs 0\ngroups 1\nchunks 1\n")
