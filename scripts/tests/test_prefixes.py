"""Tests of the reader and the scans of queries with prefixes, which compare one another."""

import re
import unittest

from scripts.cases import prefix_pages, prefix_runs
from scripts.cases.case_pages import Script, Step
from scripts.cases.evaluation_runs import weight
from scripts.cases.prefix_sessions import answered, folding
from scripts.cases.query_reader import Index, read_query
from scripts.cases.query_trees import Field, Tree
from scripts.clients.mysql_client import Refused, Rows
from scripts.gate import prefix_scan, random_queries

DOCUMENT = [Field([("wor", 1), ("work", 2), ("wide", 3), ("work", 4)], [], [], [])]
WORDS = ["wor", "work", "wide", "world"]


class Trees(unittest.TestCase):
    def test_prefixes(self):
        for written, places, hits in (
            ("wor*", {1, 2, 4}, {(1, 0, 0, 1), (1, 1, 0, 2), (1, 1, 0, 4)}),
            ("^wor*", {1}, {(1, 0, 0, 1)}),
            ("( world wi* )", set(), set()),
            ("( world | wi* )", {3}, {(2, 1, 0, 3)}),
            ("( x* | wi* )", {3}, {(2, 1, 0, 3)}),
            ("( wo* wor )", {1, 2, 4}, {(1, 0, 0, 1), (1, 1, 0, 2), (1, 1, 0, 4), (2, 0, 0, 1)}),
        ):
            its = Tree(written, WORDS).find(DOCUMENT, ["title"], False)
            self.assertEqual(({first for _, first, _ in its.places}, its.hits), (places, hits), written)
        self.assertEqual(Tree("( wor* wor* wi* )", WORDS).expanded, 7)
        self.assertEqual(Tree("( wor* wor -wor* )", WORDS).shown(), [("wor", True), ("wor", False)])


class Texts(unittest.TestCase):
    def test_reader(self):
        index = Index(["title"], [], folding("default"), 2)
        for text, wanted in (
            ("Wor* ^wid*$ a", "( wor* ^wid* a )"), ('"a* b"~2', '"a b"~2'), ("a | (b cc*", "syntax error at 10"),
            ("a | (b c*", "prefix too short at 7"), ("-a*", "only NOT at 0"), ("wor$* *a", "( wor$ a )"),
        ):
            self.assertEqual(str(read_query(text, index)), wanted)
        self.assertEqual(read_query("wor* w*", index._replace(min_prefix=0)), "( wor w )")

    def test_pages(self):
        for what in (prefix_pages.texts, prefix_pages.evaluation, prefix_pages.selects):
            *said, count = what()
            self.assertEqual(said, [])
            self.assertGreater(count, 90)

    def test_sessions(self):
        configuration = "index rt\n{\ntype = rt\nrt_field = title\nmin_prefix_len = 2\n}\n"
        put = Step("", "", "A", "INSERT INTO rt (id, title) VALUES (1, 'work word'), (2, 'one')", "OK 2")
        ask = "SELECT id, WEIGHT() FROM rt WHERE MATCH('{}') OPTION ranker=wordcount; SHOW META"
        meta = "Variable_name, Value | total, 1 | total_found, 1 | keyword[0], {} | docs[0], 1"
        wanted = ["id, weight() | 1, 2; " + meta.format("wo*"), "ERR 1064 42000 query: prefix too short at 0"]
        steps = [put, *(Step("", "", "A", ask.format(text), "") for text in ("wo*", "w*"))]
        told = [reply.replace("10: ", "").replace("2: ", "") for reply in answered(Script(configuration, steps))]
        self.assertEqual(told[1:], wanted)


class Runs(unittest.TestCase):
    def test_each_page_has_its_cases(self):
        found = {
            name: len({step.case for script in made for step in script.steps if step.case})
            for name, made in prefix_runs.scripts().items()
        }
        self.assertEqual(found | {"configurations": len(list(prefix_runs.configurations()))}, prefix_runs.KNOWN)

    def test_weights_follow_from_hits(self):
        first = prefix_runs.evaluation()[0].steps
        asked = [step.wanted for step in first if "MATCH('wor* world')" in step.packet and "ranker = wordcount" in step.packet]
        self.assertEqual(asked[0], "id, weight() | 1, 2 | 2, 2 | 3, 2 | 4, 5")


class Evaluated:
    """A client whose replies are worked out by the written form of each text. It is wrong as `change` makes a reply."""

    def __init__(self, scan, change=lambda rows: rows):
        self.scan, self.change, self.meta = scan, change, []
        self.index = Index(random_queries.FIELDS, [], folding("default"), 1)
        self.words = [word for word, numbers in scan.having.items() if numbers]

    def document(self, number):
        fields = [[], []]
        for word, places in self.scan.live[number][1].items():
            for field, position in places:
                fields[field].append((word, position))
        return [Field(sorted(words, key=lambda one: one[1]), [], [], []) for words in fields]

    def query(self, text):
        if text == "SHOW META":
            return Rows([], self.change(self.meta), 2)
        tree = Tree(read_query(re.search("MATCH\\('(.*?)'\\)", text)[1], self.index), self.words)
        if tree.expanded > prefix_scan.MOST_WORDS:
            raise Refused(1064, "42000", f"query: prefixes have {tree.expanded} words")
        numbers = map(int, re.search(r"id IN \((.*?)\)", text)[1].split(", ")) if "id IN" in text else sorted(self.scan.live)
        below, ranker = int((re.findall(r"gid < (\d+)", text) or [100])[0]), re.search(r"ranker=(\w+)", text)[1]
        found = [(number, tree.find(self.document(number), random_queries.FIELDS, False)) for number in numbers]
        rows = [
            [str(number), str(weight(ranker, len(tree.keys), [1, 1], its.hits))]
            for number, its in found
            if its.matches and self.scan.live[number][0] < below
        ]
        if "id IN" not in text:
            self.meta = [["total_found", str(len(rows))]]
            for at, (word, prefix) in enumerate(tree.shown()):
                having = [numbers for one, numbers in self.scan.having.items() if one == word or prefix and one.startswith(word)]
                self.meta += [[f"keyword[{at}]", word + "*" * prefix], [f"docs[{at}]", str(len(set().union(*having)))]]
        return Rows([], self.change(rows), 2)


class RandomPrefixes(unittest.TestCase):
    def setUp(self):
        self.draws, self.scan = random_queries.WithPrefixes(3), random_queries.Scan()
        for number in range(1, 61):
            words = [" ".join(random_queries.word(self.draws) for _ in range(count)) for count in (4, 20)]
            self.scan.put(number, self.draws.randrange(100), words)
        self.kept = random_queries.WHOLE, random_queries.GROUPED
        random_queries.WHOLE, random_queries.GROUPED = 0, 0

    def tearDown(self):
        random_queries.WHOLE, random_queries.GROUPED = self.kept

    def said(self, client, count):
        return [random_queries.ask(client, self.scan, self.draws) for _ in range(count)]

    def test_both_scans_agree(self):
        self.assertEqual(set(self.said(Evaluated(self.scan), 150)), {None})

    def test_what_is_wrong_is_said(self):
        def less(rows):
            return rows[:-1]

        def other_docs(rows):
            return [[name, value + "0" if name.startswith("docs") else value] for name, value in rows]

        def other_weights(rows):
            return [[name, value + "0" if name.isdigit() else value] for name, value in rows]

        for change in (less, other_docs, other_weights):
            self.assertNotEqual(set(self.said(Evaluated(self.scan, change), 40)), {None}, change.__name__)

    def test_too_many_words(self):
        for number in range(1100):
            self.scan.put(100 + number, 0, [f"v{number}", ""])
        tree = random_queries.Word(self.draws)
        tree.word, tree.prefix, tree.field = "v", True, None
        self.assertEqual(prefix_scan.words(self.scan, tree), 1100)
        client = Evaluated(self.scan)
        self.assertIsNone(prefix_scan.ask_refused(client, self.scan, tree, f"SELECT id FROM rt WHERE MATCH('{tree}')"))
        self.scan.drop(100)
        self.assertIsNotNone(prefix_scan.ask_refused(client, self.scan, tree, f"SELECT id FROM rt WHERE MATCH('{tree}')"))


if __name__ == "__main__":
    unittest.main()
