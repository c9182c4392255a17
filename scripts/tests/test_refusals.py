"""Tests that each script of the gate refuses a program that does nothing or something else than is wanted."""

import contextlib
import io
import random
import re
import shutil
import tempfile
import unittest
from argparse import Namespace
from pathlib import Path
from unittest import mock

from scripts.cases import directory_runs, listeners, packet_runs, program_runs, text_runs, word_runs
from scripts.cases.case_pages import USUAL_CONFIGURATION, Line, Page, Script, Step
from scripts.cases.case_sessions import Program, over_pipes, run_line, run_script
from scripts.cases.command_words import lists
from scripts.cases.directories import directories
from scripts.cases.log_records import Found, Words
from scripts.cases.program_lines import Bytes, page
from scripts.cases.runs import PRINTED, finish
from scripts.cases.texts import all_parts
from scripts.clients.mysql_client import Refused, Rows
from scripts.gate import random_queries, selftest_run
from scripts.gate.kill_rounds import documents_in
from scripts.gate.kill_writers import JOB, REFUSED, WORDS, Territory, Worker, Writer, Wrong
from scripts.gate.last_line import counts
from scripts.tests.test_clients import GREETING, WELCOME
from scripts.tests.test_packets import ERR, OK, stream

NOTHING = Program(shutil.which("true"), 10)


class ProgramsOf(unittest.TestCase):
    """Tests of scripts over programs that stand for the one that is tried."""

    def setUp(self):
        self.folder = Path(self.enterContext(tempfile.TemporaryDirectory()))

    def program(self, written, errors="", status=0):
        """A program that takes all its input, and then writes this and ends so."""
        path = self.folder / "program"
        (self.folder / "written").write_bytes(written)
        path.write_text(f"#!/bin/sh\ncat > /dev/null\ncat {self.folder}/written\nprintf '{errors}' >&2\nexit {status}\n")
        path.chmod(0o755)
        return Program(path, 10)


class Sessions(ProgramsOf):
    STEPS = [Step("p:1", "p:1", "A", "one", "OK 1"), Step("p:2", "p:2", "A", "two", "ERR 1064 42000 no")]

    def wrong(self, *ends):
        """The places of what is wrong where a program writes and ends so."""
        return [some.place for some in over_pipes(self.program(*ends), self.folder, self.STEPS)]

    def test_replies_of_a_session(self):
        front = GREETING + WELCOME
        well = front + stream(OK) + stream(ERR)
        self.assertEqual(self.wrong(well), [])
        self.assertEqual(self.wrong(front + stream(ERR) + stream(ERR)), ["p:1"])
        self.assertEqual(self.wrong(front + stream(OK) + stream(OK)), ["p:2"])
        self.assertEqual(self.wrong(front + stream(OK)), ["p:2"])
        self.assertEqual(self.wrong(front), ["p:1", "p:2"])
        self.assertEqual(self.wrong(well + b"more"), ["p:2"])
        self.assertEqual(self.wrong(well, "", 3), ["p:2"])
        self.assertEqual(self.wrong(well, "x"), ["p:2"])

    def test_lines(self):
        line = Line("p:1", "⟨01 02⟩", "end", "⟨03⟩", True)
        self.assertEqual(run_line(self.program(b"\x03"), "", line, 1), [])
        for ends in ((b"\x04",), (b"",), (b"\x03", "", 1), (b"\x03", "x")):
            self.assertEqual([some.case for some in run_line(self.program(*ends), "", line, 1)], ["p:1"])


class DoesNothing(unittest.TestCase):
    """A program that does nothing fails cases of each kind."""

    def test_scripts(self):
        for client in ("A", "B"):
            step = Step("p:1", "p:1", client, "COM_PING", "OK 0")
            self.assertEqual([some.case for some in run_script(NOTHING, Script("", [step]))], ["p:1"])

    def test_packets(self):
        read = packet_runs.Packets()
        kinds = [list(packet_runs.jobs_of(read, NOTHING))[place] for place in (0, len(read.scripts), -1)]
        for _, run in kinds:
            self.assertTrue(run())
        for case in listeners.CASES:
            self.assertTrue(listeners.run(NOTHING, read, case), case.name)

    def test_words(self):
        found = {one.mode: one for one in lists()}
        self.assertEqual(found.keys(), word_runs.TRIED.keys())
        for one in found.values():
            self.assertIsNotNone(word_runs.run(NOTHING, one), one.place)

    def test_texts(self):
        for part, lines in all_parts().items():
            self.assertIsNotNone(text_runs.run(NOTHING, part, lines[-1]), part)

    def test_words_of_texts(self):
        """A record with other words than are wanted, whose places are those of no line."""
        other = Found([Words(b"other", 77, "")], [(0, 1, 77)])
        with mock.patch.object(text_runs, "put", return_value=other):
            for part, lines in all_parts().items():
                if part.startswith(("Character", "Fields")):
                    self.assertTrue(all(text_runs.run(NOTHING, part, line) for line in lines if line.wanted != "too long"), part)

    def test_programs(self):
        lines, names = page()
        for part, some in lines.items():
            jobs = list(program_runs.jobs_of(NOTHING, {part: some}, Bytes(names)))
            self.assertTrue(any(run() for _, run in jobs[-2:]), part)

    def test_directories(self):
        found = {one.stands.split(" ")[0]: one for one in directories()}
        for one in found.values():
            self.assertTrue(directory_runs.run(NOTHING, one, next(one.whole_files())), one.place)

    def test_pages(self):
        found = Page("statements")
        self.assertTrue(run_script(NOTHING, found.scripts[0]))
        self.assertTrue(run_line(NOTHING, found.configurations[USUAL_CONFIGURATION], found.lines[0], 0))


class Ends(unittest.TestCase):
    def test_what_is_wrong_and_lost_fails(self):
        for cases, wrong, lacking, wanted in (
            (5, [], {}, (5, 0)), (5, ["a"], {}, (4, 1)), (5, [], {"p": 2}, (5, 2)), (500, ["a"] * (PRINTED + 9), {}, (391, 109)),
        ):
            with contextlib.redirect_stdout(io.StringIO()) as out:
                status = finish("some", cases, wrong, lacking)
            self.assertEqual((counts(out.getvalue().splitlines()[-1]), status), (wanted, 1 if wanted[1] else 0))


class Selftests(ProgramsOf):
    def test_summaries(self):
        wanted = selftest_run.summary(7, 20).encode()
        for ends, is_well in (((wanted,), True), ((b"",), False), ((wanted + b"\n",), False), ((wanted, "", 1), False), ((wanted, "x"), False)):
            self.assertEqual(selftest_run.fault(self.program(*ends).path, 7, 20) is None, is_well, ends)


class Asked:
    """A client to which a query finds these documents, and so many in all."""

    def __init__(self, found, told):
        self.found, self.told = found, told

    def query(self, text):
        if text == "SHOW META":
            return Rows([], [["total_found", str(self.told)]], 2)
        first, most = (int(number or 0) for number in re.search(r"LIMIT (?:(\d+), )?(\d+)", text).groups())
        return Rows([], [[str(number), "1"] for number in self.found[first : first + most]], 2)


class RandomQueries(unittest.TestCase):
    def setUp(self):
        self.kept, random_queries.GROUPED = random_queries.GROUPED, 0

    def tearDown(self):
        random_queries.GROUPED = self.kept

    def test_what_differs_is_said(self):
        scan, found_some = random_queries.Scan(), 0
        for number in range(1, 40):
            scan.put(number, 1, [" ".join(f"w{word}" for word in range(1, 1000)), ""])
        for seed in range(20):
            wanted = scan.find(random_queries.query(random.Random(seed)), 100)
            found_some += bool(wanted)
            for found, told in ((wanted, len(wanted)), (wanted[1:], len(wanted)), ([*wanted, 99], len(wanted)), (wanted, len(wanted) + 1)):
                said = random_queries.ask(Asked(found, told), scan, random.Random(seed))
                self.assertEqual(said is None, found == wanted and told == len(wanted), said)
        self.assertGreater(found_some, 5)

    def test_short_pages(self):
        class Pages(Asked):
            """A client whose short pages end with another row."""

            def query(self, text):
                rows = super().query(text).rows
                is_short = text != "SHOW META" and len(rows) < self.told
                return Rows([], rows[:-1] + [["99", "1"]] if is_short else rows, 2)

        class Counts(Asked):
            """A client that tells of one document less behind a short page."""

            def query(self, text):
                rows = super().query(text).rows
                return Rows([], [["total_found", "29"]] if text == "SHOW META" else rows, 2)

        class Groups(Asked):
            """A client with groups and a facet, of which the second one may count another document."""

            more = 0

            def query(self, text):
                return Rows([], [["1", "2"], ["5", "1"]], 2)

            def queries(self, text):
                return [Rows([], [["1"]], 2), Rows([], [["1", str(2 + self.more)], ["5", "1"]], 2)]

        class Facets(Groups):
            more = 1

        tree, scan = random_queries.query(random.Random(1)), random_queries.Scan()
        for client, is_well in ((Asked, True), (Pages, False), (Counts, False)):
            said = random_queries.ask_page(client(list(range(30)), 30), random.Random(1), tree, 100, 30)
            self.assertEqual(said is None, is_well, said)
        for number, group in ((1, 1), (2, 5), (3, 1)):
            scan.put(number, group, ["", ""])
        for client, is_well in ((Groups, True), (Facets, False)):
            said = random_queries.ask_groups(client([], 0), scan, tree, 100, [1, 2, 3])
            self.assertEqual(said is None, is_well, said)


class KillRounds(unittest.TestCase):
    ONE, TWO = (1, 0, 0, 0, 5), (2, 0, 0, 0, 6)

    def settled(self, known, pending, found):
        place = Territory("i", 1, 2)
        place.documents = dict(known)
        return place.settle(pending, found), place.documents

    def test_what_is_kept(self):
        one, two = self.ONE, self.TWO
        self.assertEqual(self.settled({1: one}, [], {1: one, 2: two}), (0, {1: one}))
        self.assertEqual(self.settled({1: one}, [{3: two}], {1: one}), (0, {1: one}))
        self.assertEqual(self.settled({1: one}, [{3: two}], {1: one, 3: two}), (1, {1: one, 3: two}))
        self.assertEqual(self.settled({1: one}, [{1: None}, {3: two}], {3: two}), (2, {3: two}))
        self.assertEqual(self.settled({1: one}, [None], {}), (1, {}))
        for known, pending, found in (
            ({1: one}, [], {}), ({}, [], {1: one}), ({1: one}, [], {1: two}), ({1: one}, [{1: None}, {3: two}], {1: one, 3: two}),
            ({}, [{1: one, 3: two}], {1: one}), ({1: one}, [None], {3: two}),
        ):
            with self.assertRaises(Wrong):
                self.settled(known, pending, found)

    def test_what_jobs_may_be_refused_for(self):
        class Answers:
            """A client whose statements are refused for these texts, in turn; an empty one is OK."""

            def __init__(self, *texts):
                self.texts = list(texts)

            def send(self, text):
                pass

            def reply(self):
                text = self.texts.pop(0)
                if text:
                    raise Refused(1064, "42000", text)

            def query(self, _):
                self.reply()

        usual = ("overtaken by shape 3", "chunks full at 16 needs 1")
        unusual = ("log full at 33554292 needs 656", "disk fault: nothing was changed", "not offered yet", "out of memory")
        options = Namespace(sphinx=False, jobs=1)
        for text in ("", *usual, *unusual):
            worker = Worker(random.Random(1), Answers(text), ["i"])
            worker.ask("FLUSH RAMCHUNK", "i")
            self.assertEqual((worker.wrong is None, worker.done, worker.refused), (text not in unusual, not text, text in usual), text)
            writer = Writer(random.Random(1), Answers(text, ""), [Territory("i", 1, 1)], options)
            if text in unusual:
                with self.assertRaises(Wrong):
                    writer.tell("FLUSH RAMCHUNK i", [JOB])
                continue
            writer.tell("FLUSH RAMCHUNK i", [JOB])
            self.assertEqual((writer.pending, writer.jobs, writer.commits, writer.refusals), ([], not text, 0, 0))
            writer.tell("COMMIT", [{1: self.ONE}])
            self.assertEqual((writer.place.documents, writer.commits), ({1: self.ONE}, 1))
        with self.assertRaises(Wrong):
            Writer(random.Random(1), Answers(""), [Territory("i", 1, 1)], options).tell("INSERT", [REFUSED])

    def test_documents_of_an_index(self):
        class Index:
            """An index with these rows; each word stands in the documents that are named."""

            def __init__(self, rows, having):
                self.rows, self.having = rows, having

            def query(self, text):
                return Rows([], self.having if "MATCH" in text else self.rows, 2)

        self.assertEqual(documents_in(Index([["1", "2", "0", "-3", "4"]], []), "i"), {1: (2, 0, -3, 4, 0)})
        self.assertEqual(documents_in(Index([["1", "2", "0", "-3", "4"]], [["1"]]), "i"), {1: (2, 0, -3, 4, 2 ** len(WORDS) - 1)})
        for rows, having in (([["1", "2", "0", "3", "4"]] * 2, []), ([], [["1"]])):
            with self.assertRaises(Wrong):
                documents_in(Index(rows, having), "i")
