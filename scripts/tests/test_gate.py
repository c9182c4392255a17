"""Tests of what the gate counts and refuses."""

import contextlib
import io
import tempfile
import unittest
from pathlib import Path
from unittest import mock

from scripts.gate import house, parts, promises, script_tests
from scripts.gate.last_line import counts, ended

LINES = """# a comment
first house: python3 -m house

other:   sh -c 'exit 1'
"""
ALIASED = """ghost use Rattle.low.specs.Words as words;
ghost use Rattle.low.specs.Shown.{Shown};

pub fn shown() -> u8
    requires { words.IsWord 0 }
    ensures { Shown result }
{
    0
}
"""


class Counting(unittest.TestCase):
    def test_last_lines(self):
        for line, wanted in (
            ("78 passed, 0 failed", (78, 0)), ("12 passed, 3 failed (what was done)", (12, 3)), ("a_b: 2,987 passed, 1,000 failed", (2987, 1000)),
            ("", None), ("all passed", None), ("passed, 0 failed", None), ("78 passed, 0 failedly", None), ("note: rt: 7 passed, 0 failed", None),
        ):
            self.assertEqual(counts(line), wanted, line)

    def test_ends(self):
        for failed, status in ((0, 0), (2, 1)):
            with contextlib.redirect_stdout(io.StringIO()) as out:
                self.assertEqual(ended("one", 1234, failed), status)
            self.assertEqual(counts(out.getvalue().strip()), (1234, failed))

    def test_parts(self):
        first, other = parts.parts(LINES.splitlines())
        self.assertEqual(first, parts.Part("house", ["python3", "-m", "house"], True))
        self.assertEqual(other, parts.Part("other", ["sh", "-c", "exit 1"], False))

    def test_results(self):
        for status, line, wanted in (
            (0, "5 passed, 0 failed", (5, 0)), (1, "5 passed, 2 failed", (5, 2)), (0, "5 passed, 2 failed", (5, 2)),
            (1, "5 passed, 0 failed", (5, 1)), (-9, "5 passed, 0 failed", (5, 1)), (0, "all is well", (0, 1)), (1, "Traceback", (0, 1)),
        ):
            self.assertEqual(parts.judged(status, line)[:2], wanted)
        results = [parts.Result(1200, 0), parts.Result(3, 2, "status 1")]
        self.assertEqual(parts.summed(results), ("1203 passed, 2 failed", 1))
        self.assertEqual(parts.summed(results[:1]), ("1200 passed, 0 failed", 0))
        self.assertEqual(parts.said(parts.Part("one", [], False), results[1]), "failed: one, 2 of 5 (status 1)")

    def gate(self, lines):
        """What the gate prints for these parts, and its status."""
        out = io.TextIOWrapper(io.BytesIO(), encoding="utf8")
        with mock.patch("sys.stdin", io.StringIO(lines)), contextlib.redirect_stdout(out):
            status = parts.main()
            out.flush()
            return out.buffer.getvalue().decode().splitlines(), status

    def test_the_whole_gate(self):
        well = "well: sh -c 'echo one; echo 2 passed, 0 failed'\n"
        self.assertEqual(self.gate(well), (["one", "2 passed, 0 failed", "2 passed, 0 failed"], 0))
        lines, status = self.gate("bad: sh -c 'echo 1 passed, 1 failed; exit 1'\nnone: no_such_program\n" + well + "p: true crates/no/out/no\n")
        self.assertEqual((lines[-1], status), ("3 passed, 3 failed", 1))
        self.assertEqual([line.split(",")[0] for line in lines[-4:-1]], ["failed: bad", "failed: none", "failed: p"])
        lines, status = self.gate("first bad: sh -c 'echo 1 passed, 1 failed; exit 1'\n" + well)
        self.assertEqual((lines, status), (["1 passed, 1 failed", "failed: bad, 1 of 2", "1 passed, 1 failed"], 1))


    def test_tests_that_fail_or_are_lost(self):
        passing, failing = "        pass\n", "        self.fail()\n"
        for name, bodies, known, wanted in (
            ("one", [passing], 1, (1, 0)), ("two", [passing, failing], 2, (1, 1)), ("few", [passing], 3, (1, 2)), ("broken", ["  x\n"], 1, (0, 1)),
        ):
            with tempfile.TemporaryDirectory() as folder:
                text = "import unittest\n\n\nclass Some(unittest.TestCase):\n"
                text += "".join(f"    def test_{place}(self):\n{body}" for place, body in enumerate(bodies))
                (Path(folder) / f"test_{name}_of_some.py").write_text(text, encoding="utf8")
                with contextlib.redirect_stdout(io.StringIO()) as out:
                    status = script_tests.run(folder, folder, known)
            self.assertEqual((counts(out.getvalue().splitlines()[-1]), status), (wanted, 1 if wanted[1] else 0))


class InAFolder(unittest.TestCase):
    """Tests over some files of a small repository."""

    def setUp(self):
        self.folder = Path(self.enterContext(tempfile.TemporaryDirectory()))
        for module in (house, promises):
            self.enterContext(mock.patch.object(module, "ROOT", self.folder))

    def write(self, **files):
        for name, text in files.items():
            path = self.folder / name.replace("__", "/").replace("_md", ".md").replace("_antt", ".antt").replace("_rt", ".rt")
            path.parent.mkdir(parents=True, exist_ok=True)
            path.write_text(text, encoding="utf8")


class House(InAFolder):
    def test_marks_of_a_merge(self):
        self.write(a_md="a\n<" "<<<<<< main\nb\n=======\nc\n>" ">>>>>> other\n=======\n")
        self.assertEqual([number for _, number, _ in house.markers(["a.md"])], [2, 4, 6])

    def test_links(self):
        self.write(README_md="# A b\n[x](docs/o_md.md) [y](#a-b) [z](#c) `[no](no)` [w](https://w) [v](docs/o_md.md#one-two)\n```\n[no](no)\n```\n")
        (self.folder / "docs").mkdir()
        (self.folder / "docs" / "o_md.md").write_text("# One: `two`\n[up](../README.md#a-b) [gone](gone.md)\n")
        paths = ["README.md", "docs/o_md.md"]
        links = list(house.relative_links(paths))
        self.assertEqual(len(links), 6)
        dead = [(path, what.split(",")[0]) for path, _, what in house.dead_links(links, paths)]
        self.assertEqual(dead, [("README.md", "a link to #c"), ("docs/o_md.md", "a link to gone.md")])

    def test_dependencies(self):
        (self.folder / "crates.txt").write_text("low:\nhigh: low unused  # low: none\nother: low\n")
        self.write(crates__low__src__lib_rt="", crates__high__src__lib_rt="use low::a;\n// unused::b\nuse other::c;\n", crates__other__src__lib_rt="mod low;\nuse low::a;\n")
        wrong = [what for _, _, what in house.wrong_dependencies(list(house.dependencies()))]
        self.assertEqual(wrong, ["high lists unused, which nothing in it names", "high names other, which its line has not"])

    def test_scripts(self):
        self.write(scripts__README_md="# scripts\n\n## gate: the gate\n\n`one`, `two.py`\n\n## cases: more\n\n`three`\n")
        paths = ["scripts/gate/one.py", "scripts/gate/two.py", "scripts/gate/three.py", "scripts/four.py", "scripts/tests/test_a.py", "scripts/__init__.py"]
        self.assertEqual([path for path, _, _ in house.unnamed_scripts(paths)], ["scripts/gate/three.py", "scripts/four.py"])

    def test_tables(self):
        self.write(a_md="one\ntwo\n")
        path = str(self.folder / "a.md")
        self.assertEqual(list(house.differing_tables([("s", path, "one\ntwo\n")])), [])
        self.assertEqual([line for _, line, _ in house.differing_tables([("s", path, "one\n2\n")])], [2])


class Promises(InAFolder):
    def setUp(self):
        super().setUp()
        self.enterContext(mock.patch.object(promises, "PINS", self.folder / "pins"))
        (self.folder / "crates.txt").write_text("# crates: low first\nlow:\nhigh: low\n")
        self.write(
            crates__low__specs__Words_antt="pub mod steps\nIsWord : ℕ → Type 0\nIsWord x = IsLetter x\n\nIsLetter : ℕ → Type 0\nIsLetter x = ⊤\n",
            crates__low__specs__Shown_antt="Shown : ℕ → Type 0\nShown x = ⊤\n",
            crates__low__specs__steps__Own_antt="Own : ℕ → Type 0\nOwn x = ⊤\n",
            crates__high__src__lib_rt="mod own;\npub use own::shown;\n",
            crates__high__src__own_rt=ALIASED,
        )

    def promised(self, *words):
        with contextlib.redirect_stdout(io.StringIO()) as out:
            status = promises.main(list(words))
        return out.getvalue().splitlines(), status

    def test_names_of_modules_are_followed(self):
        found = promises.House()
        self.assertEqual(found.crates, ["low", "high"])
        reached = sorted(map(str, found.reach(found.clauses)))
        self.assertEqual(reached, ["low.specs.Shown.Shown", "low.specs.Words.IsLetter", "low.specs.Words.IsWord"])
        self.assertEqual(found.counts(found.reach(found.clauses)), {"low": (0, 0, 3), "high": (1, 2, 0)})
        self.assertEqual(self.promised()[1], 0)

    def test_a_step_that_is_reached(self):
        for old, new in (("specs.Words as words", "specs.steps.Own as words"), ("specs.Words as words", "specs.steps as words")):
            text = ALIASED.replace(old, new).replace("words.IsWord", "words.Own" if new.startswith("specs.steps.Own") else "words.Own.Own")
            self.write(crates__high__src__own_rt=text)
            lines, status = self.promised()
            self.assertEqual(status, 1)
            self.assertIn("  low.specs.steps.Own.Own is of steps, and used by a clause of high::shown", lines)
            self.assertEqual(counts(lines[-1]), (1, 1))

    def test_ways_to_a_definition(self):
        """By a constructor of a type, by an operator, by a name that another module passes on, by a ghost member, and by none."""
        self.write(
            crates__low__specs__Kinds_antt="pub data Kind : Type 0 where\n  Small : Kind\n  Large : Kind\n",
            crates__low__specs__Signs_antt="◌≪◌ : ℕ → ℕ → Type 0\na ≪ b = ⊤\n",
            crates__high__specs__Lib_antt="pub use Rattle.low.specs.Words\n",
            crates__high__specs__More_antt="pub use Rattle.low.specs.Words.{IsLetter as IsSign}\n",
        )
        head = "pub struct Held {\n    pub ghost size: ℕ,\n}\n\n"
        for uses, clause, wanted in (
            ("low.specs.Kinds.{Small}", "ensures { result ≡ Small }", "low.specs.Kinds.Kind"),
            ("low.specs.Signs.{◌≪◌}", "ensures { 0 ≪ result }", "low.specs.Signs.◌≪◌"),
            ("high.specs.Words.{IsLetter as letter}", "ensures { letter result }", "low.specs.Words.IsLetter"),
            ("high.specs.More.{IsSign}", "ensures { IsSign result }", "low.specs.Words.IsLetter"),
            ("low.specs.Words.{IsLetter}", "ensures IsLetter { 0 ≤ result }", None),
        ):
            self.write(crates__high__src__own_rt=f"ghost use Rattle.{uses};\n\npub fn shown() -> u8\n    {clause}\n{{\n    IsLetter\n}}\n")
            found = promises.House()
            self.assertEqual(list(map(str, found.reach(found.clauses))), [wanted] if wanted else [], clause)
        self.write(crates__high__src__lib_rt="mod own;\npub use own::Held;\n")
        self.write(crates__high__src__own_rt="ghost use Rattle.low.specs.Shown.{Shown};\n" + head.replace("ℕ", "Shown"))
        found = promises.House()
        self.assertEqual(list(map(str, found.reach(found.clauses))), ["low.specs.Shown.Shown"])

    def test_laws_are_counted_one_by_one(self):
        """Also where the root of a crate has one itself."""
        law = "pub fn {}()\n    ensures {{ 0 ≡ 0 }}\n{{}}\n\n"
        self.write(crates__high__src__lib_rt="mod own;\npub use own::{first, second};\n\n" + law.format("third"))
        self.write(crates__high__src__own_rt=law.format("first") + law.format("second"))
        self.assertEqual(promises.House().counts({})["high"], (3, 3, 0))

    def test_pins(self):
        self.assertEqual(self.promised("--pin"), ([], 0))
        self.assertEqual(self.promised()[1], 0)
        self.write(crates__high__src__lib_rt="mod own;\n")
        lines, status = self.promised()
        self.assertEqual(status, 1)
        self.assertEqual(
            [line for line in lines if "pinned" in line],
            ["high: 0 functions are read, and 1 are pinned", "high: 0 clauses are read, and 2 are pinned", "low: 0 definitions are read, and 3 are pinned"],
        )
        self.assertEqual(counts(lines[-1])[1], 3)
        self.promised("--pin")
        self.assertEqual(self.promised()[1], 0)
