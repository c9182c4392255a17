"""Checks that the promises of the crates speak by definitions of `specs/` alone.

A reader must believe the definitions by which the clauses of public functions speak, and those that they use in turn;
they lie in a crate's `specs/`. What serves proofs and private functions alone lies in `specs/steps/`. This program reads
the sources, follows each public clause to the definitions that it reaches, and prints for each crate

    believed    definitions of specs/ that some public clause reaches
    steps       definitions of specs/steps/
    idle        definitions of specs/ that no public clause reaches

It fails where a public clause reaches a definition of specs/steps/. A definition that is idle belongs into specs/steps/,
unless it waits for crates that are to be built on it. What an impl gives for a ghost member of a trait may be a step, since callers rest on the trait's
clauses; a crate that has no function of its own is read by the crates above it, and may define what they don't use yet.
With names of crates it prints these alone.

    python3 -m scripts.gate.promises [CRATE..]
    python3 -m scripts.gate.promises --pin

It reads the sources by their layout, and would pass what it no longer reads. So promises.txt beside it has how many public
functions, clauses and believed definitions each crate is known to have, and fewer of one are a failure. `--pin` writes what
there is now: after a crate has grown, and where what went is meant to be gone.
"""

import re
import sys
from collections import Counter
from pathlib import Path
from typing import NamedTuple

from scripts.gate.last_line import ended

ROOT = Path(__file__).resolve().parents[2]
PINS = Path(__file__).with_name("promises.txt")
NAME = r"[^\W\d][\w'?!-]*"
HEADER = re.compile(rf"^(?:(?:abbrev|unfoldable|opaque)\s+)?(?:pub\s+)?(?:(record|data)\s+)?({NAME}|\S*◌\S*)\s*(?=[:({{])")
IMPORT = re.compile(r"(?:pub |ghost )?use Rattle\.([\w.«»]+?)(?:\.\{([^}]*)\}|\s+as\s+(\w+))?;?$")
# a clause's own name is no definition that it uses
NAMED_CLAUSE = re.compile(r"^(\s+(?:requires|ensures)(?: \*)?) \w+ \{", re.M)
FUNCTION = re.compile(r"^(\s*)(pub )?(?:const |unsafe )*fn (\w+)")
CLAUSE = re.compile(r"^\s+(?:requires|ensures)\b", re.M)
QUALIFIED = re.compile(rf"(?<![\w.])(\w+)\.({NAME}(?:\.{NAME})*)")


class Definition:
    """One definition of specs/, with the names that it uses."""

    def __init__(self, module, name):
        self.module = module
        self.name = name
        self.lines = []

    @property
    def is_step(self):
        return ".specs.steps" in self.module

    def __str__(self):
        return f"{self.module}.{self.name}"


class Names:
    """What the names of a file stand for: its own definitions, what it imports, and the modules that it names."""

    def __init__(self):
        self.here = {}
        self.imported = {}
        self.aliases = {}

    def add_import(self, line):
        found = IMPORT.match(line.strip())
        if not found:
            return
        path, items, alias = found.groups()
        if items is None:
            self.aliases[alias or path.split(".")[-1]] = path
            return
        for item in items.strip().split(","):
            name, _, other = item.strip().partition(" as ")
            if name:
                self.imported[other.strip() or name] = (path, name)
                self.aliases[other.strip() or name] = f"{path}.{name}"


class Counts(NamedTuple):
    """What is read of a crate: its public functions and ghost members, their clauses, and the definitions that are believed."""

    functions: int
    clauses: int
    definitions: int


def mentions(text):
    """The words of a text, and its signs, which name operators."""
    return set(re.findall(NAME, text)), set(re.findall(r"[^\s\w(){}\[\],.;:'λ→×]+", text))


def names_operator(name, mentioned):
    parts = [part for part in name.split("◌") if part]
    return bool(parts) and all(part in mentioned for part in parts)


class House:
    """All crates of the repository: their definitions, by module, and their public clauses."""

    def __init__(self):
        lines = (line.split("#")[0] for line in (ROOT / "crates.txt").read_text().splitlines())
        self.crates = [line.split(":")[0].split()[0] for line in lines if ":" in line]
        self.modules = {}
        self.passed_on = {}
        self.clauses = []
        self.members = []
        for crate in self.crates:
            self.read_specs(crate)
        for crate in self.crates:
            self.read_sources(crate)

    def read_specs(self, crate):
        folder = ROOT / "crates" / crate / "specs"
        for file in sorted(folder.rglob("*.antt")):
            module = ".".join([crate, "specs", *file.relative_to(folder).with_suffix("").parts])
            names = Names()
            current = None
            for line in file.read_text().splitlines():
                line = line.split("--")[0].rstrip() if line.lstrip().startswith("--") else line.rstrip()
                if line.startswith("pub use ") and "{" in line:
                    names.add_import(line)
                elif line.startswith("pub use "):
                    target = line[len("pub use Rattle."):].strip()
                    self.passed_on[f"{crate}.specs.{target.split('.')[-1]}"] = target
                elif line.startswith("use "):
                    names.add_import(line)
                elif line and not line[0].isspace():
                    current = self.start(names, module, line, current)
                elif current and line:
                    self.add_line(names, current, line)
            self.modules[module] = names

    def start(self, names, module, line, current):
        """The definition that a line at the margin begins or goes on with."""
        if line.startswith(("pub mod", "infix", "open")):
            return current
        found = HEADER.match(line)
        declares = line.startswith(("abbrev ", "unfoldable ", "opaque ", "pub ", "record ", "data "))
        if found and (declares or found.group(2) not in names.here and " = " not in line):
            current = Definition(module, found.group(2))
            names.here[current.name] = current
        if current:
            current.lines.append(line)
        return current

    def add_line(self, names, definition, line):
        """A further line of a definition; a constructor of a type names the type."""
        definition.lines.append(line)
        found = re.match(rf"^  (?:pub )?({NAME}|\S*◌\S*)\s*:", line)
        if found and " data " in f" {definition.lines[0]} ":
            names.here.setdefault(found.group(1), definition)

    def read_sources(self, crate):
        folder = ROOT / "crates" / crate / "src"
        root = next((file for file in (folder / "lib.rt", folder / "main.rt") if file.exists()), None)
        top = root.read_text() if root else ""
        exported = set(re.findall(r"^pub (?:const |unsafe )*(?:fn|trait|struct|enum) (\w+)", top, re.M))
        for found in re.finditer(r"pub use ([\w:]+?)(?:::\{([^}]*)\}|::(\w+))?;", top):
            items = found.group(2) or found.group(3) or found.group(1)
            exported.update(item.strip().split(" as ")[0] for item in items.split(","))
        for file in sorted(folder.rglob("*.rt")):
            self.read_source(crate, file, exported)

    def read_source(self, crate, file, exported):
        names = Names()
        lines = file.read_text().splitlines()
        for found in re.finditer(r"ghost use [^;]*;", file.read_text()):
            names.add_import(" ".join(found.group(0).split()))
        owner, is_public, is_trait, is_member, is_struct = None, False, False, False, False
        at = 0
        while at < len(lines):
            line = lines[at]
            if line and not line[0].isspace():
                owner, is_public, is_trait = self.block(line, exported)
                is_struct = line.startswith("pub struct")
                is_member = re.match(r"^impl(<.*?>)? (?!Model\b).* for ", line) is not None
            found = FUNCTION.match(line)
            if found:
                end = self.end_of_head(lines, at, found.group(1))
                top = not found.group(1)
                public = (found.group(3) in exported and bool(found.group(2))) if top else is_public and (is_trait or bool(found.group(2)))
                if public:
                    title = found.group(3) if top else f"{owner}::{found.group(3)}"
                    self.clauses.append((crate, title, names, "\n".join(lines[at:end])))
                at = max(end, at + 1)
                continue
            member = re.match(r"^\s+(?:pub )?ghost (?!use\b|invariant\b)(\w+)\b", line)
            if member and is_public and owner and not (is_struct and not line.strip().startswith("pub ")):
                end = at + 1
                while end < len(lines) and not lines[end - 1].rstrip().endswith((";", ",", "}")):
                    end += 1
                roots = self.members if is_member else self.clauses
                roots.append((crate, f"{owner}.{member.group(1)}", names, "\n".join(lines[at:end])))
            at += 1

    @staticmethod
    def block(line, exported):
        """What a line at the margin opens: whose it is, whether that is public, and whether all in it is."""
        found = re.match(r"^impl(?:<.*?>)? (?:([\w:]+)(?:<.*?>)? for )?&?(\w+)", line)
        if found:
            return found.group(2), found.group(2) in exported, found.group(1) is not None
        found = re.match(r"^pub (?:trait|struct|enum) (\w+)", line)
        if found:
            return found.group(1), found.group(1) in exported, True
        return None, False, False

    @staticmethod
    def end_of_head(lines, at, indent):
        """The line after a function's signature and clauses."""
        end = at
        while end < len(lines):
            text = lines[end].rstrip()
            clause = re.match(r"^\s+(requires|ensures|measure)\b", text)
            if text in (indent + "{", indent + "{}") or (text.endswith("{") and not clause and "{ " not in text):
                return end
            if text.endswith(";") and text.count("{") <= text.count("}"):
                return end + 1
            end += 1
        return end

    def module_of(self, path):
        seen = set()
        while path not in self.modules and path in self.passed_on and path not in seen:
            seen.add(path)
            path = self.passed_on[path]
        return self.modules.get(path)

    def find(self, names, name, seen=()):
        """The definition that a name stands for in a file, if it is one of this repository."""
        if name in names.here:
            return names.here[name]
        if name in names.imported and (id(names), name) not in seen:
            path, original = names.imported[name]
            module = self.module_of(path)
            if module:
                return self.find(module, original, (*seen, (id(names), name)))
        return None

    def used(self, names, text):
        words, signs = mentions(text)
        known = [*names.here, *names.imported]
        for name in known:
            if name in words or ("◌" in name and names_operator(name, words | signs)):
                found = self.find(names, name)
                if found:
                    yield found
        for alias, names_in in QUALIFIED.findall(text):
            found = self.find_in(names.aliases.get(alias), names_in.split("."))
            if found:
                yield found

    def find_in(self, path, words):
        """The definition that words behind the name of a module stand for: the first of them that is none of its modules."""
        for word in words if path else []:
            module = self.module_of(path)
            found = module and self.find(module, word)
            if found:
                return found
            path = f"{path}.{word}"
        return None

    def of(self, crate):
        """The definitions of a crate."""
        return {d for m, names in self.modules.items() if m.split(".")[0] == crate for d in names.here.values()}

    def counts(self, reached):
        """What is read of each crate that has something."""
        functions = Counter(crate for crate, *_ in self.clauses)
        clauses = Counter()
        for crate, _, _, text in self.clauses:
            clauses[crate] += len(CLAUSE.findall(text))
        definitions = Counter(definition.module.split(".")[0] for definition in reached if not definition.is_step)
        read = {crate: Counts(functions[crate], clauses[crate], definitions[crate]) for crate in self.crates}
        return {crate: counts for crate, counts in read.items() if any(counts)}

    def reach(self, roots):
        """Each definition that these clauses reach, with how it was reached."""
        reached = {}
        todo = []
        for crate, title, names, text in roots:
            for definition in self.used(names, NAMED_CLAUSE.sub(r"\1 {", text)):
                if definition not in reached:
                    reached[definition] = f"a clause of {crate}::{title}"
                    todo.append(definition)
        while todo:
            definition = todo.pop()
            names = self.modules[definition.module]
            for used in self.used(names, "\n".join(definition.lines)):
                if used not in reached:
                    reached[used] = f"{definition}"
                    todo.append(used)
        return reached


def pinned():
    """The counts of each crate that are pinned."""
    rows = [line.split() for line in PINS.read_text(encoding="utf8").splitlines()[1:]] if PINS.exists() else []
    return {crate: Counts(*map(int, numbers)) for crate, *numbers in rows}


def pin(counts):
    """Writes counts as those that are pinned."""
    rows = [("crate", *Counts._fields), *((crate, *numbers) for crate, numbers in sorted(counts.items()))]
    PINS.write_text("".join(f"{row[0]:18}" + "".join(f"{cell:>13}" for cell in row[1:]) + "\n" for row in rows), encoding="utf8")


def lost(counts, pins):
    """Where fewer are read than are pinned, in words."""
    for crate, numbers in pins.items():
        for what, known, found in zip(Counts._fields, numbers, counts.get(crate, (0, 0, 0))):
            if found < known:
                yield f"{crate}: {found} {what} are read, and {known} are pinned"


def shown(house, crate, believed, reached):
    """Prints the line of a crate, and what is wrong and idle there; gives what is wrong, and how much is idle."""
    all_of = house.of(crate)
    steps = {d for d in all_of if d.is_step}
    idle = {d for d in all_of - steps if d not in reached}
    print(f"{crate:16} {len(all_of - steps - idle):8} {len(steps):6} {len(idle):5}")
    wrong = [f"{d} is of steps, and used by {believed[d]}" for d in sorted(steps & believed.keys(), key=str)]
    for said in wrong:
        print(f"  {said}")
    if all(crate != other for other, *_ in house.clauses):
        return wrong, 0
    for definition in sorted(idle, key=str):
        print(f"  {definition} is reached by no public clause")
    return wrong, len(idle)


def main(words):
    house = House()
    believed = house.reach(house.clauses)
    counts = house.counts(believed)
    if words == ["--pin"]:
        pin(counts)
        return 0
    reached = house.reach(house.clauses + house.members)
    print(f"{'crate':16} {'believed':>8} {'steps':>6} {'idle':>5}")
    chosen = [crate for crate in house.crates if not words or crate in words]
    told = [shown(house, crate, believed, reached) for crate in chosen]
    wrong = [said for of_crate, _ in told for said in of_crate]
    missing = list(lost(counts, {crate: numbers for crate, numbers in pinned().items() if not words or crate in words}))
    for said in missing:
        print(said)
    read = Counts(*map(sum, zip(*(counts[crate] for crate in chosen if crate in counts)))) if counts else Counts(0, 0, 0)
    print("; ".join(f"{what}: {number}" for what, number in read._asdict().items()) + f"; idle: {sum(idle for _, idle in told)}")
    return ended("promises", max(0, read.clauses - len(wrong)), len(wrong) + len(missing))


if __name__ == "__main__":
    sys.exit(main(sys.argv[1:]))
