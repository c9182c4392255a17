"""Asks a daemon random queries over random documents, and compares what it finds with a scan of its own.

    python3 -m scripts.gate.random_queries --program PROGRAM [--docs 20000] [--queries 20000] [--seed 1] [--prefixes]

starts the program over an empty folder and inserts documents with ids in no order, some by one statement each and some
by many; in between it replaces and deletes some, so that there are several layers with dead rows. One query in four is asked
over half of the documents, which are in memory; one over all, of which FLUSH took some now and then, so that there are chunks
with dead rows as well; one behind a last FLUSH, and one behind OPTIMIZE. Queries are of words, AND, OR, NOT, MAYBE,
phrases, proximities, quorums, `<<`, NEAR and fields, one in another, some with a condition on an attribute. It compares the ids
of the first thousand documents, and of how many there are, with a scan in Python. Where there are no more than some thousands
it also compares a short page, in some order and by weights, from the first row on or up to `max_matches`, with the same part of
the page that has all, and how many documents are told of behind it: a row that can't enter a full page isn't weighed. Now and
then it compares how many of the documents are of each group, as GROUP BY and FACET tell it. Words are few and drawn as in a
natural text, so that most queries find something. It ends at the first query that differs.

With --prefixes half of the words are cut and asked as prefixes, over an index that takes them. Then it also compares how many
words a refused query has, what SHOW META tells of each keyword, and the weights of a few documents by some ranker
(`prefix_scan`).
"""

import argparse
import random
import sys
import tempfile
from collections import Counter
from pathlib import Path

from scripts.clients import jobs
from scripts.clients.daemon import Daemon, Ended
from scripts.clients.mysql_client import Lost, Refused
from scripts.gate import prefix_scan
from scripts.gate.last_line import ended

FIELDS = ["title", "content"]
COLUMNS = ["rt_field = title", "rt_field = content", "rt_attr_uint = gid"]
VOCABULARY = 1000
SHOWN = 1000
# So many states the documents are in, one after the other.
STATES = 4
# Pages of up to so many rows are compared with short ones.
WHOLE = 3000
ORDERS = ["", "", " ORDER BY id DESC", " ORDER BY gid ASC", " ORDER BY WEIGHT() ASC", " ORDER BY gid DESC, WEIGHT() DESC"]
# Groups are 0 to so many less one, and asked for so often.
GROUPS = 100
GROUPED = 0.1
# A prefix has 1 to 4 letters, so often.
PREFIXES = (1, 4, 6, 3)


class WithPrefixes(random.Random):
    """Draws words that are prefixes as well."""


def word(draws, least=0.0):
    """The r-th word in proportion to 1 / r; with a least power above 0 the most common ones are left out."""
    return f"w{int(VOCABULARY ** draws.uniform(least, 1))}"


def asked(draws):
    return word(draws, 0.3)


class Scan:
    """The documents that live: of each its group and, of each word, its places as field and position; and who has a word."""

    def __init__(self):
        self.live, self.having = {}, {}

    def put(self, number, group, texts):
        self.drop(number)
        places = {}
        for field, text in enumerate(texts):
            for position, one in enumerate(text.split(), 1):
                places.setdefault(one, []).append((field, position))
        self.live[number] = (group, places)
        for one in places:
            self.having.setdefault(one, set()).add(number)

    def drop(self, number):
        _, places = self.live.pop(number, (None, {}))
        for one in places:
            self.having[one].discard(number)

    def has(self, one):
        return self.having.get(one, set())

    def beginning(self, prefix):
        """The words with a prefix that some document has."""
        return [one for one, numbers in self.having.items() if numbers and one.startswith(prefix)]

    def find(self, query, below):
        """The documents that the query matches, looked for among those whose words can be enough."""
        found = query.among(self)
        return sorted(n for n in found if self.live[n][0] < below and query.matches(self.live[n][1]))


class Word:
    """A word or a prefix, in one field or in all; a prefix may ask for the first word of a field."""

    prefix = first = False

    def __init__(self, draws):
        self.word = asked(draws)
        self.field = draws.randrange(2) if draws.random() < 0.15 else None
        if isinstance(draws, WithPrefixes) and draws.random() < 0.5:
            self.word = self.word[: draws.choices((1, 2, 3, 4), PREFIXES)[0]]
            self.prefix, self.first = True, draws.random() < 0.1

    def sign(self):
        return "^" * self.first + self.word + "*" * self.prefix

    def __str__(self):
        return self.sign() if self.field is None else f"(@{FIELDS[self.field]} {self.sign()})"

    def written(self):
        return self.sign() if self.field is None else f"(@({FIELDS[self.field]}) {self.sign()})"

    def keys(self):
        return [(self.word, self.prefix)]

    def spans(self, places):
        """Its occurrences: field, first and last position."""
        words = [one for one in places if one.startswith(self.word)] if self.prefix else [self.word]
        return [
            (f, p, p)
            for one in words
            for f, p in places.get(one, [])
            if self.field in (None, f) and (p == 1 or not self.first)
        ]

    def matches(self, places):
        return bool(self.spans(places))

    def among(self, scan):
        if self.prefix:
            return set().union(*map(scan.has, scan.beginning(self.word)))
        return scan.has(self.word)


class Quoted:
    """Words in quotes: a phrase, a proximity or a quorum."""

    def __init__(self, draws, kinds="phrase near some".split()):
        self.kind, self.words = draws.choice(kinds), [asked(draws) for _ in range(draws.randrange(2, 5))]
        self.number = draws.randrange(1, 12) if self.kind == "near" else draws.randrange(1, len(self.words) + 2)

    def __str__(self):
        sign = {"phrase": "", "near": f"~{self.number}", "some": f"/{self.number}"}[self.kind]
        return '"' + " ".join(self.words) + '"' + sign

    written = __str__

    def keys(self):
        return [(one, False) for one in self.words]

    def spans(self, places):
        """The runs of a phrase."""
        first, later = self.words[0], [set(places.get(one, [])) for one in self.words[1:]]
        runs = (
            (f, p, p + len(later))
            for f, p in places.get(first, [])
            if all((f, p + step) in its for step, its in enumerate(later, 1))
        )
        return list(runs)

    def matches(self, places):
        if self.kind == "phrase":
            return bool(self.spans(places))
        if self.kind == "some":
            return sum(one in places for one in self.words) >= min(self.number, len(self.words))
        wide = len(self.words) + self.number - 1
        return any(
            self.fits(places, field, first, first + wide) for one in set(self.words) for field, first in places.get(one, [])
        )

    def among(self, scan):
        join = set.union if self.kind == "some" else set.intersection
        return join(*map(scan.has, self.words))

    def fits(self, places, field, first, end):
        """Whether the positions from the one to before the other have each word as often as it is listed."""
        return all(
            sum(f == field and first <= p < end for f, p in places.get(one, [])) >= self.words.count(one)
            for one in set(self.words)
        )


class Pair:
    """Two parts that go together in one field: one before the other, or near it."""

    def __init__(self, draws):
        self.left, self.right = (
            Word(draws) if draws.random() < 0.7 else Quoted(draws, ["phrase"]) for _ in range(2)
        )
        self.near = draws.randrange(1, 15) if draws.random() < 0.5 else None

    def __str__(self):
        sign = "<<" if self.near is None else f"NEAR/{self.near}"
        return f"({self.left} {sign} {self.right})"

    def written(self):
        return f"( {self.left.written()} {'<<' if self.near is None else f'NEAR/{self.near}'} {self.right.written()} )"

    def keys(self):
        return self.left.keys() + self.right.keys()

    def go_together(self, one, two):
        before = one[2] < two[1]
        if self.near is None:
            return one[0] == two[0] and before
        gap = two[1] - one[2] if before else one[1] - two[2]
        return one[0] == two[0] and 0 < gap <= self.near

    def matches(self, places):
        return any(
            self.go_together(one, two) for one in self.left.spans(places) for two in self.right.spans(places)
        )

    def among(self, scan):
        return self.left.among(scan) & self.right.among(scan)


class Group:
    """Parts joined by AND, some of them negated, by OR or by MAYBE."""

    def __init__(self, draws, depth):
        self.kind = draws.choice(["and", "and", "or", "maybe"])
        self.parts = [query(draws, depth - 1) for _ in range(2 if self.kind == "maybe" else draws.randrange(2, 4))]
        self.nots = [query(draws, depth - 1)] if self.kind == "and" and draws.random() < 0.4 else []

    def __str__(self):
        sign = {"and": " ", "or": " | ", "maybe": " MAYBE "}[self.kind]
        nots = "".join(f" -({part})" for part in self.nots)
        return f"({sign.join(map(str, self.parts))}{nots})"

    def written(self):
        sign = {"and": " ", "or": " | ", "maybe": " MAYBE "}[self.kind]
        return f"( {sign.join(part.written() for part in self.parts)}{''.join(f' -{part.written()}' for part in self.nots)} )"

    def keys(self):
        return [key for part in self.parts + self.nots for key in part.keys()]

    def matches(self, places):
        if self.kind == "or":
            return any(part.matches(places) for part in self.parts)
        if self.kind == "maybe":
            return self.parts[0].matches(places)
        return all(part.matches(places) for part in self.parts) and not any(
            part.matches(places) for part in self.nots
        )

    def among(self, scan):
        if self.kind == "maybe":
            return self.parts[0].among(scan)
        join = set.union if self.kind == "or" else set.intersection
        return join(*(part.among(scan) for part in self.parts))


def query(draws, depth=2):
    kind = draws.random()
    if depth and kind < 0.45:
        return Group(draws, depth)
    if kind < 0.65:
        return Quoted(draws)
    return Pair(draws) if kind < 0.75 else Word(draws)


def fill(client, scan, draws, numbers, flushes):
    """Inserts documents of these ids, and replaces and deletes some; has the index flushed so often on the way."""
    ends = [len(numbers) * part // (flushes + 1) for part in range(1, flushes + 1)]
    while numbers:
        while ends and len(numbers) <= ends[-1]:
            ends.pop()
            client.query(f"{jobs.FLUSH} rt")
        some = 1 if draws.random() < 0.5 else draws.randrange(2, 60)
        now, numbers = numbers[:some], numbers[some:]
        put(client, scan, draws, "INSERT", now)
        known = list(scan.live) if draws.random() < 0.02 else []
        if known:
            put(client, scan, draws, "REPLACE", draws.sample(known, min(len(known), 20)))
            gone = draws.sample(known, min(len(known), 10))
            client.query(f"DELETE FROM rt WHERE id IN ({', '.join(map(str, gone))})")
            for number in gone:
                scan.drop(number)


def put(client, scan, draws, verb, numbers):
    rows = []
    for number in numbers:
        group, texts = draws.randrange(GROUPS), [" ".join(word(draws) for _ in range(n)) for n in (6, 40)]
        scan.put(number, group, texts)
        rows.append(f"({number}, '{texts[0]}', '{texts[1]}', {group})")
    client.query(f"{verb} INTO rt (id, title, content, gid) VALUES {', '.join(rows)}")


def condition(below):
    """The condition that a group lies below this one, where that isn't so of all."""
    return f" AND gid < {below}" if below < GROUPS else ""


def ask(client, scan, draws):
    """One query; what is wrong with its reply, or None."""
    tree, below = query(draws), draws.choice([GROUPS, GROUPS, 50, 5])
    text = f"SELECT id FROM rt WHERE MATCH('{tree}'){condition(below)} LIMIT {SHOWN} OPTION ranker=none"
    if prefix_scan.words(scan, tree) > prefix_scan.MOST_WORDS:
        return prefix_scan.ask_refused(client, scan, tree, text)
    wanted = scan.find(tree, below)
    found = [int(row[0]) for row in client.query(text).rows]
    meta = dict(client.query("SHOW META").rows)
    told = int(meta["total_found"])
    if found == wanted[:SHOWN] and told == len(wanted):
        wrong = prefix_scan.differ(client, scan, draws, tree, wanted, meta) if isinstance(draws, WithPrefixes) else None
        wrong = wrong or (ask_page(client, draws, tree, below, told) if 0 < told <= WHOLE else None)
        return wrong or (ask_groups(client, scan, tree, below, wanted) if draws.random() < GROUPED else None)
    return f"{text}: {len(found)} of {told} documents, wanted {len(wanted)}; first that differs: " + next(
        (f"{one} for {two}" for one, two in zip(found, wanted) if one != two), "none"
    )


def ask_page(client, draws, tree, below, told):
    """A short page by weights beside the page of all; what is wrong with it, or None."""
    count, order = draws.choice([1, 5, 20, 200]), draws.choice(ORDERS)
    first = draws.choice([0, 0, max(0, told - count), draws.randrange(told)])
    text = f"SELECT id, WEIGHT() FROM rt WHERE MATCH('{tree}'){condition(below)}{order}"
    option = "OPTION field_weights=(title=3), max_matches="
    whole = client.query(f"{text} LIMIT {told} {option}{told}").rows
    short = client.query(f"{text} LIMIT {first}, {count} {option}{first + count}").rows
    counted = int(dict(client.query("SHOW META").rows)["total_found"])
    if short == whole[first : first + count] and len(whole) == told == counted:
        return None
    return (
        f"{text} LIMIT {first}, {count}: {short}, wanted {whole[first : first + count]} of {told}, "
        f"of which there are {len(whole)}, and {counted} were told of"
    )


def ask_groups(client, scan, tree, below, wanted):
    """How many documents are of each group, as GROUP BY and FACET tell it; what is wrong with that, or None."""
    many = Counter(scan.live[number][0] for number in wanted)
    text = f"FROM rt WHERE MATCH('{tree}'){condition(below)}"
    groups = client.query(f"SELECT gid, COUNT(*) {text} GROUP BY gid ORDER BY gid ASC LIMIT {GROUPS}").rows
    _, facet = client.queries(f"SELECT id {text} LIMIT 1 FACET gid ORDER BY gid ASC LIMIT {GROUPS}")
    told = [[(int(group), int(count)) for group, count in rows] for rows in (groups, facet.rows)]
    if told == [sorted(many.items())] * 2:
        return None
    return f"{text}: groups {told[0]} and facet {told[1]}, wanted {sorted(many.items())}"


def first_wrong(given):
    """How many queries find what the scan finds before the first that doesn't, and what is wrong with that one, or None."""
    draws, scan, done = (WithPrefixes if given.prefixes else random.Random)(given.seed), Scan(), 0
    columns = COLUMNS + ["min_prefix_len = 1"] * given.prefixes
    with tempfile.TemporaryDirectory() as folder:
        daemon = Daemon(given.program, Path(folder), {"rt": columns}, 2)
        daemon.start()
        try:
            client = daemon.client()
            for part, _ in enumerate(states(client, scan, draws, given.docs), 1):
                while done < given.queries * part // STATES:
                    wrong = ask(client, scan, draws)
                    if wrong:
                        return done, f"query {done + 1}: {wrong}"
                    done += 1
            client.quit()
        except (Ended, Lost, Refused) as error:
            return done, f"behind query {done}: {error}"
        finally:
            daemon.kill()
    print(f"{done:,} queries over {len(scan.live):,} documents find what a scan finds")
    return done, None


def states(client, scan, draws, count):
    """Puts the documents, and has them in one state after the other: in memory, in chunks and memory, in chunks, in one."""
    numbers = draws.sample(range(1, 10 * count), count)
    fill(client, scan, draws, numbers[: count // 2], 0)
    yield
    fill(client, scan, draws, numbers[count // 2 :], 5)
    yield
    for job in (jobs.FLUSH, jobs.OPTIMIZE):
        client.query(f"{job} rt")
        yield


def main():
    words = argparse.ArgumentParser(description=__doc__.splitlines()[0])
    words.add_argument("--program", required=True)
    for name, number in (("docs", 20000), ("queries", 20000), ("seed", 1)):
        words.add_argument(f"--{name}", type=int, default=number)
    words.add_argument("--prefixes", action="store_true", help="also asks prefixes")
    done, wrong = first_wrong(words.parse_args())
    if wrong:
        print(wrong)
    return ended("random_queries", done, 1 if wrong else 0)


if __name__ == "__main__":
    sys.exit(main())
