"""Measures SELECTs of many classes beside Sphinx 2.2, over the same documents of 100 words in one run.

    python3 -m scripts.figures.beside_sphinx --program PROGRAM [--sphinx PATH] [--docs N..] [--chunks N..] [--texts N] [--rounds N]

starts both over empty folders, loads both with N documents (40,000 if nothing is said; as many as PROGRAM's index takes
where that is fewer) by INSERTs of 1,000, and sends the texts of each class to one after the other. The table has how many
documents were found, and where the two found different numbers, in how many of the texts; then the time of a text as a
client over loopback sees it, and that of the daemon's processors, which is the one to look at where the machine has other
work. Each is the mean of a class's texts in the best of three rounds, and beside it stands how many times as long Sphinx
took. Behind the table stand the geometric means, the classes in which Sphinx was faster, and how many times as long each of
the two took by an expression as by `matchany`, for the same words. Weights are those of the ranker `proximity` on both sides,
where a class names no other.

With --chunks both write their documents into so many chunks on the disk: of several each has the same number of documents,
which are flushed together; of one, where they don't go into one log, all that were flushed are optimised. Each number of
chunks is measured by itself, 0 is documents in memory. Debian's package is sphinxsearch. PROGRAM may be Sphinx as well, which
shows what the machine's noise is.
"""

import argparse
import math
import random
import subprocess
import sys
import tempfile
import time
from itertools import product
from pathlib import Path

from scripts.clients import jobs
from scripts.clients.daemon import COLUMNS, Daemon, processor, resident
from scripts.clients.mysql_client import Refused
from scripts.figures import hundred_words as documents

# the ranks of the words that stand in a text as c1, c2 .. of the most common, f1 .. frequent, m1 .. some, r1 .. rare
RANKS = {"c": (6, 13), "f": (15, 60), "m": (500, 1500), "r": (15000, 40000)}
RANKED = " OPTION ranker=proximity"
WEIGHED = " OPTION ranker=expr('sum(lcs*user_weight)*1000+gid')"
MATCHANY, EXPRESSION = "the same by matchany", "the same by an expression"
CLASSES = [
    ("a rare word", "SELECT id, WEIGHT() FROM rt WHERE MATCH('{r1}')" + RANKED),
    ("a word that some have", "SELECT id, WEIGHT() FROM rt WHERE MATCH('{m1}')" + RANKED),
    ("a common word", "SELECT id, WEIGHT() FROM rt WHERE MATCH('{c1}')" + RANKED),
    ("the same, not ranked", "SELECT id FROM rt WHERE MATCH('{c1}') OPTION ranker=none"),
    (MATCHANY, "SELECT id, WEIGHT() FROM rt WHERE MATCH('{c1}') OPTION ranker=matchany"),
    (EXPRESSION, "SELECT id, WEIGHT() FROM rt WHERE MATCH('{c1}')" + WEIGHED),
    ("a common word in one field", "SELECT id, WEIGHT() FROM rt WHERE MATCH('@content {c1}')" + RANKED),
    ("two words", "SELECT id, WEIGHT() FROM rt WHERE MATCH('{f1} {f2}')" + RANKED),
    ("three words", "SELECT id, WEIGHT() FROM rt WHERE MATCH('{f1} {f2} {f3}')" + RANKED),
    ("a rare and a common word", "SELECT id, WEIGHT() FROM rt WHERE MATCH('{r1} {c1}')" + RANKED),
    ("NOT", "SELECT id, WEIGHT() FROM rt WHERE MATCH('{f1} -{f2}')" + RANKED),
    ("MAYBE", "SELECT id, WEIGHT() FROM rt WHERE MATCH('{m1} MAYBE {f1}')" + RANKED),
    ("one of two", "SELECT id, WEIGHT() FROM rt WHERE MATCH('{f1} | {f2}')" + RANKED),
    ("one of five", "SELECT id, WEIGHT() FROM rt WHERE MATCH('{c1} | {f1} | {f2} | {m1} | {m2}')" + RANKED),
    ("a phrase", "SELECT id, WEIGHT() FROM rt WHERE MATCH('\"{f1} {f2}\"')" + RANKED),
    ("proximity", "SELECT id, WEIGHT() FROM rt WHERE MATCH('\"{f1} {f2} {f3}\"~5')" + RANKED),
    ("NEAR", "SELECT id, WEIGHT() FROM rt WHERE MATCH('{f1} NEAR/3 {f2}')" + RANKED),
    ("strict order", "SELECT id, WEIGHT() FROM rt WHERE MATCH('{f1} << {m1}')" + RANKED),
    ("quorum", "SELECT id, WEIGHT() FROM rt WHERE MATCH('\"{f1} {f2} {f3} {m1} {m2}\"/3')" + RANKED),
    ("a word and a condition", "SELECT id FROM rt WHERE MATCH('{f1}') AND gid = {gid}" + RANKED),
    ("a word and a range", "SELECT id FROM rt WHERE MATCH('{f1}') AND price BETWEEN {low} AND {high}" + RANKED),
    ("a condition alone", "SELECT id FROM rt WHERE gid = {gid}"),
    ("a range alone", "SELECT id FROM rt WHERE price BETWEEN {low} AND {high}"),
    ("the order of an attribute", "SELECT id, price FROM rt WHERE MATCH('{f1}') ORDER BY price DESC" + RANKED),
    ("the same without MATCH", "SELECT id, price FROM rt ORDER BY price DESC"),
    ("id =", "SELECT id, gid, price FROM rt WHERE id = {id}"),
    ("the page at 1,000", "SELECT id FROM rt WHERE MATCH('{c1}') LIMIT 980, 20" + RANKED),
    ("the page at 10,000", "SELECT id FROM rt WHERE MATCH('{c1}') LIMIT 9980, 20" + RANKED + ", max_matches=10000"),
    ("GROUP BY", "SELECT gid, COUNT(*) FROM rt WHERE MATCH('{f1}') GROUP BY gid" + RANKED),
    ("a facet", "SELECT id FROM rt WHERE MATCH('{f1}')" + RANKED + " FACET gid"),
    ("COUNT(*)", "SELECT COUNT(*) FROM rt WHERE MATCH('{f1}')" + RANKED),
    ("COUNT(*) of all", "SELECT COUNT(*) FROM rt"),
]
# a class's texts are sent again and again until the daemon worked for so many seconds
ROUND = 0.05


def texts_of(template, number, count):
    """The texts of a class, the same at each run, with the same words as other classes of its conditions."""
    draws, made = random.Random(template.partition(" FROM ")[2].partition(" OPTION ")[0]), []
    for _ in range(number):
        words = {
            f"{group}{place}": f"w{rank}"
            for group, ranks in RANKS.items()
            for place, rank in enumerate(draws.sample(range(*ranks), 3), 1)
        }
        low = draws.randrange(900000)
        numbers = {"gid": draws.randrange(1000), "low": low, "high": low + 20000, "id": draws.randrange(1, count + 1)}
        made.append(template.format(**words, **numbers))
    return made


class Side:
    """One of the two daemons, with a client."""

    def __init__(self, program, folder, sphinx):
        folder.mkdir()
        self.daemon = Daemon(program, folder, {"rt": COLUMNS}, 2, sphinx)
        self.daemon.start()
        self.client = self.daemon.client()

    def load(self, count, chunks):
        """Adds documents, in memory or in so many chunks, and gives how many there are and the seconds that it took, without
        the making of their texts."""
        taken = done = 0
        ends = [count * number // chunks for number in range(1, chunks + 1)]
        while done < count:
            numbers = range(done + 1, min([done + 1000, count, *(end for end in ends if end > done)]) + 1)
            seconds = self.add(documents.insert(numbers), chunks > 0)
            if seconds is None:
                print(f"no more than {done:,} documents")
                break
            taken += seconds
            done += len(numbers)
            if done in ends:
                taken += jobs.timed(self.client, jobs.FLUSH)
        if chunks == 1 and self.chunks() > 1:
            taken += jobs.timed(self.client, jobs.OPTIMIZE)
        return done, taken

    def add(self, text, may_flush):
        """Adds documents, and gives the seconds that it took, None where the index is full: it is flushed first if that may be."""
        begun = time.perf_counter()
        try:
            self.client.query(text)
        except Refused as refused:
            if " full at " not in refused.text:
                raise
            if not may_flush:
                return None
            jobs.timed(self.client, jobs.FLUSH)
            self.client.query(text)
        return time.perf_counter() - begun

    def chunks(self):
        return jobs.status(self.client, "rt")[1]


def found(client, text):
    """How many documents or groups a SELECT finds."""
    client.queries(text)
    return int(dict(client.query("SHOW META").rows)["total_found"])


def timed(client, pid, texts):
    """The mean time of a text: until its reply was there, and of the daemon's processors."""
    begin, worked, times = time.perf_counter(), processor(pid), 0
    while times == 0 or processor(pid) - worked < ROUND:
        for text in texts:
            client.queries(text)
        times += len(texts)
    return (time.perf_counter() - begin) / times, (processor(pid) - worked) / times


def measured(sides, count, options):
    """Prints the table; gives of each class what it took on either side, in all and on its processors."""
    classes = [(title, texts_of(template, options.texts, count)) for title, template in CLASSES]
    founds = {title: [[found(side.client, text) for text in texts] for side in sides] for title, texts in classes}
    rounds = {title: ([], []) for title, _ in classes}
    for _ in range(options.rounds):
        for title, texts in classes:
            for side, times in zip(sides, rounds[title]):
                times.append(timed(side.client, side.daemon.process.pid, texts))
    print(f"| over {count:,} documents | found | time | Sphinx | ratio | processor | Sphinx | ratio |\n|---|{'---|' * 7}")
    taken = {}
    for title, both in rounds.items():
        taken[title] = [[min(column) for column in zip(*times)] for times in both]
        cells = [found_by(*founds[title]), *(cell for pair in zip(*taken[title]) for cell in compared(*pair))]
        print(f"| {title} | {' | '.join(cells)} |")
    return taken


def found_by(ours, theirs):
    differing = sum(one != other for one, other in zip(ours, theirs))
    mean = f"{sum(ours) / len(ours):,.0f}"
    return f"{mean}, other in {differing} of {len(ours)}" if differing else mean


def compared(ours, theirs):
    return f"{ours * 1e6:,.0f} µs", f"{theirs * 1e6:,.0f} µs", f"{theirs / ours:.2f}"


def told(kind, ratios):
    """The geometric mean of the classes' ratios, and where Sphinx was faster."""
    slower = [title for title, ratio in ratios.items() if ratio < 1]
    mean = math.exp(sum(map(math.log, ratios.values())) / len(ratios))
    return f"{kind}: geometric mean {mean:.2f}; Sphinx was faster in {len(slower)} of {len(ratios)}: {', '.join(slower) or 'none'}"


def beside(count, chunks, folder, options):
    sides = [
        Side(options.program, folder / "ours", "sphinx" in version(options.program)),
        Side(options.sphinx, folder / "sphinx", True),
    ]
    try:
        count, *_ = loads = sides[0].load(count, chunks)
        for name, side, (_, taken) in zip(("this program", "Sphinx"), sides, (loads, sides[1].load(count, chunks))):
            memory = resident(side.daemon.process.pid) / 2**20
            held = f"{side.chunks()} chunks; {memory:,.0f} MB" if chunks else f"{memory:,.0f} MB"
            print(f"{name}: {count:,} documents in {taken:.1f} s, {taken / count * 1e6:.0f} µs each; {held}", flush=True)
        taken = measured(sides, count, options)
        for place, kind in enumerate(("time", "processor")):
            print(told(kind, {title: theirs[place] / ours[place] for title, (ours, theirs) in taken.items()}))
            here, there = (side[place] / other[place] for side, other in zip(taken[EXPRESSION], taken[MATCHANY]))
            print(f"{kind}: by an expression {here:.2f} times as long as by matchany, Sphinx {there:.2f}", flush=True)
    finally:
        for side in sides:
            side.daemon.kill()


def version(program):
    """What a program says to --help, in small letters; Sphinx says who it is."""
    return subprocess.run([program, "--help"], capture_output=True, text=True, check=False).stdout.lower()


def main():
    words = argparse.ArgumentParser(description=__doc__.split("\n\n", maxsplit=1)[0])
    words.add_argument("--program", required=True)
    words.add_argument("--sphinx", default="/usr/bin/searchd", help="searchd of Sphinx 2.2")
    words.add_argument("--docs", type=int, nargs="+", default=[40000])
    words.add_argument("--texts", type=int, default=20, help="texts of a class")
    words.add_argument("--rounds", type=int, default=3)
    words.add_argument("--chunks", type=int, nargs="+", default=[0], help="chunks on the disk, 0 for documents in memory")
    options = words.parse_args()
    for count, chunks in product(options.docs, options.chunks):
        with tempfile.TemporaryDirectory() as folder:
            beside(count, chunks, Path(folder), options)


if __name__ == "__main__":
    sys.exit(main())
