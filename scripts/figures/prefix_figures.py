"""Measures what a prefix costs beside the OR of its words.

    python3 -m scripts.figures.prefix_figures --program PROGRAM [--docs N] [--chunks N..] [--rounds N]

starts PROGRAM over an empty folder and loads N documents of 100 words (100,000 if nothing is said), whose contents have four
words more: two of 250 that begin with `p`, and two of 1,000 that begin with `q`, drawn as in a natural text. In each round it
asks for `p*`, for the OR of these 250 words, and for `q*`, ranked by proximity and not ranked. The table has how many
documents are found, and the processor time of each SELECT: the best and the middle of the rounds, and that of `p*` by that of
the OR. The documents lie in so many chunks on the disk as --chunks says, first in 2 and then in 8; 0 is in memory, where fewer
have room.
"""

import argparse
import random
import sys
import tempfile
from pathlib import Path
from statistics import median

from scripts.clients.daemon import COLUMNS, Daemon, processor
from scripts.clients import jobs
from scripts.figures import hundred_words

WORDS = {"p": 250, "q": 1000}
SHAPES = {
    "ranked": "SELECT id, WEIGHT() FROM rt WHERE MATCH('{query}') OPTION ranker=proximity",
    "not ranked": "SELECT id FROM rt WHERE MATCH('{query}') OPTION ranker=none",
}
OR = " | ".join(f"p{number}" for number in range(WORDS["p"]))
QUERIES = {"`p*`, 250 words": "p*", "the OR of the 250": OR, "`q*`, 1,000 words": "q*"}
# A SELECT is sent again and again until the daemon worked for so many seconds.
ROUND = 0.3


def row(number):
    """A document as an INSERT has it, with two words of each prefix. The first documents have all of them."""
    draws = random.Random(number)
    words = [f"{letter}{int((many + 1) ** draws.random()) - 1}" for letter, many in WORDS.items() for _ in range(2)]
    words += [f"{letter}{number - 1}" for letter, many in WORDS.items() if number <= many]
    before, title, after = hundred_words.row(number).partition("', '")
    return f"{before}{title}{' '.join(words)} {after}"


def load(client, count, chunks):
    """Adds documents, and puts them into so many chunks of one size."""
    ends, done = [count * number // chunks for number in range(1, chunks + 1)], 0
    while done < count:
        upto = min([done + 1000, count, *(end for end in ends if end > done)])
        client.query(f"INSERT INTO rt ({hundred_words.NAMES}) VALUES {', '.join(map(row, range(done + 1, upto + 1)))}")
        done = upto
        if done in ends:
            jobs.timed(client, jobs.FLUSH)


def found(client, text):
    client.queries(text)
    return int(dict(client.query("SHOW META").rows)["total_found"])


def timed(client, pid, text):
    """The mean time of the daemon's processors for a SELECT."""
    worked, times = processor(pid), 0
    while times == 0 or processor(pid) - worked < ROUND:
        client.queries(text)
        times += 1
    return (processor(pid) - worked) / times


def measured(client, pid, rounds):
    """Prints a line for each query, and the ratio of the prefix and the OR in the same round."""
    for shape, template in SHAPES.items():
        texts = {title: template.format(query=query) for title, query in QUERIES.items()}
        taken = {title: [] for title in texts}
        for _ in range(rounds):
            for title, text in texts.items():
                taken[title].append(timed(client, pid, text))
        first, second, _ = taken.values()
        ratios = [one / other for one, other in zip(first, second)]
        for title, times in taken.items():
            beside = f"{min(ratios):.2f} and {median(ratios):.2f}" if times is first else ""
            cells = [shape, title, f"{found(client, texts[title]):,}", f"{min(times) * 1e3:.2f} ms", f"{median(times) * 1e3:.2f} ms"]
            print(f"| {' | '.join(cells)} | {beside} |", flush=True)


def main():
    words = argparse.ArgumentParser(description=__doc__.split("\n\n", maxsplit=1)[0])
    words.add_argument("--program", required=True)
    words.add_argument("--docs", type=int, default=100000)
    words.add_argument("--chunks", type=int, nargs="+", default=[2, 8])
    words.add_argument("--rounds", type=int, default=3)
    options = words.parse_args()
    for chunks in options.chunks:
        with tempfile.TemporaryDirectory() as folder:
            daemon = Daemon(options.program, Path(folder), {"rt": [*COLUMNS, "min_prefix_len = 1"]}, 2)
            daemon.start()
            try:
                client = daemon.client()
                load(client, options.docs, chunks)
                print(f"over {options.docs:,} documents, chunks: {chunks}")
                print(f"| | query | found | best | middle | by the OR |\n|---|---|---|---|---|---|")
                measured(client, daemon.process.pid, options.rounds)
            finally:
                daemon.kill()


if __name__ == "__main__":
    sys.exit(main())
