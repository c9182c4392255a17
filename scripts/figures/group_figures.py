"""Measures what groups and facets cost, each beside the same SELECT without them.

    python3 -m scripts.figures.group_figures PROGRAM [DOCUMENTS]

runs `PROGRAM session --config F` as scripts/figures/select_figures.py does, over 100,000 documents of 12 words if no number is
given: `all` stands in each document and `half` in every second, `fifty` is one of 50 numbers, `many` one of 50,000 and
`price` one of many. It prints a SELECT's milliseconds, and how many nanoseconds a found row it takes more than the one
without groups.
"""

import sys
import tempfile
from pathlib import Path

from scripts.figures import select_figures as figures

CONFIGURATION = """index rt
{
    type = rt
    path = data
    rt_field = title
    rt_attr_uint = fifty
    rt_attr_uint = many
    rt_attr_bigint = price
}
"""

SHAPES = [
    ("twenty rows", "SELECT id FROM rt{where}"),
    ("COUNT(*)", "SELECT COUNT(*) FROM rt{where}"),
    ("GROUP BY 50 values", "SELECT fifty, COUNT(*) FROM rt{where} GROUP BY fifty"),
    ("the same with MIN, MAX and SUM", "SELECT fifty, MIN(price), MAX(price), SUM(price) FROM rt{where} GROUP BY fifty"),
    ("GROUP BY 50,000 values", "SELECT many, COUNT(*) FROM rt{where} GROUP BY many"),
    ("COUNT(DISTINCT) of 50,000 values in 50 groups", "SELECT fifty, COUNT(DISTINCT many) FROM rt{where} GROUP BY fifty"),
    ("twenty rows and a facet of 50 values", "SELECT id FROM rt{where} FACET fifty"),
    ("twenty rows and three facets", "SELECT id FROM rt{where} FACET fifty FACET many FACET price"),
]


def document(number, draws):
    words = [f"w{next(draws) % 20000}" for _ in range(10)] + ["all", "half" if number % 2 == 0 else "odd"]
    price = next(draws) * 32768 + next(draws)
    return f"INSERT INTO rt VALUES ({number}, '{' '.join(words)}', {number * 7919 % 50}, {number * 7919 % 50000}, {price})"


def main(program, count, times=20):
    figures.document = document
    with tempfile.TemporaryDirectory() as name:
        folder = Path(name)
        (folder / "searchd.conf").write_text(CONFIGURATION)
        documents = figures.inserts(count)
        alone = figures.seconds(program, folder, documents)
        print(f"| over {count:,} documents | all, no MATCH | more a row | `half`, ranked | more a row |\n|---|---|---|---|---|")
        plain = {}
        for title, shape in SHAPES:
            cells = []
            for where, found in (("", count), (" WHERE MATCH('half')", count // 2)):
                text = shape.format(where=where)
                taken = (figures.seconds(program, folder, documents + figures.query(text) * times) - alone) / times
                more = (taken - plain.setdefault(where, taken)) / found * 1e9
                cells += [f"{taken * 1000:.1f} ms", f"{more:.0f} ns" if title != SHAPES[0][0] else ""]
            print(f"| {title} |", " | ".join(cells), "|", flush=True)


if __name__ == "__main__":
    main(sys.argv[1], int(sys.argv[2]) if len(sys.argv) > 2 else 100000)
