"""Measures what INSERTs and SELECTs cost, over more and more documents of 40 words.

    python3 -m scripts.figures.select_figures PROGRAM [DOCUMENTS..]

runs `PROGRAM session --config F` over the packets of one client: each document by an INSERT of its own, and then one
SELECT again and again. A SELECT's time is that of a run with it less that of a run without it. Times are of the
processor, the less of two runs. The documents are the same at each run: 8 words of title and 32 of content out of
20,000, of which `all` stands in each document, `half` and `third` in every second and third, and `green tea` as a
phrase in every fifth; `gid` is one of 1,000 numbers, `price` one of many.
"""

import resource
import subprocess
import sys
import tempfile
from pathlib import Path

CONFIGURATION = """index rt
{
    type = rt
    path = data
    rt_field = title
    rt_field = content
    rt_attr_uint = gid
    rt_attr_bigint = price
}
"""

RESPONSE = (
    b"\x00\x02\x00\x00" + b"\x00\x00\x00\x01" + b"\x21" + bytes(23) + b"\x00" + b"\x00"
)

SELECTS = [
    ("a word that all have, ranked", "SELECT id, WEIGHT() FROM rt WHERE MATCH('all')", 100),
    ("the same word, not ranked", "SELECT id FROM rt WHERE MATCH('all') OPTION ranker=none", 200),
    ("the same word and a condition", "SELECT id FROM rt WHERE MATCH('all') AND gid = 7", 200),
    ("two words, of which every sixth has both", "SELECT id FROM rt WHERE MATCH('half third')", 200),
    ("a phrase that every fifth has", "SELECT id FROM rt WHERE MATCH('\"green tea\"')", 100),
    ("one word out of 20,000", "SELECT id FROM rt WHERE MATCH('w777')", 2000),
    ("a condition alone", "SELECT id FROM rt WHERE gid = 7", 200),
    ("a condition by 1,000 numbers", f"SELECT id FROM rt WHERE price IN ({', '.join(map(str, range(1000)))})", 100),
    ("the order of an attribute", "SELECT id, price FROM rt WHERE MATCH('all') ORDER BY price DESC", 100),
    ("1,000 rows of all columns", "SELECT * FROM rt WHERE MATCH('all') LIMIT 1000", 100),
    ("the last page of 100,000", "SELECT id FROM rt LIMIT 99980,20 OPTION max_matches=100000", 100),
]


def numbers(seed):
    """The draws of a linear congruential generator, 0 to 32,767."""
    while True:
        seed = (seed * 1103515245 + 12345) % 2**31
        yield seed // 65536 % 32768


def document(number, draws):
    """The INSERT of a document."""
    words = [f"w{next(draws) % 20000}" for _ in range(37)]
    title = words[:8]
    content = words[8:] + ["all"]
    content.append("half" if number % 2 == 0 else "odd")
    content.append("third" if number % 3 == 0 else "rest")
    if number % 5 == 0:
        content[3:5] = ["green", "tea"]
    price = next(draws) * 32768 + next(draws)
    return (
        f"INSERT INTO rt VALUES ({number}, '{' '.join(title)}', '{' '.join(content)}', "
        f"{number * 7919 % 1000}, {price})"
    )


def packet(payload, sequence=0):
    return len(payload).to_bytes(3, "little") + bytes([sequence]) + payload


def query(text):
    return packet(b"\x03" + text.encode())


def inserts(count):
    draws = numbers(1)
    return b"".join(query(document(number, draws)) for number in range(1, count + 1))


def seconds(program, folder, data):
    """The processor time of one run over an empty folder, the less of two."""
    source = folder / "input"
    source.write_bytes(packet(RESPONSE, 1) + data + packet(b"\x01"))
    least = None
    for _ in range(2):
        before = resource.getrusage(resource.RUSAGE_CHILDREN)
        with source.open("rb") as stdin, tempfile.TemporaryDirectory(dir=folder) as empty:
            command = [Path(program).resolve(), "session", "--config", folder / "searchd.conf"]
            subprocess.run(command, cwd=empty, stdin=stdin, stdout=subprocess.DEVNULL, check=True)
        after = resource.getrusage(resource.RUSAGE_CHILDREN)
        taken = after.ru_utime - before.ru_utime + after.ru_stime - before.ru_stime
        least = taken if least is None else min(least, taken)
    return least


def main(program, counts):
    with tempfile.TemporaryDirectory() as name:
        folder = Path(name)
        (folder / "searchd.conf").write_text(CONFIGURATION)
        documents = {count: inserts(count) for count in counts}
        alone = {count: seconds(program, folder, documents[count]) for count in counts}
        print("| documents |", " | ".join(f"{count:,}" for count in counts), "|")
        print("|---|" + "---|" * len(counts))
        rates = (f"{count / alone[count]:,.0f} a second" for count in counts)
        print("| INSERTs, one a document |", " | ".join(rates), "|")
        for title, text, times in SELECTS:
            cells = []
            for count in counts:
                taken = seconds(program, folder, documents[count] + query(text) * times)
                cells.append(f"{(taken - alone[count]) / times * 1000:.2f} ms")
            print(f"| {title} |", " | ".join(cells), "|", flush=True)


if __name__ == "__main__":
    main(sys.argv[1], [int(word) for word in sys.argv[2:]] or [25000, 50000, 100000])
