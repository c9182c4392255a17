"""Draws chunk images, changes each in one place, and prints it with its first damage.

    python3 -m scripts.cases.drawn_images [--count N] [--seed S]

prints N images, 20,000 if nothing is said: a byte is another one, the image is cut, or some of its bytes are left out or stand
twice. A line has the bytes in hexadecimal, the schema as `fields attributes zones`, and behind ` => ` the answer: `ok`, or the
place and the words of the first damage, as `place: words`.
"""

import argparse
import random
import sys

from scripts.cases.chunk_images import (
    HEADER, LONGEST_WORD, PARAGRAPH, SENTENCE, Image, Row, Schema, Span, answer, image_of, little, number
)

VOCABULARY = [word.encode() for word in ("a", "b", "c", "ab", "no", "чай", "ы" * 20, "z" * LONGEST_WORD)]


def drawn_field(draws):
    """Words of a field, at times with gaps between."""
    tokens, position = {}, 0
    for _ in range(draws.choice([0, 0, 1, 2, 3, 5, 9])):
        if position and draws.random() < 0.25:
            position += 1
            tokens[position] = draws.choice([SENTENCE, PARAGRAPH])
        position += 1
        tokens[position] = draws.choice(VOCABULARY[: draws.choice([3, 6, 8])])
    return tokens


def drawn_spans(draws, schema, fields):
    found = set()
    for field, tokens in enumerate(fields):
        words = [position for position, token in tokens.items() if isinstance(token, bytes)]
        for _ in range(draws.choice([0, 0, 1, 3]) if schema.zones and words else 0):
            first, last = sorted(draws.choices(words, k=2))
            found.add(Span(field, first, last, draws.randrange(schema.zones)))
    return list(found)


def drawn(draws):
    """A schema and rows for it."""
    schema = Schema(draws.choice([1, 1, 2, 3]), draws.choice([0, 0, 1, 4]), draws.choice([0, 0, 1, 2]))
    rows, number_before = [], 0
    for _ in range(draws.choice([0, 1, 1, 1, 2, 2, 3, 3, 5])):
        number_before += draws.choice([1, 1, 7, 2**33])
        fields = [drawn_field(draws) for _ in range(schema.fields)]
        values = [draws.choice([0, 1, 2**32 - 1, -(2**63), draws.randrange(2**63)]) for _ in range(schema.attributes)]
        rows.append(Row(number_before, draws.randrange(1, 9), values, fields, drawn_spans(draws, schema, fields)))
    return schema, rows


def parts_of(schema, data):
    """Where the parts of a whole image begin and end that aren't empty, each with the place of its length in the header."""
    image = Image(schema, data)
    ends = (0, HEADER, image.marks_at, image.table_at, image.dictionary_at, image.postings_at, len(data))
    lengths = (None, None, 20, None, 24, 28)
    return [(first, end, length) for first, end, length in zip(ends, ends[1:], lengths) if first < end]


def changed(draws, schema, data):
    """An image with one byte changed, or cut, or with some bytes twice; at times the header says the new length of the part."""
    first, end, length = draws.choice(parts_of(schema, data))
    at, how = draws.randrange(first, end), draws.random()
    if how < (0.6 if length else 0.9):
        byte = draws.choice([data[at] + 1, data[at] - 1, data[at] ^ 0x80, 0, 1, 255, draws.randrange(256)]) % 256
        return data[:at] + bytes([byte]) + data[at + 1 :]
    if how < (0.65 if length else 0.95):
        return data[:at]
    until = min(end, at + draws.choice([1, 1, 2, 4, 12]))
    times = draws.choice([0, 2])
    if length and draws.random() < 0.8:
        now = number(data, length) + (times - 1) * (until - at)
        data = data[:length] + little(now) + data[length + 4 :]
    return data[:at] + times * data[at:until] + data[until:]


def main():
    words = argparse.ArgumentParser(description=__doc__.splitlines()[0])
    words.add_argument("--count", type=int, default=20000)
    words.add_argument("--seed", type=int, default=1)
    given = words.parse_args()
    draws = random.Random(given.seed)
    for _ in range(given.count):
        schema, rows = drawn(draws)
        data = changed(draws, schema, image_of(schema, rows))
        print(data.hex(), " ".join(map(str, schema)), "=>", answer(schema, data))


if __name__ == "__main__":
    sys.exit(main())
