"""Documents of 100 words, which the scripts that measure a daemon share: the same at each run, whatever daemon.

Words are drawn as in a natural text, the r-th in proportion to 1 / r: `w1` is in nearly all documents, `w10` in some
three fifths, `w1000` in one of a hundred, `w20000` in one of two thousand. A title has 8 words and a content 92; `gid`
is one of 1,000 numbers, `price` one of a million, `in_stock` 0 or 1 and `added` rises with the id.
"""

import random

VOCABULARY = 50000
TITLE, CONTENT = 8, 92
NAMES = "id, title, content, gid, in_stock, price, added"


def word(draws):
    return f"w{int(VOCABULARY ** draws.random())}"


def gid(number):
    return number * 7919 % 1000


def row(number):
    """The values of a document, as an INSERT has them."""
    draws = random.Random(number)
    title = " ".join(word(draws) for _ in range(TITLE))
    content = " ".join(word(draws) for _ in range(CONTENT))
    in_stock, price = draws.randrange(2), draws.randrange(1000000)
    return f"({number}, '{title}', '{content}', {gid(number)}, {in_stock}, {price}, {1600000000 + number})"


def insert(numbers, index="rt"):
    """An INSERT of the documents with these ids."""
    return f"INSERT INTO {index} ({NAMES}) VALUES {', '.join(map(row, numbers))}"


def load(client, first, count, together=1000):
    """Adds so many documents from an id on, by INSERTs of many rows."""
    for start in range(first, first + count, together):
        client.query(insert(range(start, min(start + together, first + count))))
