"""What `random_queries` compares beside documents where it asks prefixes: refusals, SHOW META and weights.

A drawn query tells its keywords (`keys`, each with whether it is a prefix) and its written form, by which it is evaluated once
more (`query_trees`) for the weights.
"""

from scripts.cases.evaluation_runs import RANKERS, weight
from scripts.cases.query_trees import Field, Tree
from scripts.clients.mysql_client import Refused

MOST_WORDS = 1024
# So many documents of a query are weighed at most.
WEIGHED = 20


def words(scan, tree):
    """How many words the prefixes of a query have together; one that stands twice counts twice."""
    return sum(len(scan.beginning(word)) for word, prefix in tree.keys() if prefix)


def ask_refused(client, scan, tree, text):
    """What is wrong with the refusal of a query whose prefixes have too many words, or None."""
    wanted = f"query: prefixes have {words(scan, tree)} words"
    try:
        rows = client.query(text).rows
    except Refused as refused:
        return None if (refused.code, refused.text) == (1064, wanted) else f"{text}: {refused}, wanted {wanted}"
    return f"{text}: {len(rows)} documents, wanted {wanted}"


def keywords(scan, tree):
    """What SHOW META tells of the keywords."""
    told = {}
    for at, (word, prefix) in enumerate(dict.fromkeys(tree.keys())):
        having = map(scan.has, scan.beginning(word) if prefix else [word])
        told |= {f"keyword[{at}]": word + "*" * prefix, f"docs[{at}]": str(len(set().union(*having)))}
    return told


def differ(client, scan, draws, tree, found, meta):
    """What SHOW META tells otherwise than the scan, or which weights are others; None if nothing."""
    told = {name: value for name, value in meta.items() if not name.startswith("total")}
    if told != keywords(scan, tree):
        return f"SHOW META behind {tree}: {told}, wanted {keywords(scan, tree)}"
    ranker, some = draws.choice(RANKERS), sorted(draws.sample(found, min(len(found), WEIGHED)))
    if not some:
        return None
    listed = ", ".join(map(str, some))
    text = f"SELECT id, WEIGHT() FROM rt WHERE MATCH('{tree}') AND id IN ({listed}) ORDER BY id ASC OPTION ranker={ranker}"
    rows = [(int(number), int(weighed)) for number, weighed in client.query(text).rows]
    wanted = [(number, weighed(scan, tree, number, ranker)) for number in some]
    return None if rows == wanted else f"{text}: {rows}, wanted {wanted}"


def weighed(scan, tree, number, ranker):
    """What a ranker weighs a document for a query."""
    _, places = scan.live[number]
    fields = [[], []]
    for word, at in places.items():
        for field, position in at:
            fields[field].append((word, position))
    document = [Field(sorted(words, key=lambda one: one[1]), [], [], []) for words in fields]
    written = Tree(tree.written(), places)
    hits = written.find(document, ["title", "content"], False).hits
    return weight(ranker, len(written.keys), [1, 1], hits)
