"""The jobs of an index, as a client asks for them.

FLUSH puts the documents that are in memory into a chunk on the disk, and OPTIMIZE all documents into one. A job is refused where
another one came before it could end, and where the index would have too many chunks or bytes of them.
"""

import time

from scripts.clients.mysql_client import Refused

FLUSH, OPTIMIZE = "FLUSH RAMCHUNK", "OPTIMIZE INDEX"
MOST_CHUNKS = 16
# How often an index is asked how many chunks it has, where a job is answered before it is done.
PAUSE = 0.002


def status(client, index):
    """What SHOW INDEX STATUS says of an index: how many documents it has, and how many chunks."""
    said = dict(client.query(f"SHOW INDEX {index} STATUS").rows)
    return int(said["indexed_documents"]), int(said["disk_chunks"])


def timed(client, job, index="rt"):
    """Does a job, and gives the seconds that it took. Sphinx answers OPTIMIZE at once: it has ended where one chunk is left."""
    begun = time.perf_counter()
    client.query(f"{job} {index}")
    while job == OPTIMIZE and status(client, index)[1] > 1:
        time.sleep(PAUSE)
    return time.perf_counter() - begun


def is_usual(refused):
    """Whether a job may be refused so while other jobs run."""
    return refused.text.startswith(("overtaken by shape ", "chunks full at "))


def tried(client, job, index="rt"):
    """Does a job, and gives what it was refused for, None of one that was done."""
    try:
        client.query(f"{job} {index}")
        return None
    except Refused as refused:
        return refused
