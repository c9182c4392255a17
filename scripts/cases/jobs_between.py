"""Puts jobs between the packets of a script. They change no reply but how many chunks are on the disk.

A script is run three times (`states`): as it is; with a FLUSH of each of its indexes before the first packet and before each
that comes behind one that may have changed documents; and with an OPTIMIZE there. So the same replies are wanted over
documents in memory, over chunks of one packet's documents each, with rows in them that are dead, and over one chunk. An index
takes 16 chunks, so each sixteenth FLUSH is an OPTIMIZE. A script with jobs of its own is run as it is alone.

Where documents are, SHOW INDEX STATUS is to show a chunk after FLUSH, and exactly one after OPTIMIZE.
"""

import re

from scripts.clients.jobs import FLUSH, MOST_CHUNKS, OPTIMIZE

# What changes no document.
READS = re.compile(r"(?:select|show|describe)\b[^;]*;?$|COM_", re.IGNORECASE | re.DOTALL)
OWN_JOB = re.compile(r"\b(?:flush|optimize)\b", re.IGNORECASE)
STATUS = re.compile(r"\b\d+: (?=OK)")
INDEX = re.compile(r"^\s*index\s+(\w+)", re.MULTILINE)
CHUNKS = re.compile(r"indexed_documents, (\d+) \| disk_chunks, (\d+)")


def states(script):
    """A script over documents in memory, and over those that jobs have left on the disk."""
    if any(OWN_JOB.search(step.packet) for step in script.steps):
        return [script]
    return [script, *(script._replace(steps=list(with_jobs(script, job))) for job in (FLUSH, OPTIMIZE))]


def with_jobs(script, job):
    """The steps of a script with jobs between them."""
    indexes, may_change, number = INDEX.findall(script.configuration), True, 0
    for step in script.steps:
        place = f"{step.place} after {job}"
        if may_change and step.packet != "COM_QUIT":
            number += 1
            its_job = OPTIMIZE if number % MOST_CHUNKS == 0 else job
            packet = "; ".join(f"{its_job} {index}" for index in indexes)
            wanted = "; ".join("OK 0" for _ in indexes)
            yield step._replace(place=f"{place}, the job", packet=packet, wanted=wanted, by_bytes=False, by_end=False, after=job)
            may_change = False
        yield step._replace(place=place, after=job)
        may_change = may_change or not READS.match(step.packet)


def as_in_memory(step, text):
    """The reply to a step behind a job, as it is over documents in memory: with no chunk on the disk where there are as many as
    the job leaves. That to the job itself is without its status, which is the session's."""

    def chunks(found):
        documents, count = map(int, found.groups())
        is_left = count == min(documents, 1) if step.after == OPTIMIZE else count <= MOST_CHUNKS and (count > 0 or documents == 0)
        return f"indexed_documents, {documents} | disk_chunks, {0 if is_left else f'{count} after {step.after}'}"

    return STATUS.sub("", text) if OWN_JOB.match(step.packet) else CHUNKS.sub(chunks, text)
