"""The clients that kill_rounds lets at a daemon: writers, and those that have indexes flushed and optimised beside them.

Each writer has ids of its own in the index that all share, and an index for itself. What it was told has come about is in its
territories, and what it was told nothing of in `pending`.
"""

import threading
import time

from scripts.clients import jobs
from scripts.clients.mysql_client import Lost, Refused

SHARED = "shared"
SLOTS = 1500
WORDS = [("title", f"t{bit}") for bit in range(12)] + [("content", f"c{bit}") for bit in range(12)]
REFUSED, JOB = "refused", "job"


class Wrong(Exception):
    """A violation, as it is printed."""


def difference(expected, found):
    """The first ids in which two lists of documents differ, in words."""
    wrong = sorted(number for number in expected.keys() | found.keys() if expected.get(number) != found.get(number))
    first = [
        f"document {number} is {found.get(number, 'not there')} and was acknowledged as {expected.get(number, 'not there')}"
        for number in wrong[:3]
    ]
    return f"{len(wrong)} of {len(expected)} documents differ: " + "; ".join(first)


class Territory:
    """Some ids of an index, which one writer alone changes, and the documents that stand there by what it was told."""

    def __init__(self, index, first, step):
        self.index, self.first, self.step, self.documents = index, first, step, {}

    def has(self, number):
        return number % self.step == self.first % self.step

    def after(self, change):
        """The documents after a change: a document or None by id, or None for the end of all."""
        if change is None:
            return {}
        changed = self.documents | change
        return {number: document for number, document in changed.items() if document is not None}

    def settle(self, pending, found):
        """Takes the found documents for its own if they are those that it was told of, or of some unanswered commits more."""
        found = {number: document for number, document in found.items() if self.has(number)}
        known = dict(self.documents)
        for count, change in enumerate([{}, *pending]):
            self.documents = self.after(change)
            if self.documents == found:
                return count
        unanswered = f"; changes without an answer: {str(pending)[:500]}" if any(change != {} for change in pending) else ""
        raise Wrong(f"{self.index}: {difference(known, found)}{unanswered}")


class Writer(threading.Thread):
    """One client, which writes until the daemon is gone; what it was told is in its territories, what it wasn't in `pending`."""

    def __init__(self, draws, client, territories, options):
        super().__init__(daemon=True)
        self.draws, self.client, self.territories, self.sphinx = draws, client, territories, options.sphinx
        self.has_jobs = options.jobs > 0
        self.place, self.pending, self.wrong, self.full = territories[0], [], None, False
        self.answered = self.commits = self.refusals = self.jobs = 0

    def run(self):
        try:
            while not self.full:
                self.place = self.draws.choice(self.territories)
                for text, changes in self.texts():
                    self.tell(text, changes)
                    self.answered += 1
        except Lost as lost:
            if "timed out" in str(lost):
                self.wrong = f"a writer waited in vain: {lost}"
        except Wrong as wrong:
            self.wrong = str(wrong)
        self.client.close()

    def tell(self, text, changes):
        """Sends a text, and takes its replies: one for each change, which it does unless it is to be refused."""
        self.pending = [{} if change in (REFUSED, JOB) else change for change in changes]
        self.client.send(text)
        for change in changes:
            try:
                self.client.reply()
                if change == REFUSED:
                    raise Wrong(f"{self.place.index}: OK for what is to be refused: {text[:200]}")
                self.jobs += change == JOB
                if change not in (JOB, {}):
                    self.place.documents = self.place.after(change)
                    self.commits += 1
            except Refused as refused:
                if change == REFUSED:
                    self.refusals += 1
                elif " full at " in refused.text and change != JOB:
                    self.full, self.pending = True, []
                    return
                elif change != JOB or not jobs.is_usual(refused):
                    raise Wrong(f"{self.place.index}: {refused} for {text[:200]}") from refused
            del self.pending[0]

    def texts(self):
        """What is sent next: texts, each with what its replies say has come about."""
        shapes = {self.single: 12, self.doubled: 2, self.transaction: 4}
        if not self.sphinx:
            shapes |= {self.packet: 2, self.dropped: 1}
        if self.place.index != SHARED:
            shapes |= {self.truncate: 0.1}
        return self.draws.choices(list(shapes), shapes.values())[0]()

    def single(self):
        text, change = self.statement(self.ids(), {})
        return [(text, [change])]

    def doubled(self):
        """An INSERT of new documents and of one that is there, which is refused whole."""
        if not self.place.documents:
            return []
        numbers = [number for number in self.ids() if number not in self.place.documents]
        numbers.insert(self.draws.randrange(len(numbers) + 1), self.draws.choice(list(self.place.documents)))
        return [(self.rows("INSERT", {number: self.document() for number in numbers}), [REFUSED])]

    def transaction(self):
        """Statements on some ids, at times the same again, between BEGIN and COMMIT or ROLLBACK; at times with a job among them."""
        ids, texts, whole = self.ids(), [("BEGIN", [{}])], {}
        for _ in range(self.draws.randrange(1, 6)):
            if self.sphinx:
                ids = [number for number in self.ids() if number not in whole]
            some = self.draws.sample(ids, self.draws.randrange(1, len(ids) + 1)) if ids else []
            if some:
                text, change = self.statement(some, whole)
                texts.append((text, [{}]))
                whole |= change
        if self.has_jobs and self.draws.randrange(8) == 0:
            texts.insert(self.draws.randrange(1, len(texts) + 1), (f"{drawn_job(self.draws)} {self.place.index}", [JOB]))
        end = self.draws.choices(["COMMIT", "ROLLBACK"], [5, 1])[0]
        return [*texts, (end, [whole if end == "COMMIT" else {}])]

    def packet(self):
        """Several statements in one packet, each a commit of its own."""
        texts, changes, whole = [], [], {}
        for _ in range(self.draws.randrange(2, 9)):
            text, change = self.statement(self.ids(), whole)
            texts.append(text)
            changes.append(change)
            whole |= change
        return [("; ".join(texts), changes)]

    def dropped(self):
        """A transaction whose commit is refused for an id that is there."""
        if not self.place.documents:
            return []
        there = self.draws.choice(list(self.place.documents))
        others = [number for number in self.ids() if number != there]
        texts = [self.statement(others, {})[0]] if others else []
        texts.append(self.rows("INSERT", {there: self.document()}))
        return [("BEGIN", [{}]), *((text, [{}]) for text in texts), ("COMMIT", [REFUSED])]

    def truncate(self):
        return [(f"TRUNCATE RTINDEX {self.place.index}", [None])]

    def statement(self, numbers, pending):
        """A statement on these ids over the documents and what is pending, and what it changes."""
        there = self.place.documents | pending
        kind = self.draws.choice(["INSERT", "INSERT", "REPLACE", "DELETE"])
        if kind == "DELETE":
            where = f"IN ({', '.join(map(str, numbers))})" if len(numbers) > 1 else f"= {numbers[0]}"
            return f"DELETE FROM {self.place.index} WHERE id {where}", dict.fromkeys(numbers)
        new = [number for number in numbers if there.get(number) is None]
        if kind == "INSERT" and new:
            numbers = new
        change = {number: self.document() for number in numbers}
        return self.rows("INSERT" if kind == "INSERT" and new else "REPLACE", change), change

    def ids(self):
        """Ids of the territory, mostly one, at times some hundred."""
        most = self.draws.choices([1, 20, 300], [6, 3, 1])[0]
        count = self.draws.randrange(1, most + 1)
        return [self.place.first + self.place.step * slot for slot in self.draws.sample(range(SLOTS), count)]

    def document(self):
        draw = self.draws.randrange
        return (draw(2**32), draw(2), draw(-(2**63), 2**63), draw(2**32), draw(2 ** len(WORDS)))

    def rows(self, verb, documents):
        texts = []
        for number, (*values, bits) in documents.items():
            words = {"title": ["all"], "content": [f"x{self.draws.randrange(5000)}" for _ in range(self.draws.randrange(60))]}
            for bit, (field, word) in enumerate(WORDS):
                if bits >> bit & 1:
                    words[field].append(word)
            fields = (f"'{' '.join(some)}'" for some in words.values())
            texts.append(f"({', '.join([str(number), *fields, *map(str, values)])})")
        columns = "id, title, content, gid, in_stock, price, added"
        return f"{verb} INTO {self.place.index} ({columns}) VALUES {', '.join(texts)}"


def drawn_job(draws):
    """FLUSH for the most part; an index that is flushed alone has too many chunks soon."""
    return draws.choices([jobs.FLUSH, "FLUSH RTINDEX", jobs.OPTIMIZE], [4, 1, 2])[0]


class Worker(threading.Thread):
    """One client, which has indexes flushed and optimised until the daemon is gone."""

    def __init__(self, draws, client, indexes):
        super().__init__(daemon=True)
        self.draws, self.client, self.indexes = draws, client, indexes
        self.wrong, self.is_asking, self.done, self.refused = None, False, 0, 0

    def run(self):
        try:
            while not self.wrong:
                self.ask(drawn_job(self.draws), self.draws.choice(self.indexes))
                time.sleep(self.draws.choice([0, 0.001, 0.02]))
        except Lost as lost:
            if "timed out" in str(lost):
                self.wrong = f"a job waited in vain: {lost}"
        self.client.close()

    def ask(self, job, index):
        self.is_asking = True
        refused = jobs.tried(self.client, job, index)
        self.is_asking = False
        if refused and not jobs.is_usual(refused):
            self.wrong = f"{index}: {refused} for {job}"
        elif refused:
            self.refused += 1
        else:
            self.done += 1
