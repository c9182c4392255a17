"""Runs sessions of the program in which one allocation is refused, each of them in turn, and looks what becomes of them.

    python3 -m scripts.gate.refused_memory --program PROGRAM [--only NAME] [--every N] [--folder F]

A small library that is loaded before the C library (`LD_PRELOAD`; the system's `cc` makes it) counts the calls of malloc, calloc and
realloc, and refuses one: in the first run of a session the first call, in the second run the second one, and so on, or each N-th.
A session (`SESSIONS`) is single statements, a transaction, packets of 32 statements, facets, or FLUSH and OPTIMIZE with commits
between; it runs over an empty folder, its packets all at once. Then

    the program ends with status 0, or with status 6 and its line, or, before a client is served, with a host fault of a disk
    at most one statement is answered `out of memory`, or by a disk fault by which nothing was changed (a disk has no word for refused
    memory), and it is as if it had never been sent: all other replies are those of a session without it, and so is what a check finds
    in the folder afterwards
    a statement that is answered as in doubt is found there all the same, but by a disk fault, where it may be or not; replies in
    between are those with it or without it
    where a reply of `out of memory` is the last one, the connection has ended, and it is as if nothing had been sent behind it

It isn't in the gate: a run is some milliseconds, and a session has some thousand calls.
"""

import argparse
import os
import re
import subprocess
import sys
import tempfile
from concurrent.futures import ThreadPoolExecutor
from functools import lru_cache
from pathlib import Path
from typing import NamedTuple

from scripts.cases.case_sessions import QUIT, Bytes, payload_of, whole_packet
from scripts.cases.replies import Strange, split, told
from scripts.clients.mysql_client import handshake
from scripts.gate.last_line import ended

LIBRARY = r"""
#define _GNU_SOURCE
#include <errno.h>
#include <fcntl.h>
#include <stdatomic.h>
#include <stdio.h>
#include <stdlib.h>
#include <sys/syscall.h>
#include <unistd.h>
extern void *__libc_malloc(size_t), *__libc_calloc(size_t, size_t), *__libc_realloc(void *, size_t);
static atomic_long calls;
static long refused;
static int refuses(void) {
    if (atomic_fetch_add(&calls, 1) + 1 != refused) return 0;
    errno = ENOMEM;
    return 1;
}
void *malloc(size_t size) { return refuses() ? 0 : __libc_malloc(size); }
void *calloc(size_t count, size_t size) { return refuses() ? 0 : __libc_calloc(count, size); }
void *realloc(void *block, size_t size) { return refuses() ? 0 : __libc_realloc(block, size); }
__attribute__((constructor)) static void begin(void) {
    const char *number = getenv("REFUSED");
    refused = number ? atol(number) : 0;
    atomic_store(&calls, 0);
}
/* The program ends by `_exit`, others by returning from main. */
static int tell(int status) {
    char text[32];
    int size = snprintf(text, sizeof text, "%ld", (long)calls), file = open("calls", O_WRONLY | O_CREAT | O_TRUNC, 0644);
    return file < 0 || write(file, text, size) != size ? 99 : status;
}
void _exit(int status) {
    syscall(SYS_exit_group, tell(status));
    __builtin_unreachable();
}
__attribute__((destructor)) static void end(void) { tell(0); }
"""
CONFIGURATION = "".join(
    f"index {name}\n{{\ntype = rt\npath = {name}\nrt_field = title\nrt_field = content\nrt_attr_uint = gid\nrt_attr_bigint = price\n}}\n"
    for name in ("rt", "other")
)
DOCUMENTS = [f"INSERT INTO rt VALUES ({n}, 'hello world {n}', 'one two {n % 3}', {n % 4}, {n * 10})" for n in range(1, 9)]
FACETS = "SELECT id, WEIGHT() FROM rt WHERE MATCH('hello | two') LIMIT 3 FACET gid FACET price ORDER BY COUNT(*) DESC LIMIT 2"
# Of each session its packets, and of each packet its statements.
SESSIONS = {
    "statements": [
        *([text] for text in DOCUMENTS[:3]),
        ["INSERT INTO rt (id, title) VALUES (20, 'a b c'), (21, 'b c d'), (22, 'hello')"],
        ["REPLACE INTO rt VALUES (2, 'hello again', '', 7, -1)"],
        ["DELETE FROM rt WHERE id IN (3, 21)"],
        ["INSERT INTO rt (id) VALUES (1)"],
        ["""SELECT id, WEIGHT(), gid FROM rt WHERE MATCH('"hello world" | @title (b << c) | hello') AND price > -5 ORDER BY gid DESC, id ASC"""],
        ["SELECT gid, COUNT(*), SUM(price) AS s FROM rt GROUP BY gid HAVING s > 0 ORDER BY s ASC"],
        ["SELECT id, WEIGHT() FROM rt WHERE MATCH('hello') OPTION ranker=expr('sum(lcs*user_weight)*1000+gid'), field_weights=(title=3)"],
        ["SHOW META"], ["SHOW TABLES"], ["DESCRIBE rt"], ["SHOW INDEX rt STATUS"], ["COM_PING"], ["SELEC"],
        ["TRUNCATE RTINDEX rt"], ["SELECT id FROM rt"],
    ],
    "transaction": [
        ["INSERT INTO rt (id, title) VALUES (1, 'hello'), (2, 'world')"],
        ["BEGIN"], ["INSERT INTO rt (id, title) VALUES (3, 'hello')"], ["REPLACE INTO rt (id, title) VALUES (1, 'again')"],
        ["DELETE FROM rt WHERE id = 2"], ["SELECT id FROM rt WHERE MATCH('hello')"], ["COMMIT"], ["SELECT id FROM rt"],
        ["SET AUTOCOMMIT = 0"], ["INSERT INTO other (id) VALUES (1)"], ["COMMIT"], ["INSERT INTO other (id) VALUES (2)"],
        ["ROLLBACK"], ["SET AUTOCOMMIT = 1"], ["SELECT id FROM other"],
        ["BEGIN"], *([f"INSERT INTO rt (id) VALUES ({n})"] for n in (8, 1, 9)), ["COMMIT"], ["SELECT id FROM rt"],
        ["INSERT INTO rt (id) VALUES (0)"], ["INSERT INTO rt (id) VALUES (18446744073709551615)"], ["SELECT id FROM rt"],
    ],
    "packets of 32": [
        [*["SET NAMES utf8"] * 31, "INSERT INTO rt (id) VALUES (1)"],
        [f"INSERT INTO rt (id) VALUES ({n})" for n in range(2, 34)],
        [*["SELECT id FROM rt LIMIT 1"] * 31, "SELECT id FROM rt LIMIT 100"],
    ],
    "facets": [*([text] for text in DOCUMENTS), [FACETS], ["SHOW META"]],
    "jobs": [
        *([text] for text in DOCUMENTS[:3]), ["FLUSH RAMCHUNK rt"], *([text] for text in DOCUMENTS[3:6]), ["DELETE FROM rt WHERE id = 1"],
        ["FLUSH RAMCHUNK rt"], [DOCUMENTS[6].replace("INSERT", "REPLACE")], ["DELETE FROM rt WHERE id = 4"], ["OPTIMIZE INDEX rt"],
        ["SHOW INDEX rt STATUS"],
        ["SELECT id FROM rt WHERE MATCH('hello')"], ["FLUSH RAMCHUNK rt"], ["SELECT id FROM rt"],
    ],
}  # fmt: skip
REFUSED, DISK = "ERR 1037 HY001 out of memory", "ERR 1105 HY000 disk fault"
CHANGES_NOTHING, IN_DOUBT = (REFUSED, f"{DISK}: nothing was changed"), re.compile(r"ERR (1037|1105) .*: (commit|job) in doubt")
STATUS = re.compile(r"(^|; )\d+: ")
FAULT = (6, "searchd: out of memory\n")
HOST_FAULT = re.compile(r"searchd: host fault\n(searchd: (reading|writing|removing) file \d+ of the folder \w+.*\n)?")


class Ran(NamedTuple):
    """What came of a session: how the program ended, the replies, what a check finds, and the number of allocations."""

    end: tuple
    replies: tuple
    found: str
    calls: int


class Trial:
    """Runs of the program over folders of their own."""

    def __init__(self, given, library):
        self.program, self.folder, self.library = str(Path(given.program).resolve()), given.folder, library

    def run(self, packets, refused=0):
        """The session of these packets, in which one allocation is refused, or none."""
        with tempfile.TemporaryDirectory(prefix="refused_memory.", dir=self.folder) as folder:
            Path(folder, "conf").write_text(CONFIGURATION)
            payloads = [payload_of("; ".join(statements)) for statements in packets] + [payload_of(QUIT)]
            sent = whole_packet(1, handshake()) + b"".join(whole_packet(0, payload) for payload in payloads)
            ran = self.call("session", folder, sent, {"LD_PRELOAD": self.library, "REFUSED": str(refused)})
            looked = self.call("check", folder, b"", {})
            calls = int(Path(folder, "calls").read_text())
            found = looked.stdout.decode() + looked.stderr.decode()
            return Ran((ran.returncode, ran.stderr.decode()), tuple(replies_in(ran.stdout, len(packets))), found, calls)

    def call(self, mode, folder, sent, more):
        command = [self.program, mode, "--config", "conf"]
        return subprocess.run(command, cwd=folder, input=sent, capture_output=True, env=os.environ | more, timeout=60)

    @lru_cache(maxsize=None)
    def without(self, packets):
        """The session of these packets with all memory."""
        return self.run(packets)


def replies_in(written, count):
    """The replies to the response and to so many packets, as far as they go."""
    if not written:
        return
    data = Bytes(written)
    split(data.take)
    yield response_in(data)
    for _ in range(count):
        if not data.rest():
            return
        yield told(data.take)[0]
    if data.rest():
        raise Strange(f"{data.rest().hex(' ')} behind the last reply")


def response_in(data):
    """What is answered to the response to the greeting; nothing where the connection has ended before."""
    if not data.rest():
        return ""
    number, payload, _ = split(data.take)
    return "OK" if payload[0] == 0 else f"{number}: ERR {int.from_bytes(payload[1:3], 'little')} {payload[4:9].decode()} {payload[9:].decode()}"


def wrong_in(trial, packets, refused):
    """What is wrong with a session in which this allocation is refused, None where nothing is."""
    ran = trial.run(packets, refused)
    is_begun = ran.end in ((0, ""), FAULT)
    if not is_begun and not (ran.end[0] == 4 and HOST_FAULT.fullmatch(ran.end[1]) and not ran.replies):
        return f"the program ended with {ran.end}"
    response, replies = (ran.replies[0], ran.replies[1:]) if ran.replies else ("", ())
    places = [place for place, reply in enumerate(replies) if REFUSED in reply or DISK in reply]
    if len(places) > 1:
        return f"refused twice: {places}"
    if response != "OK" or not replies:
        return compared(ran, (), trial.without(())) if response in ("", "OK", f"2: {REFUSED}") else f"the response: {response}"
    if places and IN_DOUBT.search(replies[places[0]]):
        return wrong_in_doubt(trial, packets, ran, replies, places[0])
    if len(replies) < len(packets) and places != [len(replies) - 1]:
        return f"no end is told behind {len(replies)} replies"
    asked, given = list(packets[: len(replies)]), list(replies)
    if places:
        place = places[0]
        done = parts_before(given[place], asked[place])
        if done is None:
            return f"a part of a reply before its refusal: {given[place]}"
        asked[place : place + 1] = [asked[place][:done]] if done else []
        given[place : place + 1] = [given[place].rpartition("; ")[0]] if done else []
    return compared(ran, given, trial.without(tuple(asked)))


def parts_before(reply, statements):
    """How many statements of a packet were answered before one was refused; None where that can't be."""
    parts = reply.split("; ")
    done = len(parts) - 1
    return done if parts[-1] in CHANGES_NOTHING and done < len(statements) else None


def compared(ran, given, wanted):
    """What is wrong with replies and with what a check finds, beside a session with all memory."""
    for reply, due in zip(given, wanted.replies[1:]):
        if STATUS.sub(r"\1", reply) != STATUS.sub(r"\1", due):
            return f"replied {reply}, wanted {due}"
    return None if ran.found == wanted.found else f"a check finds {ran.found}, wanted {wanted.found}"


def wrong_in_doubt(trial, packets, ran, replies, place):
    """The same where a commit or a job is in doubt."""
    whole, without = trial.without(packets), trial.without(packets[:place] + packets[place + 1 :])
    for number, reply in enumerate(replies):
        due = {whole.replies[number + 1]} | ({without.replies[number]} if number > place else set())
        if number != place and reply not in due:
            return f"in doubt, replied {reply}, wanted {due}"
    found = (whole.found, without.found) if DISK in replies[place] else (whole.found,)
    return None if ran.found in found else f"in doubt, a check finds {ran.found}, wanted {found}"


def tried(trial, name, every):
    """What is wrong with each run of a session."""
    packets = tuple(tuple(statements) for statements in SESSIONS[name])
    calls = trial.run(packets).calls
    numbers = range(1, calls + 1, every)
    with ThreadPoolExecutor(4) as pool:
        wrong = list(pool.map(lambda number: told_of(trial, packets, number), numbers))
    print(f"{name}: {len(packets)} packets, {calls:,} allocations, {len(numbers):,} of them refused")
    for number, said in zip(numbers, wrong):
        if said:
            print(f"  call {number}: {said}"[:600])
    return len(numbers), sum(map(bool, wrong))


def told_of(trial, packets, number):
    try:
        return wrong_in(trial, packets, number)
    except (Strange, IndexError, ValueError, OSError, subprocess.TimeoutExpired) as why:
        return f"{type(why).__name__} {why}"


def main():
    words = argparse.ArgumentParser(description=__doc__.splitlines()[0])
    words.add_argument("--program", required=True)
    words.add_argument("--only", choices=SESSIONS, help="one session")
    words.add_argument("--every", type=int, default=1, help="refuse each N-th allocation alone")
    words.add_argument("--folder", help="where the folders of the runs are made")
    given = words.parse_args()
    with tempfile.TemporaryDirectory(prefix="refused_memory.") as place:
        source, library = Path(place, "refusing.c"), Path(place, "refusing.so")
        source.write_text(LIBRARY)
        subprocess.run(["cc", "-O1", "-shared", "-fPIC", "-o", library, source], check=True)
        trial = Trial(given, str(library))
        counts = [tried(trial, name, given.every) for name in ([given.only] if given.only else SESSIONS)]
    cases, wrong = (sum(count) for count in zip(*counts))
    return ended("refused_memory", cases - wrong, wrong)


if __name__ == "__main__":
    sys.exit(main())
