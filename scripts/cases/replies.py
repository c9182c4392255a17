"""Tells the replies of a server as a text, by which docs/cases says what is wanted.

    OK 1                                          so many rows affected
    EOF
    ERR 1064 42000 syntax error at 0              code, state and text
    id, x:Uint | 2, 1 | 3, ''                     a result set: its columns, then its rows; '' is an empty cell
    OK 0; id | 1                                  two replies of one packet
    3: OK 0                                       the status before its reply, unless it is 2, or 10 where another follows

The kind of a column stands behind its name where it isn't the one that a column of this name has in docs/cases. Whatever
isn't exactly the packet that the protocol has there is refused, and so is a packet whose number isn't the next one.
"""

from scripts.clients.packets import number

MORE_RESULTS_EXISTS = 8
# The statuses of AUTOCOMMIT 1 without a transaction, of a last reply and of one that another follows.
USUAL_STATUSES = (2, 10)

# What a column's definition says of its kind: character set, length, type and flags.
KINDS = {
    "3f000b000000032000": "Uint",
    "3f0014000000080000": "Whole",
    "3f0014000000082000": "Unsigned",
    "2100ff000000fd0000": "Text",
}
KIND_BY_NAME = {
    "id": "Unsigned",
    "weight()": "Unsigned",
    "count(*)": "Unsigned",
    "min(id)": "Unsigned",
    "max(id)": "Unsigned",
    "groupby()": "Whole",
    "gid": "Uint",
    "price": "Whole",
    "flag": "Uint",
    "seen": "Uint",
}
KIND_BY_START = {"count(distinct ": "Unsigned", "min(": "Whole", "max(": "Whole"}


class Strange(Exception):
    """Bytes that are no reply of the protocol."""


def split(take):
    """The next packet: its number, its payload and all its bytes. `take` gives so many of the bytes that come."""
    header = take(4)
    payload = take(int.from_bytes(header[:3], "little"))
    return header[3], payload, header + payload


def told(take):
    """Takes the replies to one command, and gives them as a text and as bytes."""
    taken = []

    def packet():
        place, payload, whole = split(take)
        taken.append(whole)
        if place != len(taken) % 256:
            raise Strange(f"a packet with the number {place} where {len(taken) % 256} is the next one")
        if not payload:
            raise Strange("an empty packet")
        return payload

    text, status = "", MORE_RESULTS_EXISTS
    while status & MORE_RESULTS_EXISTS:
        reply, status = one_reply(packet)
        text += reply if status in USUAL_STATUSES or reply.startswith("ERR ") else f"{status}: {reply}"
        text += "; " if status & MORE_RESULTS_EXISTS else ""
    return text, b"".join(taken)


def one_reply(packet):
    """One reply and its status, which is 0 of an ERR."""
    first = packet()
    if first[0] == 0xFF:
        return refusal(first), 0
    if first[0] == 0xFE:
        return "EOF", end_status(first)
    if first[0] == 0:
        affected, at = number(first, 1)
        status = first[at + 1 : at + 3]
        if first[at:] != b"\0" + status + b"\0\0":
            raise Strange(f"no OK: {first.hex(' ')}")
        return f"OK {affected}", int.from_bytes(status, "little")
    return result_set(first, packet)


def result_set(first, packet):
    """A result set, whose two EOFs have one status."""
    count, at = number(first, 0)
    if at != len(first):
        raise Strange(f"no number of columns: {first.hex(' ')}")
    text = ", ".join(column(packet()) for _ in range(count))
    status = end_status(packet())
    while True:
        payload = packet()
        if payload[0] == 0xFE and len(payload) < 9:
            if end_status(payload) != status:
                raise Strange("the two EOFs of a result set have two statuses")
            return text, status
        cells = row(payload)
        if len(cells) != count:
            raise Strange(f"{len(cells)} cells below {count} columns")
        text += " | " + ", ".join(cell or "''" for cell in cells)


def refusal(payload):
    code = int.from_bytes(payload[1:3], "little")
    if payload[3:4] != b"#" or len(payload) < 9:
        raise Strange(f"no ERR: {payload.hex(' ')}")
    return f"ERR {code} {payload[4:9].decode()} {payload[9:].decode()}"


def end_status(payload):
    """The status of an EOF."""
    if len(payload) != 5 or payload[:3] != b"\xfe\0\0":
        raise Strange(f"no EOF: {payload.hex(' ')}")
    return int.from_bytes(payload[3:], "little")


def column(payload):
    """The name of a column, and its kind where the name doesn't say it."""
    size, at = number(payload, 7)
    name = payload[at : at + size]
    length = bytes([size])
    front = b"\x03def\0\0\0" + length + name + length + name + b"\x0c"
    kind = KINDS.get(payload[len(front) : -3].hex())
    if not payload.startswith(front) or kind is None or payload[-3:] != bytes(3):
        raise Strange(f"no column: {payload.hex(' ')}")
    name = name.decode()
    return name if kind == usual_kind(name) else f"{name}:{kind}"


def usual_kind(name):
    """The kind that the column of this name has in docs/cases."""
    by_start = (kind for start, kind in KIND_BY_START.items() if name.startswith(start))
    return KIND_BY_NAME.get(name) or next(by_start, "Text")


def row(payload):
    """The cells of a row, none of which is NULL."""
    cells, at = [], 0
    while at < len(payload):
        if payload[at] == 0xFB:
            raise Strange("a NULL")
        size, at = number(payload, at)
        if at + size > len(payload):
            raise Strange(f"no row: {payload.hex(' ')}")
        cells.append(payload[at : at + size].decode())
        at += size
    return cells
