"""Tells what is answered to the bytes that a client sends from its connection on, by the rules of docs/MANUAL.md alone.

The bytes are packets, each with a length of three bytes and a number. The first packet answers the greeting and has the number
1, each later one is a command and has the number 0. A header with too long a length or with another number ends the connection,
and so do a bad response to the greeting, COM_QUIT, and bytes that end inside a packet.
"""

from typing import NamedTuple

from scripts.readers.sessions import Session

LARGEST = 8388608
PROTOCOL_41, HAS_ONE_LENGTH, HAS_LONG_LENGTH = 0x200, 0x8000, 0x200000
QUIT, INIT_DB, QUERY, PING, SET_OPTION = 1, 2, 3, 14, 27
UNKNOWN = "ERR 1047 08S01 unknown command"


class Answer(NamedTuple):
    """What is written to one packet: the number of the first packet of it, and the replies."""

    number: int
    replies: list


class Line(NamedTuple):
    """What becomes of the bytes of a connection: what is answered, and how many of them are looked at."""

    answers: list
    read: int


def line(data, stores, tables=None):
    """The line of these bytes over these stores, where there are these indexes."""
    at, due, session, told = 0, 1, Session(stores, tables), []
    while len(data) - at >= 4:
        size, number = int.from_bytes(data[at : at + 3], "little"), data[at + 3]
        at += 4
        if size > LARGEST or number != due:
            text = f"1153 08S01 packet above {LARGEST} bytes" if size > LARGEST else "1156 08S01 packet out of order"
            return Line([*told, Answer((number + 1) % 256, ["ERR " + text])], at)
        payload = data[at : at + size]
        if len(payload) < size:
            break
        at += size
        if due == 1:
            place = bad_response(payload)
            told.append(Answer(2, ["OK 0" if place is None else f"ERR 1043 08S01 bad handshake at {place}"]))
            if place is not None:
                return Line(told, at)
            due = 0
        elif payload[:1] == bytes([QUIT]):
            return Line(told, at)
        else:
            told.append(Answer(1, command(payload, session)))
    return Line(told, len(data))


def command(payload, session):
    """The replies to a command."""
    first = payload[0] if payload else None
    if first == QUERY:
        return session.replies(payload[1:])
    if first in (INIT_DB, PING) or first == SET_OPTION and len(payload) == 3:
        status = session.status()
        reply = "EOF" if first == SET_OPTION else "OK 0"
        return [reply if status == 2 else f"{status}: {reply}"]
    return [UNKNOWN]


def bad_response(payload):
    """The place of the first field of a response to the greeting that isn't whole, None of a good one."""
    flags = int.from_bytes(payload[:4], "little")
    if len(payload) < 4 or not flags & PROTOCOL_41:
        return 0
    for place, size in ((4, 4), (8, 1), (9, 23)):
        if len(payload) < place + size:
            return place
    user = 32
    answer = payload.find(b"\0", user) + 1
    if not answer:
        return user
    end = end_of_answer(payload, answer, flags)
    return answer if end is None or end > len(payload) else None


def end_of_answer(payload, at, flags):
    """Where the authentication's answer ends, None where that isn't told."""
    if not flags & (HAS_LONG_LENGTH | HAS_ONE_LENGTH):
        return payload.find(b"\0", at) + 1 or None
    if at == len(payload):
        return None
    first = payload[at]
    if not flags & HAS_LONG_LENGTH:
        return at + 1 + first
    if first in (0xFB, 0xFF):
        return None
    size = {0xFC: 2, 0xFD: 3, 0xFE: 8}.get(first, 0)
    if at + 1 + size > len(payload):
        return None
    length = int.from_bytes(payload[at + 1 : at + 1 + size], "little") if size else first
    return at + 1 + size + length
