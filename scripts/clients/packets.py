#!/usr/bin/env python3
"""Prints the packets of a MySQL server, one a line, as a person reads them.

The bytes come from the files that are named, or from standard input:

    searchd session --config searchd.conf < requests | python3 scripts/clients/packets.py
"""

import sys


def split(data):
    """The packets of the bytes: their sequence numbers and payloads, and the bytes after the last whole one."""
    packets = []
    while len(data) >= 4:
        length = int.from_bytes(data[:3], "little")
        if len(data) < 4 + length:
            break
        packets.append((data[3], data[4 : 4 + length]))
        data = data[4 + length :]
    return packets, data


def number(payload, at):
    """The length-encoded number at a place, and the place after it."""
    first = payload[at]
    size = {0xFC: 2, 0xFD: 3, 0xFE: 8}.get(first, 0)
    if size == 0:
        return first, at + 1
    return int.from_bytes(payload[at + 1 : at + 1 + size], "little"), at + 1 + size


def texts(payload, at=0):
    """The length-encoded texts from a place to the end of the payload; a NULL is None."""
    found = []
    while at < len(payload):
        if payload[at] == 0xFB:
            found.append(None)
            at += 1
            continue
        size, at = number(payload, at)
        found.append(payload[at : at + size].decode("utf-8", "replace"))
        at += size
    return found


def greeting(payload):
    version, rest = payload[1:].split(b"\0", 1)
    return f"greeting   version {version.decode('ascii', 'replace')}, connection {int.from_bytes(rest[:4], 'little')}"


def ok(payload):
    affected, at = number(payload, 1)
    last_id, at = number(payload, at)
    status = int.from_bytes(payload[at : at + 2], "little")
    warnings = int.from_bytes(payload[at + 2 : at + 4], "little")
    return f"OK         {affected} affected, insert id {last_id}, status {status}, {warnings} warnings"


def error(payload):
    code = int.from_bytes(payload[1:3], "little")
    state, text = payload[4:9], payload[9:]
    return f"ERR        {code} {state.decode('ascii', 'replace')}: {text.decode('utf-8', 'replace')}"


def eof(payload):
    return f"EOF        {int.from_bytes(payload[1:3], 'little')} warnings, status {int.from_bytes(payload[3:5], 'little')}"


def column(payload):
    return f"column     {texts(payload)[4]}"


def row(payload):
    return "row        " + ", ".join("NULL" if text is None else repr(text) for text in texts(payload))


class Reader:
    """Knows which packet comes next: a result set is a count, so many columns, EOF, rows, EOF."""

    def __init__(self):
        self.greeted = False
        self.in_columns = False
        self.in_rows = False

    def read(self, payload):
        if payload[:1] == b"\xff":
            self.in_columns = self.in_rows = False
            return error(payload)
        if not self.greeted:
            self.greeted = True
            return greeting(payload)
        if payload[:1] == b"\xfe" and len(payload) < 9:
            self.in_columns, self.in_rows = False, self.in_columns
            return eof(payload)
        if self.in_columns:
            return column(payload)
        if self.in_rows:
            return row(payload)
        if payload[:1] == b"\0":
            return ok(payload)
        self.in_columns = True
        return f"result set {number(payload, 0)[0]} columns"


def show(data):
    packets, rest = split(data)
    reader = Reader()
    print("seq   length  packet")
    for sequence, payload in packets:
        try:
            text = reader.read(payload)
        except (IndexError, ValueError):
            text = "unknown    " + payload.hex(" ")
        print(f"{sequence:3} {len(payload):8}  {text}")
    if rest:
        print(f"             cut off    {rest.hex(' ')}")


def main(names):
    if not names:
        show(sys.stdin.buffer.read())
    for name in names:
        with open(name, "rb") as file:
            show(file.read())


if __name__ == "__main__":
    main(sys.argv[1:])
