"""Draws what a hostile client sends on one connection, from its first byte to its end.

Most connections log in and send commands until they have sent so many; others send a response to the greeting that is cut or
has wrong lengths, or headers with other numbers and lengths. Some are cut off inside a packet.
"""

from scripts.clients.mysql_client import handshake

RESPONSE = handshake()
# Flags of which the response's fields hang, and some of which nothing does.
FLAGS = (0x200, 0x8, 0x8000, 0x80000, 0x200000, 0x1, 0x800, 0x20, 0x10000)
# COM_PING, COM_INIT_DB and COM_SET_OPTION, of which the last is to have two bytes more.
COMMANDS = (b"\x0e", b"\x0e junk", b"\x02", b"\x02rt", b"\x1b\0\0", b"\x1b\1\0", b"\x1b", b"\x1b\0", b"\x1b\0\0\0")
LIMIT = 8388608


def packet(number, payload):
    return len(payload).to_bytes(3, "little") + bytes([number]) + payload


class Lines:
    """What connections send, by some draws and some texts; `longest` is how many packets one sends at most."""

    def __init__(self, draws, texts, longest):
        self.draws, self.texts, self.longest = draws, texts, longest

    def line(self):
        """The bytes of a connection, and how many packets they are, the last of which may be a part of one."""
        draw = self.draws.random()
        if draw < 0.25:
            return self.refused_at_first(), 1
        parts = [packet(1, RESPONSE if draw < 0.9 else self.response())]
        parts += [packet(0, self.command()) for _ in range(self.draws.randint(1, self.longest))]
        if draw > 0.5:
            parts.append(self.bad_header())
        data = b"".join(parts)
        if draw > 0.85:
            data = data[: len(data) - self.draws.randrange(min(len(data), 200))]
        return data, len(parts)

    def refused_at_first(self):
        """A first packet that mostly isn't taken, and what is sent behind it."""
        made = self.draws.choice((self.response, self.cut_response, self.changed_response, self.noise))()
        whole = packet(self.draws.choice((1, 1, 1, 1, 0, 2, 255)), made)
        if self.draws.random() < 0.1:
            whole = self.bad_header()
        return whole + self.draws.choice((b"", b"\0", packet(0, b"\x0e")))

    def noise(self):
        return self.draws.randbytes(self.draws.randrange(80))

    def response(self):
        """A response whose fields are drawn with its flags."""
        flags = sum(flag for flag in FLAGS if self.draws.random() < (0.9 if flag == 0x200 else 0.4))
        fields = [flags.to_bytes(4, "little"), self.draws.randbytes(4), b"\x21", bytes(23), self.name() + b"\0"]
        answer = self.draws.randbytes(self.draws.choice((0, 1, 8, 20, 20, 250))).replace(b"\0", b"x")
        size = bytes([len(answer)])
        if flags & 0x200000:
            wide = len(answer).to_bytes(8, "little")
            spelled = (size, b"\xfc" + wide[:2], b"\xfd" + wide[:3], b"\xfe" + wide)
            size = self.draws.choice((*spelled, b"\xfb", b"\xff", b"\xfe" + b"\xff" * 8))
        fields.append(size + answer if flags & 0x208000 else answer + b"\0")
        fields += [self.name() + b"\0"] * bool(flags & 0x8)
        fields.append(self.draws.choice((b"mysql_native_password\0", b"x", b"")))
        return b"".join(fields)

    def cut_response(self):
        whole = self.response()
        return whole[: self.draws.randrange(len(whole) + 1)]

    def changed_response(self):
        whole = bytearray(self.response())
        for _ in range(self.draws.randint(1, 3)):
            byte = self.draws.choice((0, 1, 0xFA, 0xFB, 0xFC, 0xFD, 0xFE, 0xFF, self.draws.randrange(256)))
            whole[self.draws.randrange(len(whole))] = byte
        return bytes(whole)

    def name(self):
        return self.draws.choice((b"", b"root", b"\xff\xfe", b"u" * 300))

    def command(self):
        """The payload of a command."""
        draw = self.draws.random()
        if draw < 0.85:
            return b"\x03" + self.texts.text()
        if draw < 0.88:
            return b""
        if draw < 0.92:
            return self.draws.choice(COMMANDS)
        if draw < 0.9205:
            return b"\x01" + self.draws.randbytes(self.draws.randrange(3))
        first = self.draws.choice([number for number in range(256) if number not in (1, 3)])
        return bytes([first]) + self.draws.randbytes(self.draws.randrange(20))

    def bad_header(self):
        """A header that ends the connection, or a packet that isn't whole."""
        size = self.draws.choice((0, 1, 5, LIMIT - 1, LIMIT, LIMIT + 1, 0xFFFFFF, self.draws.randrange(2**24)))
        number = self.draws.choice((0, 0, 1, 2, 127, 255))
        header = size.to_bytes(3, "little") + bytes([number])
        return header[: self.draws.choice((4, 4, 4, 4, 3, 2, 1))] + self.draws.randbytes(self.draws.randrange(4))

    def pieces(self, data):
        """The bytes of a connection as they are sent: mostly at once, else in pieces, some of them byte by byte."""
        draw = self.draws.random()
        if draw < 0.7:
            return [data]
        if draw < 0.72 and len(data) < 400:
            return [data[at : at + 1] for at in range(len(data))]
        cuts = sorted(self.draws.randrange(len(data) + 1) for _ in range(self.draws.randint(1, 4)))
        return [data[first:last] for first, last in zip([0, *cuts], [*cuts, len(data)]) if first < last]
