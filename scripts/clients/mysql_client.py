"""A small client of MySQL's text protocol, which the scripts that try a daemon share.

The handshake is that of protocol 4.1 with an empty user and no password; a statement is sent as COM_QUERY, and is
answered by OK, by a result set whose values are texts, or by ERR. There is no TLS, no compression, no prepared statement.
"""

import socket
from typing import NamedTuple

from scripts.clients.packets import number, texts

LONG_PASSWORD, PROTOCOL_41, TRANSACTIONS, SECURE_CONNECTION, MULTI_STATEMENTS, MULTI_RESULTS = (
    1, 0x200, 0x2000, 0x8000, 0x10000, 0x20000
)
CAPABILITIES = LONG_PASSWORD | PROTOCOL_41 | TRANSACTIONS | SECURE_CONNECTION | MULTI_STATEMENTS | MULTI_RESULTS
UTF8_GENERAL_CI = 33
MORE_RESULTS_EXISTS = 8
LARGEST_PAYLOAD = 2**24 - 1


class Refused(Exception):
    """An ERR packet."""

    def __init__(self, code, state, text):
        super().__init__(f"ERR {code} ({state}): {text}")
        self.code, self.state, self.text = code, state, text


class Lost(Exception):
    """The connection ended, or nothing came for longer than the client waits."""


class Done(NamedTuple):
    """An OK packet."""

    affected: int
    status: int


class Rows(NamedTuple):
    """A result set: the names of its columns, its rows as lists of texts, and the status behind them."""

    columns: list
    rows: list
    status: int


class Client:
    """One connection. `greeting` is the version that the server says."""

    def __init__(self, port, host="127.0.0.1", timeout=300):
        try:
            self.socket = socket.create_connection((host, port), timeout)
        except OSError as error:
            raise Lost(f"no connection to port {port}: {error}") from error
        self.socket.setsockopt(socket.IPPROTO_TCP, socket.TCP_NODELAY, 1)
        self.ahead, self.at, self.sequence = b"", 0, 0
        try:
            greeting = self._packet()
            if greeting[:1] == b"\xff":
                raise refusal(greeting)
            self.greeting = greeting[1 : greeting.index(0, 1)].decode("ascii", "replace")
            self._put(handshake())
            self._reply()
        except BaseException:
            self.close()
            raise

    def query(self, text):
        """The one reply to a text; Refused if it is ERR."""
        self.send(text)
        return self.reply()

    def queries(self, text):
        """The replies to a text of several statements, up to the first that is refused, which is raised."""
        self.send(text)
        replies = [self.reply()]
        while replies[-1].status & MORE_RESULTS_EXISTS:
            replies.append(self.reply())
        return replies

    def send(self, text):
        self.command(b"\x03" + text.encode())

    def command(self, payload):
        """Sends the bytes of a command, and waits for nothing."""
        self.sequence = 0
        self._put(payload)

    def reply(self):
        """The next reply of what was sent."""
        return self._reply()

    def quit(self):
        """COM_QUIT, and the connection's end."""
        try:
            self.command(b"\x01")
        except Lost:
            pass
        self.close()

    def close(self):
        """Hangs up without a word."""
        self.socket.close()

    def _put(self, payload):
        assert len(payload) < LARGEST_PAYLOAD
        try:
            self.socket.sendall(len(payload).to_bytes(3, "little") + bytes([self.sequence]) + payload)
        except OSError as error:
            raise Lost(f"sending failed: {error}") from error

    def _reply(self):
        first = self._packet()
        if first[0] == 0xFF:
            raise refusal(first)
        if first[0] == 0:
            affected, at = number(first, 1)
            _, at = number(first, at)
            return Done(affected, int.from_bytes(first[at : at + 2], "little"))
        columns = [texts(self._packet())[4] for _ in range(number(first, 0)[0])]
        self._packet()
        rows = []
        while True:
            packet = self._packet()
            if packet[0] == 0xFE and len(packet) < 9:
                return Rows(columns, rows, int.from_bytes(packet[3:5], "little"))
            if packet[0] == 0xFF:
                raise refusal(packet)
            rows.append(texts(packet))

    def _packet(self):
        header = self._take(4)
        self.sequence = (header[3] + 1) % 256
        return self._take(int.from_bytes(header[:3], "little"))

    def _take(self, size):
        """The next bytes that the server sent."""
        while len(self.ahead) - self.at < size:
            try:
                piece = self.socket.recv(65536)
            except OSError as error:
                raise Lost(f"reading failed: {error}") from error
            if not piece:
                raise Lost("the server hung up")
            self.ahead, self.at = self.ahead[self.at :] + piece, 0
        self.at += size
        return self.ahead[self.at - size : self.at]


def handshake():
    """The response to a greeting: an empty user without a password, and no database."""
    return b"".join(
        [
            CAPABILITIES.to_bytes(4, "little"),
            LARGEST_PAYLOAD.to_bytes(4, "little"),
            bytes([UTF8_GENERAL_CI]),
            bytes(23),
            b"\0",
            b"\0",
        ]
    )


def refusal(payload):
    """An ERR packet as an exception; that of a server which doesn't speak yet has no state."""
    code = int.from_bytes(payload[1:3], "little")
    state, text = (payload[4:9], payload[9:]) if payload[3:4] == b"#" else (b"", payload[3:])
    return Refused(code, state.decode("ascii", "replace"), text.decode("utf8", "replace").rstrip("\0"))
