"""Tests of the client and of the daemon, without the program that they are used on."""

import os
import socket
import sys
import tempfile
import threading
import unittest
from pathlib import Path

from scripts.clients.daemon import COLUMNS, Daemon, Ended, free_port, processor, resident
from scripts.clients.mysql_client import Client, Done, Lost, Refused, Rows, handshake
from scripts.tests.test_packets import COLUMN, EOF, ERR, MORE, OK, stream

GREETING = stream(b"\x0a5.6.0\0rest", first=0)
WELCOME = stream(OK, first=2)
LONG = 10  # seconds that a test may wait


class Server:
    """A listener that gives one client these bytes, and keeps what it sends."""

    def __init__(self, *written):
        self.written, self.read = written, []
        self.listener = socket.create_server(("127.0.0.1", 0))
        self.port = self.listener.getsockname()[1]
        self.thread = threading.Thread(target=self.serve)

    def serve(self):
        with self.listener.accept()[0] as connection:
            connection.settimeout(LONG)
            connection.sendall(self.written[0])
            for written in self.written[1:]:
                self.read.append(connection.recv(4096))
                connection.sendall(written)
            self.read.append(connection.recv(4096))

    def __enter__(self):
        self.thread.start()
        return self

    def __exit__(self, *_):
        self.thread.join()
        self.listener.close()


class TheClient(unittest.TestCase):
    def test_statements(self):
        rows = stream(b"\x01", COLUMN, EOF, b"\x015", b"\xfb", EOF)
        both = stream(b"\x01", COLUMN, MORE, MORE, OK)
        with Server(GREETING, WELCOME, stream(OK), rows, stream(ERR), both) as server:
            client = Client(server.port, timeout=LONG)
            self.assertEqual(client.greeting, "5.6.0")
            self.assertEqual(client.query("a"), Done(1, 2))
            self.assertEqual(client.query("b"), Rows(["id"], [["5"], [None]], 2))
            with self.assertRaises(Refused) as refused:
                client.query("c")
            self.assertEqual(str(refused.exception), "ERR 1064 (42000): no")
            self.assertEqual(client.queries("d; e"), [Rows(["id"], [], 10), Done(1, 2)])
            client.quit()
        sent = [stream(handshake()), *(stream(b"\x03" + text, first=0) for text in (b"a", b"b", b"c", b"d; e")), stream(b"\x01", first=0)]
        self.assertEqual(server.read, sent)

    def test_a_greeting_that_refuses(self):
        with Server(stream(b"\xff\x10\x04Too many", first=0)) as server:
            with self.assertRaises(Refused) as refused:
                Client(server.port, timeout=LONG)
            self.assertEqual((refused.exception.code, refused.exception.text), (1040, "Too many"))

    def test_a_server_that_hangs_up(self):
        with Server(GREETING, WELCOME, stream(b"\x01", COLUMN)[:-3]) as server:
            client = Client(server.port, timeout=LONG)
            client.send("a")
            client.socket.shutdown(socket.SHUT_WR)
            with self.assertRaises(Lost):
                client.reply()
            client.close()

    def test_nobody_listens(self):
        with self.assertRaises(Lost):
            Client(free_port(), timeout=LONG)


class TheDaemon(unittest.TestCase):
    def setUp(self):
        self.folder = Path(self.enterContext(tempfile.TemporaryDirectory()))

    def test_configuration_and_command(self):
        daemon = Daemon("P", self.folder, {"one": COLUMNS, "two": ["rt_field = f"]}, 3)
        conf = self.folder / "searchd.conf"
        self.assertEqual(daemon.command, ["P", "serve", "--config", str(conf), "--listen", f"127.0.0.1:{daemon.port}", "--workers", "3"])
        text = conf.read_text()
        self.assertIn("index one\n{\n    type = rt\n    path = " + str(self.folder) + "/one\n", text)
        self.assertEqual(text.count("rt_attr_bigint = price"), 1)
        self.assertEqual(text.count("rt_field = f\n"), 1)
        sphinx = Daemon("S", self.folder, {"one": COLUMNS}, 3, sphinx=True)
        self.assertEqual(sphinx.command, ["S", "--config", str(conf), "--nodetach"])
        self.assertIn(f"listen = 127.0.0.1:{sphinx.port}:mysql41", conf.read_text())

    def daemon(self, code):
        """A daemon that runs this Python code."""
        daemon = Daemon(sys.executable, self.folder, {}, 1)
        daemon.command = [sys.executable, "-c", code]
        daemon.start()
        return daemon

    def test_one_that_ends_by_itself(self):
        daemon = self.daemon("import sys; sys.exit('no such thing')")
        daemon.process.wait(LONG)
        with self.assertRaises(Ended) as ended:
            daemon.client(LONG)
        self.assertEqual(str(ended.exception), "the daemon ended by itself with status 1: no such thing")

    def test_kill_and_stop(self):
        for end, status in ((Daemon.kill, -9), (Daemon.stop, -15)):
            daemon = self.daemon("import time; time.sleep(60)")
            daemon.look()
            end(daemon)
            self.assertEqual(daemon.process.returncode, status)

    def test_figures_of_a_process(self):
        own = os.getpid()
        self.assertTrue(2**20 < resident(own) < 2**33)
        before = processor(own)
        sum(range(10**6))
        self.assertLess(before, processor(own))

    def test_free_port(self):
        port = free_port()
        self.assertTrue(10000 <= port < 30000)
        socket.create_server(("127.0.0.1", port)).close()
