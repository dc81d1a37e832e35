"""Clients of `xqs web` that read slowly, send slowly or send half a request hold up nobody."""

import socket
import statistics
import threading
import time
import unittest
from collections.abc import Callable

from tests.serving import PATIENCE
from webs import TOKEN, WebTest, asked, read_all

READERS = 70
LONG = 3_000_000


class SlowTest(WebTest):
    """Clients by sockets of their own, and a document of this number of bytes."""

    size = LONG

    def setUp(self) -> None:
        super().setUp()
        self.web.put("long", f"<a>{chr(120) * self.size}</a>")

    def connect(self) -> socket.socket:
        """A connection with a small buffer, which is closed at the end."""
        connection = socket.socket()
        connection.setsockopt(socket.SOL_SOCKET, socket.SO_RCVBUF, 8 << 10)
        connection.settimeout(PATIENCE)
        host, _, port = self.web.host.rpartition(":")
        connection.connect((host, int(port)))
        self.addCleanup(connection.close)
        return connection

    def head(self, method: str, path: str, *lines: str) -> bytes:
        """The head of a request."""
        return "\r\n".join((f"{method} {path} HTTP/1.1", f"Host: {self.web.host}", *lines, "", "")
                           ).encode()

    def median(self, count: int = 30) -> float:
        """The median time of a short request, in seconds."""
        times = []
        for number in range(count):
            begin = time.monotonic()
            self.check(self.web.ask("GET", asked(f"{number} + 1")), 200, str(number + 1))
            times.append(time.monotonic() - begin)
        return statistics.median(times)

    def check_nobody_waits(self, before: float) -> None:
        """Checks that a fast client is served as before, within what a busy machine allows."""
        self.assertLess(self.median(), max(20 * before, 0.5))


class Slow(SlowTest):
    """Slow clients beside a fast one."""

    words = ("--wait", "4", "--head", "2")

    def slowly(self, action: Callable[[], None]) -> Callable[[], None]:
        """Repeats an action in a thread, until the returned function is called."""
        ended = threading.Event()

        def work() -> None:
            while not ended.wait(0.5):
                action()

        thread = threading.Thread(target=work, daemon=True)
        thread.start()

        def end() -> None:
            ended.set()
            thread.join()

        return end

    def test_slow_readers(self) -> None:
        before = self.median()
        readers = [self.connect() for _ in range(READERS)]
        for reader in readers:
            reader.sendall(self.head("GET", "/rest/long"))
        for reader in readers:
            self.assertTrue(reader.recv(1))

        def read_some() -> None:
            for reader in readers:
                reader.recv(4 << 10)

        end = self.slowly(read_some)
        try:
            self.check_nobody_waits(before)
        finally:
            end()

    def test_a_slow_reader_gets_all_of_its_answer(self) -> None:
        reader = self.connect()
        query = 'string-join(for $x in 1 to 40000 return "abcdefgh")'
        reader.sendall(self.head("GET", asked(query), "Connection: close"))
        size = 0
        while piece := reader.recv(40_000):
            size += len(piece)
            time.sleep(0.25)
        self.assertGreater(size, 320_000)

    def test_heads_that_do_not_come(self) -> None:
        before = self.median()
        halves = [self.connect() for _ in range(READERS)]
        for half in halves:
            half.sendall(b"GET /rest HTTP/1.1\r\nHost: x\r\nX: ")
        self.check_nobody_waits(before)
        begin = time.monotonic()
        for half in halves:
            self.assertEqual(read_all(half), b"")
        self.assertLess(time.monotonic() - begin, 8)

    def test_a_head_that_comes_byte_by_byte(self) -> None:
        drip, begin = self.connect(), time.monotonic()
        with self.assertRaises(OSError):
            for byte in self.head("GET", "/rest", f"X: {'x' * 1000}"):
                drip.sendall(bytes([byte]))
                time.sleep(0.1)
        self.assertLess(time.monotonic() - begin, 8)

    def test_a_second_head_that_does_not_come(self) -> None:
        connection = self.connect()
        connection.sendall(self.head("GET", asked("1")) + b"GET /rest HT")
        begin = time.monotonic()
        self.assertTrue(read_all(connection).endswith(b"\r\n\r\n1"))
        self.assertLess(time.monotonic() - begin, 8)

    def test_bodies_that_trickle(self) -> None:
        before = self.median()
        account = f"Authorization: Bearer {TOKEN}"
        bodies = [self.connect() for _ in range(READERS)]
        for body in bodies:
            body.sendall(self.head("PUT", "/rest/a", account, "Content-Length: 100000") + b"<a>")
        refused: set[socket.socket] = set()

        def trickle() -> None:
            for body in bodies:
                try:
                    body.sendall(b"x")
                except OSError:
                    refused.add(body)

        end = self.slowly(trickle)
        try:
            self.check_nobody_waits(before)
            self.assertIn(b"408", bodies[0].recv(100).split(b"\r\n")[0])
            time.sleep(4)
        finally:
            end()
        self.assertEqual(self.web.ask("GET", "/rest/a").status, 404)


class Many(SlowTest):
    """More connections than allowed."""

    words = ("--connections", "20", "--head", "60")
    # (more than the system holds for a socket, so that the answer stays under way until it is read)
    size = 12_000_000

    def test_the_one_that_has_waited_longest_makes_room(self) -> None:
        waiting = [self.connect() for _ in range(40)]
        self.assertLess(self.median(), 1)
        self.assertEqual(read_all(waiting[0]), b"")

    def test_where_all_are_at_work_the_newest_is_refused(self) -> None:
        readers = [self.connect() for _ in range(20)]
        for reader in readers:
            reader.sendall(self.head("GET", "/rest/long"))
        for reader in readers:
            reader.recv(1)
        told = read_all(self.connect())
        self.assertTrue(told.startswith(b"HTTP/1.1 503"), told)
        self.assertIn(b"Retry-After: 1\r\nXqs-Code: xqs:FULL", told)
        self.assertEqual(int(told.split(b"Content-Length: ")[1].split(b"\r\n")[0]),
                         len(told.split(b"\r\n\r\n")[1]))
        for reader in readers:
            reader.close()
        end = time.monotonic() + PATIENCE
        while self.web.ask("GET", asked("1")).status == 503 and time.monotonic() < end:
            time.sleep(0.1)


del SlowTest, WebTest

if __name__ == "__main__":
    unittest.main()
