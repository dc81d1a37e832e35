"""One process of the server below the multiplexer: what it makes of the process's output."""

import asyncio
import sys
import unittest

from tests.support import server_command
from xqs.mux_backend import Backend, StartFailed
from xqs.mux_peer import Request

ANSWERS = """
import sys, time
out, into = sys.stdout.buffer, sys.stdin.buffer
for turn in range(3):
    length = int.from_bytes(into.read(4), "big")
    tag = into.read(length)[:4]
    if turn == 2 and "wrong" in sys.argv:
        tag = bytes(4)
    for byte in (7).to_bytes(4, "big") + tag + b"\\0ab":
        out.write(bytes([byte]))
        out.flush()
        time.sleep(0.002)
time.sleep(600)
"""
"""A server that gives its replies byte by byte."""


class BackendTest(unittest.IsolatedAsyncioTestCase):
    """Processes that answer well, in pieces, or otherwise."""

    async def asyncSetUp(self) -> None:
        self.replies: list[bytes] = []

    def take(self, request: Request, reply: bytes) -> None:
        """Takes a reply."""
        self.replies.append(reply)

    async def start(self, *command: str) -> Backend:
        """A process that ends with the test."""
        backend = await asyncio.wait_for(Backend.start(command, self.take, None), 30)
        self.addAsyncCleanup(backend.ended.wait)
        self.addCleanup(backend.kill)
        return backend

    async def asked(self, backend: Backend, count: int) -> None:
        """Asks for replies, and waits for them or for the process's end."""
        backend.put(*(Request(None, 0, b"Q%d" % number) for number in range(count)))
        async with asyncio.timeout(30):
            while len(self.replies) < count and not backend.ended.is_set():
                await asyncio.sleep(0.01)

    async def test_many_requests_at_once_are_answered_in_order(self) -> None:
        backend = await self.start(*server_command())
        await self.asked(backend, 500)
        self.assertEqual(self.replies, [b"\0%d" % number for number in range(500)])
        self.assertEqual((len(backend.in_flight), backend.frames), (0, 501))

    async def test_replies_that_come_in_pieces_are_taken_whole(self) -> None:
        backend = await self.start(sys.executable, "-c", ANSWERS)
        await self.asked(backend, 2)
        self.assertEqual(self.replies, [b"\0ab"] * 2)
        self.assertGreater(backend.last_work, 0)

    async def test_one_that_answers_what_nobody_asked_is_ended(self) -> None:
        backend = await self.start(sys.executable, "-c", ANSWERS, "wrong")
        await self.asked(backend, 2)
        await asyncio.wait_for(backend.ended.wait(), 30)
        self.assertEqual(self.replies, [b"\0ab"])
        self.assertEqual((backend.status(), len(backend.in_flight)), ("ended by SIGKILL", 1))

    async def test_one_that_speaks_before_it_is_asked_does_not_start(self) -> None:
        for script in ("echo good morning; cat >/dev/null", "head -c 100000 /dev/zero; sleep 600"):
            with self.assertRaises(StartFailed):
                await self.start("sh", "-c", script)

    async def test_one_that_closes_its_output_and_lives_on_can_be_ended(self) -> None:
        with self.assertRaises(TimeoutError):
            await asyncio.wait_for(
                Backend.start(["sh", "-c", "exec >&-; sleep 600"], self.take, None), 1)


if __name__ == "__main__":
    unittest.main()
