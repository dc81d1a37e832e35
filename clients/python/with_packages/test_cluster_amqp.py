"""How a node handles a broker that does not answer, without a broker: by planted channels."""

import asyncio
import unittest
from collections.abc import AsyncIterator
from contextlib import aclosing, asynccontextmanager
from typing import Any
from unittest import mock

try:
    import aio_pika  # noqa: F401
except ImportError as error:
    raise unittest.SkipTest("aio_pika is not installed") from error

from xqs.cluster import amqp
from xqs.cluster.addresses import log_address
from xqs.cluster.amqp import AmqpLog
from xqs.cluster.amqp_link import OFFSET, Link, Words
from xqs.cluster.log import Away, CannotFollow


class Message:
    """A message that came; its acknowledgement may never finish."""

    def __init__(self, offset: int | None, body: bytes, is_deaf: bool = False) -> None:
        self.headers = {} if offset is None else {OFFSET: offset}
        self.body = body
        self.is_deaf = is_deaf
        self.acknowledged = False

    async def ack(self) -> None:
        while self.is_deaf:
            try:
                await asyncio.sleep(60)
            except asyncio.CancelledError:
                # (as the package does on a dead connection)
                if not self.is_deaf:
                    raise
        self.acknowledged = True


class Channels(unittest.IsolatedAsyncioTestCase):
    """Feeds of planted messages."""

    def setUp(self) -> None:
        self.said: list[str] = []
        self.log = AmqpLog(log_address("amqp://127.0.0.1:1/docs"), self.said.append)
        self.begun: list[int | str] = []
        self.inbox: "asyncio.Queue[Any]" = asyncio.Queue()

    def planted(self, *messages: Message | None) -> Any:
        """Makes feeds give these messages."""
        for message in messages:
            self.inbox.put_nowait(message)

        @asynccontextmanager
        async def feed(begin: int | str, prefetch: int) -> AsyncIterator[Any]:
            self.begun.append(begin)
            yield self.inbox

        return mock.patch.object(self.log, "_inbox", feed)

    async def test_an_acknowledgement_that_never_ends_is_given_up(self) -> None:
        deaf = Message(7, b"a", is_deaf=True)
        taken = []
        with self.planted(deaf, Message(8, b"b")), mock.patch.object(
                AmqpLog._asked, "__defaults__", (0.1,)):
            with self.assertRaises(Away):
                async with asyncio.timeout(10):
                    async with aclosing(self.log.messages(6)) as messages:
                        async for offset, body in messages:
                            taken.append((offset, body))
        deaf.is_deaf = False
        self.assertEqual((taken, self.begun), ([(7, b"a")], [7]))

    async def test_a_feed_that_ends_is_away_and_one_of_no_stream_is_refused(self) -> None:
        with self.planted(Message(0, b"a"), None):
            with self.assertRaises(Away):
                self.assertEqual([it async for it in self.log.messages(-1)], [(0, b"a")])
        with self.planted(Message(None, b"a")):
            with self.assertRaises(CannotFollow):
                self.assertEqual([it async for it in self.log.messages(-1)], [])
        self.assertEqual(self.begun, ["first", "first"])

    async def test_the_end_is_that_of_its_own_probe_and_not_of_an_older_message(self) -> None:

        async def publish(message: bytes) -> None:
            for old in (Message(40, b"older"), Message(41, b"older too"), Message(42, message)):
                self.inbox.put_nowait(old)

        with self.planted(), mock.patch.object(self.log, "publish", publish):
            self.assertEqual(await self.log.end_offset(), 42)
            again = await self.log.end_offset()
        self.assertEqual((again, self.begun), (42, ["next", "next"]))

    async def test_a_consumer_that_the_broker_has_cancelled_is_noticed(self) -> None:
        channel = mock.Mock()
        channel.channel.consumers = {"tag": None}
        with mock.patch.object(amqp, "LOOK", 0.02):
            watch = asyncio.create_task(self.log._end_inbox(self.inbox, channel, "tag"))
            await asyncio.sleep(0.1)
            self.assertTrue(self.inbox.empty())
            channel.channel.consumers.clear()
            self.assertIsNone(await asyncio.wait_for(self.inbox.get(), 5))
        await watch

    async def test_a_link_goes_on_whatever_the_package_raises(self) -> None:

        async def odd(broker: str) -> None:
            raise ValueError("an odd frame")

        async def note(connection: object) -> None:
            raise AssertionError("nothing is opened")

        link = Link(["amqp://127.0.0.1:1/", "amqp://127.0.0.1:2/"],
                    Words("at", "lost {}", "none at"), self.said.append, note)
        with mock.patch("xqs.cluster.amqp_link._connected", odd):
            running = asyncio.create_task(link.run())
            async with asyncio.timeout(20):
                while len(self.said) < 2:
                    await asyncio.sleep(0.02)
        self.assertFalse(running.done())
        running.cancel()
        self.assertEqual(self.said, [f"none at 127.0.0.1:{it}: an odd frame" for it in (1, 2)])

    async def test_what_is_lost_for_one_reason_again_and_again_is_told_once(self) -> None:
        connections: list[object] = []

        async def made(broker: str) -> Any:
            connection = mock.Mock()
            connection.close = mock.AsyncMock()
            connections.append(connection)
            return connection

        async def note(connection: object) -> None: ...

        link = Link(["amqp://m1/", "amqp://m2/"], Words("at", "{} is lost", "none at"),
                    self.said.append, note)
        with mock.patch("xqs.cluster.amqp_link._connected", made):
            running = asyncio.create_task(link.run())
            for turn in range(5):
                async with asyncio.timeout(20):
                    while not link.is_up or len(connections) <= turn:
                        await asyncio.sleep(0.01)
                link.drop("nothing came" if turn < 4 else "reset")
            async with asyncio.timeout(20):
                while "m1 is lost: reset" not in self.said:
                    await asyncio.sleep(0.01)
        running.cancel()
        self.assertEqual(self.said[:4], ["at m1", "m1 is lost: nothing came", "at m2",
                                         "m1 is lost: reset"])

    async def test_a_broker_that_takes_connections_and_says_nothing_is_left_for_the_next(
        self
    ) -> None:
        ended = asyncio.Event()

        async def silent(reader: asyncio.StreamReader, writer: asyncio.StreamWriter) -> None:
            await ended.wait()
            writer.close()

        server = await asyncio.start_server(silent, "127.0.0.1", 0)
        port = server.sockets[0].getsockname()[1]
        opened: list[object] = []

        async def note(connection: object) -> None:
            opened.append(connection)

        link = Link([f"amqp://127.0.0.1:{port}/?timeout=1", "amqp://127.0.0.1:1/"],
                    Words("at", "lost {}", "none at"), self.said.append, note)
        with mock.patch("xqs.cluster.amqp_link.PATIENCE", 0.2):
            running = asyncio.create_task(link.run())
            async with asyncio.timeout(20):
                while sum("127.0.0.1:1:" in it for it in self.said) < 1:
                    await asyncio.sleep(0.02)
            self.assertTrue(any(f"none at 127.0.0.1:{port}: no answer" in it for it in self.said),
                            self.said)
        running.cancel()
        ended.set()
        server.close()
        self.assertEqual(opened, [])


if __name__ == "__main__":
    unittest.main()
