"""The log as a stream of RabbitMQ. Only this module and its links speak to RabbitMQ."""

import asyncio
import uuid
from collections.abc import AsyncGenerator, AsyncIterator, Callable, Coroutine
from contextlib import asynccontextmanager, suppress
from typing import Any, TypeAlias, TypeVar

import aio_pika
from aio_pika.abc import AbstractChannel, AbstractConnection, AbstractIncomingMessage
from aio_pika.exceptions import ChannelNotFoundEntity

from xqs.cluster.addresses import LogAddress, shown
from xqs.cluster.amqp_link import (
    FAREWELL,
    NO_STREAM,
    OFFSET,
    PATIENCE,
    Link,
    NoCopy,
    Words,
    farewell,
    told_as_away,
)
from xqs.cluster.batches import probe
from xqs.cluster.limits import within
from xqs.cluster.log import Away, CannotFollow
from xqs.cluster.steps import passed

PREFETCH = 16
"""How many messages the broker may send ahead."""
LOOK = 1.0
"""Seconds between two checks whether the broker still has this consumer."""
STREAM = {"x-queue-type": "stream"}
READING = Words("the log is at", "the log at {} is lost", "no log at")
WRITING = Words("writes go to", "writes can't go to {} any more", "no writes to")

Inbox: TypeAlias = "asyncio.Queue[AbstractIncomingMessage | None]"
"""Messages as they come; None at their end."""
T = TypeVar("T")


class AmqpLog:
    """A stream of RabbitMQ, read by a connection to one of its brokers and written by another.

    There are two connections, because an engine that is short of disk or memory takes nothing from
    a connection that writes, not even the acknowledgements of what it reads. `run` keeps them up,
    and calls `came_up` at each new one that writes. A missing stream is created.
    """

    def __init__(self, address: LogAddress, say: Callable[[str], None]) -> None:
        self.name = address.name
        self.brokers = address.brokers
        self.came_up: Callable[[], None] = lambda: None
        self._reading = Link(address.brokers, READING, say, self._begin_reading)
        self._writing = Link(address.brokers, WRITING, say, self._begin_writing)
        self._writing.came_up = lambda: self.came_up()
        self._publisher: AbstractChannel | None = None

    @property
    def is_up(self) -> bool:
        """Whether the log can be written now."""
        return self._writing.is_up

    @property
    def is_read(self) -> bool:
        """Whether the log can be read now."""
        return self._reading.is_up

    async def run(self) -> None:
        """Connects to one broker after another, for as long as this runs."""
        await asyncio.gather(self._reading.run(), self._writing.run())

    async def _begin_reading(self, connection: AbstractConnection) -> None:
        """Checks that the stream exists, with a copy at this broker."""
        await self._made(connection)
        # (another kind of queue is refused when messages are requested)
        with suppress(CannotFollow):
            await self._look_for_copy(connection)

    async def _begin_writing(self, connection: AbstractConnection) -> None:
        channel = await self._made(connection)
        channel.close_callbacks.add(self._writing.on_close)
        self._publisher = channel

    async def _made(self, connection: AbstractConnection) -> AbstractChannel:
        """A channel, once the stream exists."""
        with told_as_away():
            try:
                channel = await connection.channel()
                await channel.get_queue(self.name)
            except ChannelNotFoundEntity:
                channel = await connection.channel()
                await channel.declare_queue(self.name, durable=True, arguments=dict(STREAM))
        return channel

    def drop_reading(self, why: str) -> None:
        """Gives up the connection that reads, so that another one is made."""
        self._reading.drop(why)

    def drop_writing(self, why: str) -> None:
        """Gives up the connection that writes, so that another one is made."""
        self._writing.drop(why)

    async def close(self) -> None:
        """Ends the connections."""
        await asyncio.gather(self._reading.close(), self._writing.close())

    async def publish(self, message: bytes) -> None:
        """Adds a message; returns once it is confirmed. Raises Away."""
        publisher = self._publisher
        if publisher is None or not self.is_up:
            raise Away("there is no connection to the log")
        with told_as_away():
            sent = aio_pika.Message(message, delivery_mode=2)
            await publisher.default_exchange.publish(sent, routing_key=self.name)

    async def messages(self, after: int) -> AsyncGenerator[tuple[int, bytes], None]:
        """The messages after an offset, as they come; raises Away at the end."""
        async with self._inbox(after + 1 if after >= 0 else "first", PREFETCH) as inbox:
            while (message := await inbox.get()) is not None:
                yield offset_of(message), message.body
                await self._asked(_acknowledged(message))
                passed("acknowledged")
        raise Away("the stream of messages ended")

    @staticmethod
    async def _asked(work: Coroutine[Any, Any, T], seconds: float = PATIENCE) -> T:
        with told_as_away():
            return await within(seconds, work)

    @asynccontextmanager
    async def _inbox(self, begin: int | str, prefetch: int) -> AsyncIterator[Inbox]:
        """Messages on a channel of their own. Raises Away; NoCopy makes the next broker be
        tried."""
        connection = self._reading.connection()
        inbox: Inbox = asyncio.Queue()
        channel = await self._asked(_channel(connection))
        watch = None
        try:
            tag = await self._asked(self._consumed(channel, inbox, begin, prefetch))
            watch = asyncio.create_task(self._end_inbox(inbox, channel, tag))
            yield inbox
        except NoCopy as error:
            self.drop_reading(str(error))
            raise
        finally:
            if watch:
                watch.cancel()
            with suppress(Away, CannotFollow):
                await self._asked(_closed(channel), FAREWELL)

    async def _consumed(self, channel: AbstractChannel, inbox: Inbox, begin: int | str,
                        prefetch: int) -> str:
        channel.close_callbacks.add(lambda *_: inbox.put_nowait(None))
        await channel.set_qos(prefetch_count=prefetch)
        queue = await channel.get_queue(self.name)
        tag: str = await queue.consume(inbox.put, arguments={OFFSET: begin})
        return tag

    async def _end_inbox(self, inbox: Inbox, channel: AbstractChannel, tag: str) -> None:
        """Ends the messages if the connection is given up, or if the broker has cancelled them."""
        while _has(channel, tag):
            with suppress(TimeoutError):
                await asyncio.wait_for(self._reading.lost.wait(), LOOK)
                break
        inbox.put_nowait(None)

    async def first_message(self) -> tuple[int, bytes]:
        """The oldest message in the log, with its offset. Raises Away."""
        async with self._inbox("first", 1) as inbox:
            message = await _one(inbox)
            return offset_of(message), message.body

    async def end_offset(self) -> int:
        """The offset of a message that is added now, which no other sender adds. Raises Away."""
        own = probe(uuid.uuid4().bytes)

        async def find() -> int:
            async with self._inbox("next", PREFETCH) as inbox:
                await self.publish(own)
                # (a copy that lags first gives older ones)
                while (message := await _one(inbox)).body != own:
                    await self._asked(_acknowledged(message))
                return offset_of(message)

        return await self._asked(find(), 2 * PATIENCE)

    async def copies(self) -> dict[str, bool | None]:
        """For each broker whether it has a copy of the log; None if it doesn't answer."""
        found = await asyncio.gather(*(self._has_copy(it) for it in self.brokers))
        return dict(zip(map(shown, self.brokers), found, strict=True))

    async def _has_copy(self, broker: str) -> bool | None:

        async def look() -> None:
            connection = await aio_pika.connect(broker, timeout=PATIENCE)
            try:
                await self._look_for_copy(connection)
            finally:
                await farewell(connection)

        try:
            await self._asked(look(), 2 * PATIENCE)
        except NoCopy:
            return False
        except (Away, CannotFollow):
            return None
        return True

    async def _look_for_copy(self, connection: AbstractConnection) -> None:
        """Raises NoCopy if the broker has no copy."""
        with told_as_away():
            channel = await _channel(connection)
            await self._consumed(channel, asyncio.Queue(), "next", 1)
            await channel.close()


async def _channel(connection: AbstractConnection) -> AbstractChannel:
    return await connection.channel(publisher_confirms=False)


async def _closed(channel: AbstractChannel) -> None:
    await channel.close()


async def _acknowledged(message: AbstractIncomingMessage) -> None:
    await message.ack()


def _has(channel: AbstractChannel, tag: str) -> bool:
    """Whether a channel still has a consumer: the package forgets one that the broker cancels."""
    consumers = getattr(getattr(channel, "channel", None), "consumers", None)
    return consumers is None or tag in consumers


async def _one(inbox: Inbox) -> AbstractIncomingMessage:
    try:
        message = await asyncio.wait_for(inbox.get(), PATIENCE)
    except TimeoutError as error:
        raise Away(f"no message came within {PATIENCE:g} seconds") from error
    if message is None:
        raise Away("the stream of messages ended")
    return message


def offset_of(message: AbstractIncomingMessage) -> int:
    """The offset of a message in its stream. Raises CannotFollow if it comes from no stream."""
    offset = message.headers.get(OFFSET)
    if not isinstance(offset, int):
        raise CannotFollow(NO_STREAM)
    return offset
