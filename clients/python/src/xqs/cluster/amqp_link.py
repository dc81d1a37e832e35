"""A connection to one of the brokers, which is made again whenever it is lost."""

import asyncio
import itertools
import logging
from collections.abc import Awaitable, Callable, Iterator, Sequence
from contextlib import contextmanager, suppress
from dataclasses import dataclass

import aio_pika
from aio_pika.abc import AbstractConnection
from aio_pika.exceptions import (
    CONNECTION_EXCEPTIONS,
    ChannelPreconditionFailed,
)

from xqs.cluster.addresses import shown
from xqs.cluster.limits import Pauses, within
from xqs.cluster.log import Away, CannotFollow

PATIENCE = 5.0
"""Seconds for an answer of a broker."""
FAREWELL = 1.0
"""Seconds for a broker to confirm that a connection or a channel ends."""
PAUSE, LONGEST_PAUSE = 0.2, 2.0
"""Seconds before the next broker is tried after a failure."""
AGAIN_TOLD = 60.0
"""Seconds after which a loss for the same reason is reported again."""
OFFSET = "x-stream-offset"
NO_STREAM = "the log's name is that of a queue, not a stream: name another log"
NO_COPY = "this broker has no copy of the log that runs"
_NO_REPLICA = "replica"
"""The engine's message if a broker has no copy."""


class NoCopy(Away):
    """The current broker has no copy of the log; others have one."""


@dataclass(frozen=True)
class Words:
    """The messages about a link: that it is up, that it is lost, and that it can't be made."""

    there: str
    lost: str
    none: str


class Link:
    """One connection at a time to one of several brokers, tried one after another.

    `opened` is called with each new connection, and prepares it; if it raises Away, the next broker
    is tried. Then the connection is up, and `came_up` is called.
    """

    def __init__(self, brokers: Sequence[str], words: Words, say: Callable[[str], None],
                 opened: Callable[[AbstractConnection], Awaitable[None]]) -> None:
        self._brokers = brokers
        self._words = words
        self._say = say
        self._opened = opened
        self._connection: AbstractConnection | None = None
        self._up = asyncio.Event()
        self.lost = asyncio.Event()
        self.came_up: Callable[[], None] = lambda: None
        self._why = ""
        self._told: dict[str, float] = {}
        self._tells = True

    @property
    def is_up(self) -> bool:
        """Whether there is a connection."""
        return self._up.is_set()

    def connection(self) -> AbstractConnection:
        """The current connection. Raises Away."""
        if self._connection is None or not self.is_up:
            raise Away("there is no connection to the log")
        return self._connection

    async def run(self) -> None:
        """Connects to one broker after another, for as long as this runs."""
        failed: dict[str, str] = {}
        pauses = Pauses(PAUSE, LONGEST_PAUSE)
        for broker in itertools.cycle(self._brokers):
            try:
                await self._connect(broker)
            except Exception as error:  # noqa: BLE001 (after any error the next broker is tried)
                if failed.get(broker) != str(error):
                    self._say(f"{self._words.none} {shown(broker)}: {reason(error)}")
                failed[broker] = str(error)
                await pauses.pause()
                continue
            failed.clear()
            pauses.begin_anew()
            await self.lost.wait()
            self._tells = self._is_news(self._why)
            if self._tells:
                self._say(self._words.lost.format(shown(broker)) + f": {self._why}")
            await self._disconnect()

    def _is_news(self, why: str) -> bool:
        """Whether a loss is news: whether no connection was lost for the same reason a moment ago.
        While an engine takes or gives nothing, each broker is tried again and again."""
        now = asyncio.get_running_loop().time()
        if now - self._told.get(why, -AGAIN_TOLD) < AGAIN_TOLD:
            return False
        self._told[why] = now
        return True

    async def _connect(self, broker: str) -> None:
        self.lost.clear()
        try:
            with told_as_away():
                connection = await within(2 * PATIENCE, _connected(broker))
                self._connection = connection
                connection.close_callbacks.add(self.on_close)
                await within(2 * PATIENCE, _of(self._opened(connection)))
            if self.lost.is_set():
                raise Away(self._why)
        except BaseException:
            await self._disconnect()
            raise
        if self._tells:
            self._say(f"{self._words.there} {shown(broker)}")
        self._up.set()
        self.came_up()

    def on_close(self, _: object = None, error: BaseException | None = None) -> None:
        """Notes that the connection or one of its channels was closed."""
        self.drop(reason(error) if error else "the connection was closed")

    def drop(self, why: str) -> None:
        """Gives up the current connection, so that another one is made."""
        if not self.lost.is_set():
            self._why = why
            self._up.clear()
            self.lost.set()

    async def _disconnect(self) -> None:
        self._up.clear()
        connection, self._connection = self._connection, None
        if connection is not None:
            await farewell(connection)

    async def close(self) -> None:
        """Ends the connection."""
        self.drop("it is no longer needed")
        await self._disconnect()


async def _connected(broker: str) -> AbstractConnection:
    return await aio_pika.connect(broker, timeout=PATIENCE)


async def _of(work: Awaitable[None]) -> None:
    await work


async def farewell(connection: AbstractConnection) -> None:
    """Ends a connection, even if its broker doesn't answer."""

    async def close() -> None:
        await connection.close()

    with suppress(Away, CannotFollow), told_as_away():
        await within(FAREWELL, close())


@contextmanager
def told_as_away() -> Iterator[None]:
    """A context that raises Away for the package's errors of a broken connection; NoCopy if the
    broker has no copy, CannotFollow if a queue takes no offset."""
    try:
        yield
    except asyncio.CancelledError as error:
        # The package cancels tasks that wait for a connection that ends.
        task = asyncio.current_task()
        if task is not None and task.cancelling():
            raise
        raise Away("the connection was closed") from error
    except ChannelPreconditionFailed as error:
        if _NO_REPLICA in str(error):
            raise NoCopy(NO_COPY) from error
        if OFFSET in str(error):
            raise CannotFollow(NO_STREAM) from error
        raise Away(reason(error)) from error
    except (*CONNECTION_EXCEPTIONS, TimeoutError, asyncio.InvalidStateError) as error:
        raise Away(reason(error)) from error


def reason(error: BaseException) -> str:
    """The message of an error of the package."""
    if isinstance(error, TimeoutError):
        return "no answer"
    return str(error) or type(error).__name__


def quiet() -> None:
    """Silences the package's messages about lost connections: the program has its own."""
    for name in ("aio_pika", "aiormq", "pamqp"):
        logging.getLogger(name).setLevel(logging.CRITICAL + 1)
