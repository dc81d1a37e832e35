"""Connections of HTTP, with a time limit for each head of a request, and a limit for their number.

aiohttp waits for the rest of a head without limit. So its protocol is wrapped: the handlers tell
the wrapper when a request has come whole, and it closes a connection on which none does.
"""

import asyncio
from collections.abc import Callable, Iterator
from contextlib import contextmanager
from typing import TypeAlias, cast

from aiohttp import web

from xqs.web_guard import CHANGES

FULL = (
    b"HTTP/1.1 503 Service Unavailable\r\nContent-Length: 42\r\nContent-Type: text/plain\r\n"
    b"Retry-After: 1\r\nXqs-Code: xqs:FULL\r\nConnection: close\r\n\r\n"
    b"xqs:FULL: there are too many connections.\n"
)
Inner: TypeAlias = asyncio.Protocol
MOST_WAITS = 5
"""How many times the limit for a head is extended while the answer before it is still being
sent."""


class Connections:
    """All connections: at most `most` at once, each with `wait` seconds for a head.

    If there are too many, the one that has waited longest for a request is closed, and if all are
    busy, the newest is refused.
    """

    def __init__(self, inner: Callable[[], Inner], most: int, wait: float) -> None:
        self._inner = inner
        self._most, self.wait = most, wait
        self._idle: dict[Connection, None] = {}
        self._all: set[Connection] = set()

    def __call__(self) -> "Connection":
        """The protocol of a new connection, for `loop.create_server`."""
        return Connection(self, self._inner())

    def begin(self, connection: "Connection") -> bool:
        """A connection begins. Returns whether there is room for it."""
        if len(self._all) >= self._most and self._idle:
            longest = next(iter(self._idle))
            self.end(longest)
            longest.abort()
        self._all.add(connection)
        self._idle[connection] = None
        return len(self._all) <= self._most

    def set_busy(self, connection: "Connection", is_busy: bool) -> None:
        """A request has come whole, or its answer has left."""
        self._idle.pop(connection, None)
        if not is_busy:
            self._idle[connection] = None

    def end(self, connection: "Connection") -> None:
        """A connection has ended."""
        self._idle.pop(connection, None)
        self._all.discard(connection)


class Connection(asyncio.Protocol):
    """One connection, in front of the protocol that reads and answers its requests."""

    def __init__(self, connections: Connections, inner: Inner) -> None:
        self._connections, self._inner = connections, inner
        self._transport: asyncio.Transport | None = None
        self._timer: asyncio.TimerHandle | None = None
        self._is_refused = self._has_ended = False
        self._task: asyncio.Task[object] | None = None
        self._waits = 0

    def connection_made(self, transport: asyncio.BaseTransport) -> None:
        """asyncio calls this and the methods below."""
        self._transport = cast(asyncio.Transport, transport)
        if not self._connections.begin(self):
            self._is_refused = True
            self._transport.write(FULL)
            self._transport.close()
            return
        self._inner.connection_made(transport)
        self._await_head()

    def data_received(self, data: bytes) -> None:
        """Bytes have come. Hands them to the inner protocol, unless the connection is refused."""
        if not self._is_refused:
            self._inner.data_received(data)

    def eof_received(self) -> bool | None:
        """The client sends no more. Tells the inner protocol, unless the connection is refused.

        Returns whether the connection stays open; asyncio closes it for None.
        """
        return None if self._is_refused else self._inner.eof_received()

    def pause_writing(self) -> None:
        """The send buffer is full. Tells the inner protocol, unless the connection is refused."""
        if not self._is_refused:
            self._inner.pause_writing()

    def resume_writing(self) -> None:
        """The send buffer has room again. Tells the inner protocol, unless the connection is
        refused."""
        if not self._is_refused:
            self._inner.resume_writing()

    def connection_lost(self, error: Exception | None) -> None:
        """The connection has ended, by an error or by either end.

        Stops the timer, makes room for another connection, and cancels a request that ends with
        its client. Tells the inner protocol, unless the connection is refused.
        """
        self._has_ended = True
        self._stop_waiting()
        self._connections.end(self)
        if self._task:
            self._task.cancel()
        if not self._is_refused:
            self._inner.connection_lost(error)

    def abort(self) -> None:
        """Ends the connection at once."""
        if self._transport:
            self._transport.abort()

    @contextmanager
    def request(self, ends_with_client: bool) -> Iterator[None]:
        """A context in which a request is handled, so that no head is expected.

        If the request ends with its client, its task is cancelled when the connection is lost.
        """
        self._stop_waiting()
        self._connections.set_busy(self, True)
        self._task = asyncio.current_task() if ends_with_client else None
        try:
            yield
        finally:
            self._task = None
            if not self._has_ended:
                self._connections.set_busy(self, False)
                self._await_head()

    def _await_head(self) -> None:
        self._stop_waiting()
        self._waits = 0
        self._wait()

    def _wait(self) -> None:
        loop = asyncio.get_running_loop()
        self._timer = loop.call_later(self._connections.wait, self._head_is_late)

    def _head_is_late(self) -> None:
        """Ends the connection, unless the end of an answer is still being sent."""
        is_sending = self._transport and self._transport.get_write_buffer_size() > 0
        if is_sending and self._waits < MOST_WAITS:
            self._waits += 1
            self._wait()
        else:
            self.abort()

    def _stop_waiting(self) -> None:
        if self._timer:
            self._timer.cancel()
            self._timer = None


@contextmanager
def at_work(request: web.Request) -> Iterator[None]:
    """A context in which a request is handled, so that its connection isn't closed to make room.

    A request that changes nothing ends with its client.
    """
    transport = request.transport
    connection = transport.get_protocol() if transport else None
    if not isinstance(connection, Connection):
        yield
        return
    with connection.request(request.method not in CHANGES):
        yield
