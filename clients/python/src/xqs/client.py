"""The client for threads. `aio` has the same for asyncio."""

import time
from collections.abc import Iterator
from types import TracebackType

from xqs import control
from xqs.bounds import SECONDS, Bounds, half_of_memory
from xqs.endings import Origin
from xqs.endpoints import Command, Endpoint, Where, endpoint
from xqs.errors import TimedOut, XqError
from xqs.link import Link
from xqs.prefixed import asked, told
from xqs.requests import (
    LIST,
    SHOWN,
    Addresses,
    Items,
    Request,
    TextFuture,
    addresses_of,
    drop_of,
    query_of,
    store_of,
)
from xqs.served import asked_at
from xqs.streams import Stream, open_stream
from xqs.temporary import check_lasting
from xqs.values import Item, items, values
from xqs.xml_out import KEEP

INTERRUPTS = (KeyboardInterrupt, SystemExit, TimeoutError)
"""Exceptions that end a connection at once when they leave a `with`."""


class Client:
    """A connection to a server. Any number of threads may use it at once.

    Methods that end in `_later` send the request and return a future of its reply's text; the
    others wait. Each may raise Refused, Wanting, Closed or TimedOut. Before anything is sent, each
    raises FrameFault if the request is too long for a frame, and NotAnAddress if an address is
    invalid. All of them are XqErrors.

    `timeout` is how many seconds a call may take in all; 0 is no limit. Without it only the
    connection's bound holds: how long the server may take for one request. A call that is given up,
    or whose future is cancelled, returns at once. If the server was started here, it is then ended
    and started again, unless documents in its memory would be lost.
    """

    def __init__(
        self, stream: Stream, origin: Origin | None = None, seconds: float | None = None
    ) -> None:
        """`origin` makes the next stream when this one ends. `seconds` is how long the server may
        take for one request."""
        self._origin, self._seconds = origin, seconds
        self._link = Link(stream, origin)

    def __repr__(self) -> str:
        place = f"to {self._origin.place}" if self._origin else "over a stream"
        return f"<xqs.Client {place}{'' if self._link.stream else ', ended'}>"

    def state_of(self, address: str) -> str | None:
        """A token that stays the same as long as nobody changes the document at the address. None
        if that is unknown, as at a socket without a multiplexer of this user."""
        if isinstance(self.place, Command):
            return self._link.changes.token(address.encode())
        if self.place is None:
            return None
        try:
            [token] = control.ask(str(self.place), f"changes {address}")
        except (XqError, OSError, ValueError):
            return None
        return token

    @property
    def has_server(self) -> bool:
        """Whether the server was started here, so that nobody else can ask it."""
        return isinstance(self.place, Command)

    @property
    def place(self) -> Endpoint | None:
        """Where the server is; None if the caller gave the stream."""
        return self._origin.place if self._origin else None

    def request_later(self, request: Request) -> TextFuture:
        """Sends a request; the future gives the text of its reply.

        Waits while the server's pipe is full. Raises Closed if the stream has ended.
        """
        return self._link.send(request, self._seconds)

    def request(self, request: Request, timeout: float | None = None) -> str:
        """Sends a request and returns the text of its reply."""
        if not timeout:
            seconds = self._seconds if timeout is None else None
            return _awaited(self._link.send(request, seconds))
        end = time.monotonic() + timeout
        bound = self._seconds if self._seconds is None else max(self._seconds, timeout)
        future = self._link.send(request, bound, end)
        try:
            return _awaited(future, max(end - time.monotonic(), 0))
        except TimeoutError as error:
            if isinstance(error, XqError):
                raise
            shown = request.shown[:SHOWN]
            raise TimedOut(f"no reply within {timeout:g} seconds to: {shown}") from None

    def query_text_later(self, query: str) -> TextFuture:
        """Asks for the value of a query, as the server prints it."""
        return self.request_later(query_of(query))

    def store_later(self, address: str, query: str) -> TextFuture:
        """Asks to store the document that the query gives."""
        check_lasting(address)
        return self.request_later(store_of(address, query))

    def drop_later(self, address: str) -> TextFuture:
        """Asks to drop the document."""
        return self.request_later(drop_of(address))

    def query_text(
        self, query: str, *, timeout: float | None = None, names: str = KEEP
    ) -> str:
        """The value of a query, as the server prints it. With `names="flat"` the query and its
        value have prefixes, over documents that were stored with flat names."""
        return told(self.request(query_of(asked(query, names)), timeout), names)

    def query(
        self, query: str, *, timeout: float | None = None, names: str = KEEP
    ) -> Items:
        """The items of a query's value; `names` as in `query_text`."""
        return values(self.query_text(query, timeout=timeout, names=names))

    def iterate(
        self, query: str, *, timeout: float | None = None, names: str = KEEP
    ) -> Iterator[Item]:
        """The items of a query's value one by one; `names` as in `query_text`."""
        return items(self.query_text(query, timeout=timeout, names=names))

    def store(self, address: str, query: str, *, timeout: float | None = None) -> bool:
        """Stores the document that the query gives. Returns whether it replaced another one."""
        check_lasting(address)
        return self.request(store_of(address, query), timeout) == "replaced"

    def drop(self, address: str, *, timeout: float | None = None) -> None:
        """Drops the document."""
        self.request(drop_of(address), timeout)

    def list(self, *, timeout: float | None = None) -> Addresses:
        """All addresses, in the order of their bytes."""
        return addresses_of(self.request(LIST, timeout))

    @property
    def is_losing(self) -> bool:
        """Whether documents that were stored here would be lost if the server ended now."""
        return self._link.watch.is_losing

    @property
    def is_ended(self) -> bool:
        """Whether this connection takes no more requests."""
        return bool(self._link.watch.ended)

    @property
    def is_busy(self) -> bool:
        """Whether a request is under way, even one that nobody waits for."""
        return self._link.watch.is_busy

    def restart(self) -> set[str]:
        """Ends the server that was started here, with its current request, and starts another one.
        Returns the addresses of the documents that were lost with its memory."""
        return self._link.restart()

    def close(self) -> int | None:
        """Ends the connection when all replies have come.

        Returns the exit status of a command that was started, else None.
        """
        return self._link.finish()

    def kill(self) -> None:
        """Ends the connection at once, and a command that was started for it."""
        self._link.kill()

    def __enter__(self) -> "Client":
        return self

    def __exit__(
        self,
        kind: type[BaseException] | None,
        error: BaseException | None,
        trace: TracebackType | None,
    ) -> None:
        if kind is not None and issubclass(kind, INTERRUPTS):
            self.kill()
        else:
            self.close()


def _awaited(future: TextFuture, timeout: float | None = None) -> str:
    """The result of a future, which is cancelled if the wait is given up."""
    try:
        return future.result(timeout)
    except TimeoutError:
        if future.cancel() or future.exception():
            raise
        return future.result()  # The result came in between.
    except BaseException:
        future.cancel()
        raise


def connect(
    where: Where, *, timeout: float | None = SECONDS, memory: int | None = None
) -> Client:
    """Connects to a server: `unix:PATH`, `tcp:PORT`, `tcp:HOST:PORT`, or a command to start.

    A command is one text, as a shell reads it, or a list of words. If it names a file that `xqs
    serve` serves, the client connects to that server and starts nothing. `timeout` is how many
    seconds the server may take for one request. `memory` is how many bytes a started server may
    use, by default half of the machine's. 0 is no bound. Raises NotConnected (an OSError) if
    nothing listens there, or if the socket beside the file serves another file; NoPlace (a
    ValueError) if `where` is no such place.
    """
    bounds = bounds_for(timeout, memory)
    place = asked_at(endpoint(where))
    stream = open_stream(place, bounds, bounds.seconds)
    return Client(stream, Origin(place, bounds), bounds.seconds)


def bounds_for(timeout: float | None, memory: int | None) -> Bounds:
    """The bounds in the library's arguments. Raises NoBound if they are none."""
    return Bounds(timeout or None, half_of_memory() if memory is None else memory or None)
