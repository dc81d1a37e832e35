"""The client for asyncio. Methods, results and errors are those of `client.Client`."""

import asyncio
from collections.abc import AsyncIterator
from types import TracebackType

from xqs.aio_link import AsyncLink
from xqs.aio_streams import AsyncStream, open_async_stream
from xqs.bounds import SECONDS
from xqs.client import INTERRUPTS, bounds_for
from xqs.endings import Origin
from xqs.endpoints import Where, endpoint
from xqs.errors import TimedOut, XqError
from xqs.prefixed import asked, told
from xqs.requests import (
    LIST,
    SHOWN,
    Addresses,
    Items,
    Request,
    addresses_of,
    drop_of,
    query_of,
    store_of,
)
from xqs.served import asked_at
from xqs.temporary import check_lasting
from xqs.values import Item, items, values
from xqs.xml_out import KEEP


class AsyncClient:
    """A connection to a server. Any number of tasks of one loop may use it at once.

    A task that is cancelled, for example by `asyncio.timeout`, is free at once. `client.Client`
    says what happens to its request.
    """

    def __init__(
        self, stream: AsyncStream, origin: Origin | None = None, seconds: float | None = None
    ) -> None:
        """`origin` makes the next stream when this one ends. `seconds` is how long the server may
        take for one request."""
        self._origin, self._seconds = origin, seconds
        self._link = AsyncLink(stream, origin)

    def __repr__(self) -> str:
        place = f"to {self._origin.place}" if self._origin else "over a stream"
        return f"<xqs.aio.AsyncClient {place}{'' if self._link.stream else ', ended'}>"

    @property
    def process(self) -> asyncio.subprocess.Process | None:
        """The process that was started for the connection, if any."""
        return self._link.stream.process if self._link.stream else None

    async def request(self, request: Request, timeout: float | None = None) -> str:
        """Sends a request and returns the text of its reply."""
        if not timeout:
            return await self._link.ask(request, self._seconds if timeout is None else None)
        bound = self._seconds if self._seconds is None else max(self._seconds, timeout)
        try:
            async with asyncio.timeout(timeout):
                return await self._link.ask(request, bound)
        except TimeoutError as error:
            if isinstance(error, XqError):
                raise
            shown = request.shown[:SHOWN]
            raise TimedOut(f"no reply within {timeout:g} seconds to: {shown}") from None

    async def query_text(
        self, query: str, *, timeout: float | None = None, names: str = KEEP
    ) -> str:
        """The value of a query, as the server prints it. With `names="flat"` the query and its
        value have prefixes, over documents that were stored with flat names."""
        return told(await self.request(query_of(asked(query, names)), timeout), names)

    async def query(
        self, query: str, *, timeout: float | None = None, names: str = KEEP
    ) -> Items:
        """The items of a query's value; `names` as in `query_text`."""
        return values(await self.query_text(query, timeout=timeout, names=names))

    async def iterate(
        self, query: str, *, timeout: float | None = None, names: str = KEEP
    ) -> AsyncIterator[Item]:
        """The items of a query's value one by one; `names` as in `query_text`."""
        for item in items(await self.query_text(query, timeout=timeout, names=names)):
            yield item

    async def store(self, address: str, query: str, *, timeout: float | None = None) -> bool:
        """Stores the document that the query gives. Returns whether it replaced another one."""
        check_lasting(address)
        return await self.request(store_of(address, query), timeout) == "replaced"

    async def drop(self, address: str, *, timeout: float | None = None) -> None:
        """Drops the document."""
        await self.request(drop_of(address), timeout)

    async def list(self, *, timeout: float | None = None) -> Addresses:
        """All addresses, in the order of their bytes."""
        return addresses_of(await self.request(LIST, timeout))

    async def close(self) -> int | None:
        """Ends the connection when all replies have come. Returns the exit status of a command that
        was started, else None."""
        return await self._link.finish()

    async def kill(self) -> None:
        """Ends the connection at once, and a command that was started for it."""
        await self._link.kill()

    async def __aenter__(self) -> "AsyncClient":
        return self

    async def __aexit__(
        self,
        kind: type[BaseException] | None,
        error: BaseException | None,
        trace: TracebackType | None,
    ) -> None:
        if kind is not None and issubclass(kind, (*INTERRUPTS, asyncio.CancelledError)):
            await self.kill()
        else:
            await self.close()


async def connect(
    where: Where, *, timeout: float | None = SECONDS, memory: int | None = None
) -> AsyncClient:
    """Connects to a server; arguments and errors are those of `client.connect`."""
    bounds = bounds_for(timeout, memory)
    place = await asyncio.to_thread(asked_at, endpoint(where))
    try:
        async with asyncio.timeout(bounds.seconds):
            stream = await open_async_stream(place, bounds)
    except TimeoutError as error:
        raise TimedOut(f"{place}: no connection within {bounds.seconds:g} seconds") from error
    return AsyncClient(stream, Origin(place, bounds), bounds.seconds)
