"""Answers on their way to clients that may read slowly, or not at all."""

import asyncio
import time
from collections.abc import Iterator, Mapping
from contextlib import closing, contextmanager
from dataclasses import dataclass

from aiohttp import web

from xqs.web_answers import Body
from xqs.web_bodies import LEAST_RATE
from xqs.web_forms import IN_UTF8
from xqs.web_tags import etag

PIECE = 1 << 16
"""The size of the pieces of an answer, in bytes; each may wait for the client."""


@dataclass(eq=False)
class _Going:
    """An answer on its way, and how many of its bytes have not left."""

    request: web.Request
    left: int

    def cut_off(self) -> None:
        """Ends the connection at once."""
        if self.request.transport:
            self.request.transport.abort()


class Sender:
    """Sends answers; at most `held` bytes of all of them wait for their clients.

    Above that the client with most to read is cut off. So is a client that takes nothing for `wait`
    seconds, or takes less than LEAST_RATE over the whole time.
    """

    def __init__(self, wait: float, held: int) -> None:
        self._wait, self._held = wait, held
        self._going: set[_Going] = set()

    async def send(
        self, request: web.Request, body: Body, headers: Mapping[str, str]
    ) -> web.StreamResponse:
        """Answers with a body, and closes it. Raises ConnectionResetError if the client is cut
        off."""
        with closing(body.bytes):
            size = body.bytes.seek(0, 2)
            body.bytes.seek(0)
            response = web.StreamResponse(headers={**etag(body.tag), **headers})
            response.headers["Content-Type"] = _type_of(body.form)
            response.content_length = size
            await response.prepare(request)
            if request.method != "HEAD":
                with self._counted(_Going(request, size)) as going:
                    await self._write(going, response, body)
            return response

    async def _write(self, going: _Going, response: web.StreamResponse, body: Body) -> None:
        begin, sent = time.monotonic(), 0
        while piece := body.bytes.read(PIECE):
            left = min(self._wait, self._wait + sent / LEAST_RATE - (time.monotonic() - begin))
            try:
                await asyncio.wait_for(response.write(piece), max(left, 0))
            except asyncio.TimeoutError:
                going.cut_off()
                raise ConnectionResetError("the client does not read its answer") from None
            sent += len(piece)
            going.left -= len(piece)
        await response.write_eof()

    @contextmanager
    def _counted(self, going: _Going) -> Iterator[_Going]:
        """A context in which an answer's bytes count with those of the others."""
        self._going.add(going)
        while len(self._going) > 1 and sum(it.left for it in self._going) > self._held:
            slowest = max(self._going, key=lambda it: it.left)
            self._going.discard(slowest)
            slowest.cut_off()
        try:
            yield going
        finally:
            self._going.discard(going)


def _type_of(form: str) -> str:
    """The header Content-Type of a form; JSON and archives have no character set."""
    return f"{form}; charset=utf-8" if form in IN_UTF8 else form
