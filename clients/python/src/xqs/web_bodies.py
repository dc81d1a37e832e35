"""Bodies of requests: their media types and character sets, and the time that they may take."""

import asyncio
import io
import time
from typing import BinaryIO

from aiohttp import web

from xqs import protocol
from xqs.web_charset import known_charset
from xqs.web_forms import TEXT_XML, XML, XQUERY
from xqs.web_status import HttpRefusal

LEAST_RATE = 1024
"""The least rate, in bytes a second, of a body or an answer over its whole time."""


def media_type(request: web.Request, others: tuple[str, ...] = ()) -> str:
    """XML or XQUERY, by the Content-Type of a request; XML if there is none.

    Raises HttpRefusal 415 for a type that is not in `others` either, and for a compressed body.
    """
    kind: str = request.content_type if "Content-Type" in request.headers else XML
    coding = request.headers.get("Content-Encoding", "identity")
    if coding.lower() != "identity":
        raise HttpRefusal(415, "xqs:TYPE", f"a body is sent as it is, not as {coding}")
    if kind == XQUERY or kind in others:
        return kind
    if kind in (XML, TEXT_XML) or kind.endswith("+xml"):
        return XML
    raise HttpRefusal(415, "xqs:TYPE", f"a body is {XML} or {XQUERY}, not {kind}")


def charset_of(request: web.Request) -> str | None:
    """The character set in the Content-Type of a request, if there is one.

    Raises HttpRefusal 415 if it is unknown.
    """
    return known_charset(request.charset) if request.charset else None


async def receive(request: web.Request, body: BinaryIO, most: int, wait: float) -> None:
    """Reads the body of a request into a file, within limits of size and time.

    Raises HttpRefusal 413 above `most` bytes, and 408 if nothing comes for `wait` seconds, or less
    than LEAST_RATE over the whole time.
    """
    size, begin = request.content_length or 0, time.monotonic()
    while size <= most:
        left = min(wait, wait + body.tell() / LEAST_RATE - (time.monotonic() - begin))
        try:
            piece = await asyncio.wait_for(request.content.readany(), max(left, 0))
        except asyncio.TimeoutError:
            raise HttpRefusal(408, "xqs:SLOW", "the rest of the body has not come") from None
        if not piece:
            return
        body.write(piece)
        size = body.tell()
    raise HttpRefusal(413, "xqs:LARGE", f"the body has more than {most} bytes")


async def received_query(request: web.Request, wait: float) -> bytes:
    """The body of a request, as the text of a query."""
    body = io.BytesIO()
    await receive(request, body, protocol.MAX_REQUEST, wait)
    return body.getvalue()
