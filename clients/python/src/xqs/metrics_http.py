"""The figures of a multiplexer by HTTP: `/metrics` for Prometheus, and a page of lines."""

import asyncio
import html
from collections.abc import Callable
from contextlib import suppress

from xqs.metrics import CONTENT_TYPE

SECONDS = 10.0
"""How many seconds a request's head may take."""
MOST_LINES = 100
NAMES = ("127.0.0.1", "localhost", "[::1]")
"""The host names that a request may use; a page under another name that points here is refused."""

PAGE = """<!doctype html><html lang="en"><meta charset="utf-8"><title>xqs mux</title>
<meta http-equiv="refresh" content="5"><style>:root{{color-scheme:light dark}}
body{{font:1rem/1.5 system-ui;margin:2rem}}</style><h1>xqs mux</h1>
<pre>{}</pre><p><a href="/metrics">/metrics</a></p></html>
"""


def page_of(text: str) -> str:
    """A page that shows lines."""
    return PAGE.format(html.escape(text))


class MetricsServer:
    """Answers `GET /metrics`, and `GET /` with the lines of `status`."""

    def __init__(self, metrics: Callable[[], str], status: Callable[[], str]) -> None:
        self._metrics, self._status = metrics, status

    async def serve(self, reader: asyncio.StreamReader, writer: asyncio.StreamWriter) -> None:
        """Answers one request of a connection, and ends the connection."""
        try:
            with suppress(OSError, ValueError, asyncio.IncompleteReadError, TimeoutError):
                async with asyncio.timeout(SECONDS):
                    method, path, host = await _head(reader)
                    writer.write(self._answer(method, path, host))
                    await writer.drain()
        finally:
            writer.close()

    def _answer(self, method: str, path: str, host: str) -> bytes:
        if host.rpartition(":")[0] not in NAMES and host not in NAMES:
            return _reply(403, "text/plain", "not a name of this machine\n", method)
        if method not in ("GET", "HEAD"):
            return _reply(405, "text/plain", "GET and HEAD alone\n", method)
        if path == "/metrics":
            return _reply(200, CONTENT_TYPE, self._metrics(), method)
        if path in ("/", "/status"):
            return _reply(200, "text/html; charset=utf-8", page_of(self._status()), method)
        return _reply(404, "text/plain", "there are / and /metrics\n", method)


async def _head(reader: asyncio.StreamReader) -> tuple[str, str, str]:
    """The method, path and host of a request. Raises ValueError if it is none."""
    method, path, _ = (await reader.readline()).decode("latin-1").split()
    host = ""
    for _ in range(MOST_LINES):
        name, _, value = (await reader.readline()).decode("latin-1").strip().partition(":")
        if not name:
            return method, path.partition("?")[0], host
        if name.lower() == "host":
            host = value.strip()
    raise ValueError("a head of too many lines")


def _reply(status: int, kind: str, text: str, method: str) -> bytes:
    words = {200: "OK", 403: "Forbidden", 404: "Not Found", 405: "Method Not Allowed"}
    body = text.encode()
    head = (f"HTTP/1.1 {status} {words[status]}\r\nContent-Type: {kind}\r\n"
            f"Content-Length: {len(body)}\r\nConnection: close\r\nCache-Control: no-store\r\n"
            "X-Content-Type-Options: nosniff\r\nContent-Security-Policy: default-src 'none'; "
            "style-src 'unsafe-inline'\r\n\r\n")
    return head.encode() + (b"" if method == "HEAD" else body)
