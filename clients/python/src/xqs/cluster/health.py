"""`/health` and `/metrics` of a node by HTTP: for load balancers, Kubernetes and Prometheus.

The answers only report, and have no documents in them, so other machines may ask too. The loop that
serves clients gives them: if it hangs, nothing is answered.
"""

import asyncio
import socket
from collections.abc import Callable
from contextlib import suppress

from xqs.cluster.status import Status
from xqs.listening import BACKLOG, PlaceError

SECONDS = 5.0
"""How many seconds the head of a request may take."""
MOST_LINES = 100
_WORDS = {200: "OK", 404: "Not Found", 405: "Method Not Allowed", 503: "Service Unavailable"}
_PLAIN = "text/plain; charset=utf-8"
_METRICS = "text/plain; version=0.0.4; charset=utf-8"


def listener_at(place: str) -> socket.socket:
    """A socket that listens at PORT of loopback, or at HOST:PORT. Raises PlaceError."""
    host, _, port = place.removeprefix("tcp:").rpartition(":")
    host = host.strip("[]") or "127.0.0.1"
    if not port.isdigit() or int(port) > 65535:
        raise PlaceError(f"{place}: not [HOST:]PORT")
    family = socket.AF_INET6 if ":" in host else socket.AF_INET
    try:
        return socket.create_server((host, int(port)), family=family, backlog=BACKLOG)
    except OSError as error:
        raise PlaceError(f"{place}: {error.strerror or error}") from error


async def serve(
    status: Callable[[], Status], reader: asyncio.StreamReader, writer: asyncio.StreamWriter
) -> None:
    """Answers one request, and ends its connection."""
    try:
        with suppress(OSError, ValueError, TimeoutError):
            async with asyncio.timeout(SECONDS):
                method, path = await _head(reader)
                writer.write(_answer(status(), method, path))
                await writer.drain()
    finally:
        writer.close()


async def _head(reader: asyncio.StreamReader) -> tuple[str, str]:
    """The method and path of a request. Raises ValueError if it is none."""
    method, path, _ = (await reader.readline()).decode("latin-1").split()
    for _ in range(MOST_LINES):
        if not (await reader.readline()).strip():
            return method, path.partition("?")[0]
    raise ValueError("a head of too many lines")


def _answer(status: Status, method: str, path: str) -> bytes:
    if method not in ("GET", "HEAD", "OPTIONS"):
        return _reply(405, _PLAIN, "GET and HEAD alone\n", method)
    if path == "/health":
        number = 200 if status.is_following else 503
        return _reply(number, _PLAIN, f"{status.state}\n", method)
    if path == "/metrics":
        return _reply(200, _METRICS, status.metrics(), method)
    if path in ("/", "/status"):
        return _reply(200, _PLAIN, status.lines() + "\n", method)
    return _reply(404, _PLAIN, "there are /health, /metrics and /status\n", method)


def _reply(number: int, kind: str, text: str, method: str) -> bytes:
    body = text.encode()
    head = (f"HTTP/1.1 {number} {_WORDS[number]}\r\nContent-Type: {kind}\r\nContent-Length: "
            f"{len(body)}\r\nConnection: close\r\nCache-Control: no-store\r\n\r\n")
    return head.encode() + (b"" if method == "HEAD" else body)
