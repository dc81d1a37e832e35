"""Requests sent ahead of their replies, up to a number of bytes."""

from collections import deque
from collections.abc import Callable
from concurrent.futures import Future

WINDOW_BYTES = 8_000_000
"""About how many bytes of requests are sent ahead; the server keeps one request in memory, the
others wait in the pipe and here."""

Done = Callable[[Future[str]], None]
"""A function that is called with the future of a request once it is done."""


class Window:
    """Requests under way, oldest first; a sender waits until there is room."""

    def __init__(self, limit: int = WINDOW_BYTES) -> None:
        self._limit = limit
        self._held = 0
        self._waiting: deque[tuple[Future[str], int, Done]] = deque()

    def add(self, future: Future[str], size: int, done: Done) -> None:
        """Adds a request of this many bytes; calls `done` of older ones until there is room."""
        self._waiting.append((future, size, done))
        self._held += size
        while self._held > self._limit and len(self._waiting) > 1:
            self._settle_oldest()

    def poll(self) -> None:
        """Calls `done` of the oldest requests that have their replies."""
        while self._waiting and self._waiting[0][0].done():
            self._settle_oldest()

    def drain(self) -> None:
        """Waits for all requests, and calls `done` of each."""
        while self._waiting:
            self._settle_oldest()

    def _settle_oldest(self) -> None:
        future, size, done = self._waiting.popleft()
        future.exception()
        self._held -= size
        done(future)
