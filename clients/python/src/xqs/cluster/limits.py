"""Time limits for requests to a broker: no wait for one is endless."""

import asyncio
from collections.abc import Coroutine
from typing import Any, TypeVar

from xqs.cluster.log import Away

T = TypeVar("T")


class NoAnswer(Away):
    """A request took longer than its limit."""


async def within(seconds: float, work: Coroutine[Any, Any, T]) -> T:
    """The result of the work. Raises NoAnswer if it takes longer, Away if it is cancelled
    elsewhere.

    Nobody waits for the work then, since a package that waits for a dead connection may not end
    when it is cancelled.
    """
    task = asyncio.ensure_future(work)
    try:
        done, _ = await asyncio.wait((task,), timeout=seconds)
    except asyncio.CancelledError:
        _leave(task)
        raise
    if not done:
        _leave(task)
        raise NoAnswer(f"no answer for {seconds:g} seconds")
    if task.cancelled():
        raise Away("the connection was closed")
    return task.result()


def _leave(task: "asyncio.Future[Any]") -> None:
    """Cancels work that nobody waits for any more, and looks at its result."""
    task.add_done_callback(lambda it: it.cancelled() or it.exception())
    task.cancel()


class Pauses:
    """Pauses between tries, each twice as long as the one before it, up to the longest."""

    def __init__(self, first: float, longest: float) -> None:
        self._first, self._longest = first, longest
        self._next = first

    def begin_anew(self) -> None:
        """After success: the next pause is the first one again."""
        self._next = self._first

    async def pause(self) -> None:
        """Waits, and doubles the next pause."""
        seconds, self._next = self._next, min(self._longest, 2 * self._next)
        await asyncio.sleep(seconds)
