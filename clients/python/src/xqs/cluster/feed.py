"""The messages of the log after a follower's place, as they come, even when brokers fail."""

import asyncio
import hashlib
from collections.abc import AsyncGenerator, Callable
from contextlib import aclosing

from xqs.cluster import identity
from xqs.cluster.limits import NoAnswer, Pauses
from xqs.cluster.log import Away, CannotFollow, Log
from xqs.cluster.state import State

AGAIN, LONGEST_PAUSE = 0.2, 2.0
"""Seconds before the log is read again after a failure; while it can be reached, each pause
doubles."""
SILENT = 6.0
"""Seconds without a message, even a mark of this node, after which messages are requested anew."""
AT_ONCE = 5.0
"""Seconds in which the last message that was taken must come when it is requested again."""
DIGITS = 16


def digest_of(message: bytes) -> str:
    """A digest that tells a message from any other in its place."""
    return hashlib.sha256(message).hexdigest()[:DIGITS]


class Feed:
    """Messages after a place, from one beginning to the next.

    If none comes for too long, or if the connection ends, they are requested anew from the place
    that was reached, as often as needed. Each time the message at that place is compared with the
    one that was taken there: a log that was created anew has a different one.

    A connection that is up and answers a request no more, or fails twice in a row, is given up: a
    broker may hold a connection and serve nothing over it.
    """

    def __init__(self, name: str, log: Log, say: Callable[[str], None]) -> None:
        self._name = name
        self._log = log
        self._say = say
        self._pauses = Pauses(AGAIN, LONGEST_PAUSE)
        self._failures = 0
        self._broke: float | None = None
        self._was_heard = False

    async def messages(self, state: State) -> AsyncGenerator[tuple[int, bytes], None]:
        """The messages after a state that advances as they are taken. Raises CannotFollow."""
        while True:
            try:
                async with aclosing(self._once(state)) as messages:
                    async for offset, message in messages:
                        yield offset, message
            except Away as error:
                self._note_break(str(error), state)
                if self._log.is_read:
                    self._note_failure(error)
                    await self._pauses.pause()
                else:
                    await asyncio.sleep(AGAIN)

    async def _once(self, state: State) -> AsyncGenerator[tuple[int, bytes], None]:
        """The messages until one is missed; then raises Away. Raises CannotFollow."""
        async with aclosing(self._log.messages(state.offset - 1)) as messages:
            if state.offset >= 0:
                yield await self._first(messages, state)
            while True:
                yield await self._next(messages)

    async def _first(self, messages: AsyncGenerator[tuple[int, bytes], None],
                     state: State) -> tuple[int, bytes]:
        """The message at the state's place, which must be the one that was taken there; or a later
        one, if the log no longer has that."""
        try:
            async with asyncio.timeout(AT_ONCE):
                offset, message = await anext(messages)
                while offset < state.offset:
                    offset, message = await anext(messages)
        except TimeoutError:
            await self._check_end(state)
            raise Away("the message that was taken last did not come") from None
        if offset == state.offset and state.digest not in ("", digest_of(message)):
            raise CannotFollow(await self._made_anew(state, f"at offset {offset} it has another "
                                                            "message"))
        # (an old one doesn't show whether new ones come)
        if offset > state.offset:
            self._note_heard()
        return offset, message

    async def _next(self, messages: AsyncGenerator[tuple[int, bytes], None]) -> tuple[int, bytes]:
        try:
            async with asyncio.timeout(SILENT):
                found = await anext(messages)
        except TimeoutError:
            raise Away(f"nothing came for {SILENT:g} seconds") from None
        self._note_heard()
        return found

    def _note_failure(self, error: Away) -> None:
        """Notes a failure of a connection that is up. It is given up after a second one in a row,
        and at once if a request had no answer."""
        self._failures += 1
        if self._failures > 1 or isinstance(error, NoAnswer):
            self._log.drop_reading(str(error))

    async def _check_end(self, state: State) -> None:
        """Checks that the log reaches this follower's place; otherwise it is a different log."""
        end = await self._log.end_offset()
        if end <= state.offset:
            raise CannotFollow(await self._made_anew(state, f"it ends at offset {end}"))

    async def _made_anew(self, state: State, why: str) -> str:
        now = await identity.of_log(self._log)
        return (f"the log {self._log.name} is {identity.shown(now)}, and {why}; the documents are "
                f"of {state} of the log {identity.shown(state.identity)}: it is not the log that "
                "they followed, or it was made anew")

    def _note_break(self, why: str, state: State) -> None:
        if self._broke is None:
            self._broke = asyncio.get_running_loop().time()
            # (its maker reports that there is no connection)
            if self._log.is_read:
                self._say(f"{self._name}: {why}: the log is followed anew from {state}")

    def _note_heard(self) -> None:
        self._failures = 0
        self._pauses.begin_anew()
        if self._broke is not None and self._was_heard:
            seconds = asyncio.get_running_loop().time() - self._broke
            self._say(f"{self._name}: follows the log again, after {seconds:.1f} s")
        self._broke, self._was_heard = None, True
