"""When a server takes too long for a request, and whether it may be ended: for the links of threads
and of asyncio."""

import time
from typing import Generic

from xqs.endings import END_PATIENCE, GRACE, Cause, Ended, Origin, may_end
from xqs.endpoints import Command
from xqs.errors import TimedOut
from xqs.in_use import ended_at_start
from xqs.requests import PROBE, SHOWN, F, InFlight, Waiting
from xqs.starting import how_ended

SOCKET_SHARE = 1.05
"""How many times a request's time the client waits at a socket, whose server has the same bound."""


class Watch(Generic[F]):
    """Watches the requests under way; the server works on the oldest one."""

    def __init__(self, origin: Origin | None) -> None:
        self.origin = origin
        self.in_flight: InFlight[F] = InFlight()
        self.closing: float | None = None
        """Since when no more requests are taken; None before."""
        self.is_forced = False
        """Whether to end the server although documents are lost by that."""
        self.ended = ""
        """Why no more requests are taken; empty before."""

    @property
    def is_started(self) -> bool:
        """Whether the server was started here."""
        return self.origin is not None and self.origin.is_started

    @property
    def is_losing(self) -> bool:
        """Whether documents would be lost if the server ended now."""
        origin = self.origin
        return origin is not None and origin.is_started and not origin.keeps and bool(
            self.in_flight.stored)

    @property
    def is_busy(self) -> bool:
        """Whether a request is under way."""
        return not self._is_idle()

    def close(self) -> None:
        """Takes no more requests from now on."""
        self.closing = self.closing or time.monotonic()

    def probes(self, future: F) -> list[Waiting[F]]:
        """The first request to a server that is started. It may take any time, since the server may
        have to be built first, and no other request's time runs before its reply."""
        return [Waiting(PROBE, future, None)] if self.is_started else []

    def deadline(self) -> float | None:
        """The latest time to look again.

        If nothing is under way, that is after the time that a request may take: a request that
        begins meanwhile wakes nobody, and can't be due earlier.
        """
        front = self.in_flight.front()
        if front is None or (front.request is PROBE and self._is_idle()):
            if self.closing is not None:
                return self.closing + END_PATIENCE
            seconds = self.origin.bounds.seconds if self.origin is not None else None
            return None if seconds is None else time.monotonic() + seconds
        if front.is_dead and self._may_end():
            return self.in_flight.due(GRACE)
        if front.is_dead and not front.future.cancelled():
            return None
        return self.in_flight.due(self._bound(front))

    def _bound(self, front: Waiting[F]) -> float | None:
        """How many seconds the server may take for the request; a server at a socket is given a
        little more, so that it can say first that it took too long."""
        if front.seconds is None or self.is_started:
            return front.seconds
        return front.seconds * SOCKET_SHARE

    def due(self) -> Cause | None:
        """Why the stream must be ended now; None if it need not.

        At a socket a request that is due fails here: its server belongs to somebody else.
        """
        now, front = time.monotonic(), self.in_flight.front()
        if front is None or self._is_idle():
            is_late = self.closing is not None and now >= self.closing + END_PATIENCE
            return Cause.CLOSED if is_late else None
        if front.is_dead and self._may_end() and now >= (self.in_flight.due(GRACE) or now):
            return Cause.ABANDONED
        due = self.in_flight.due(self._bound(front))
        if due is None or now < due:
            return None
        if self.is_started:
            return Cause.OVERDUE
        shown = front.request.shown[:SHOWN]
        front.fail(TimedOut(f"no reply for {front.seconds:g} seconds; the server may still work "
                            f"on it (the request was: {shown})"))
        return None

    def told_end(self, cause: Cause, why: str, waiting: list[Waiting[F]],
                 status: int | None) -> str:
        """Why a stream ended, with the reason why the server did not start if it never answered."""
        origin = self.origin
        is_unbegun = any(it.request is PROBE for it in waiting) and cause is Cause.ITSELF
        if not is_unbegun or origin is None or not isinstance(origin.place, Command):
            return why
        if self.closing is not None and all(it.request is PROBE for it in waiting):
            return why
        return ended_at_start(origin.place.words, how_ended(status))

    def wants_stream(self, cause: Cause, ended: Ended[F]) -> bool:
        """Whether another stream must follow at once. If none does, and none can follow later, no
        more requests are taken."""
        if self.ended or cause is Cause.CLOSED:
            return False
        is_ended_here = cause in (Cause.OVERDUE, Cause.ABANDONED) and self.is_started
        return bool(ended.again) or (is_ended_here and self.closing is None)

    def end_for_good(self, why: str) -> None:
        """Notes that a stream has ended without a successor, unless one can follow later."""
        if self.origin is None or self.is_started or self.closing is not None:
            self.ended = self.ended or why

    def _is_idle(self) -> bool:
        """Whether no reply but that of the probe is under way."""
        front = self.in_flight.front()
        return front is None or (front.request is PROBE and len(self.in_flight) == 1)

    def _may_end(self) -> bool:
        it = self.in_flight
        return self.is_forced or may_end(
            self.origin, self.closing is not None, bool(it.stored), it.has_changes())
