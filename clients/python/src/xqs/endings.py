"""What happens to the requests under way when the stream to a server ends, and how the client goes
on.

The server answers one request after another. A server that was started here may have carried out
only the oldest of them; a server at a socket may have carried out any. A request that only reads is
sent again if nothing is lost by that. A change is never sent again.
"""

import time
from collections.abc import Iterator, Sequence
from dataclasses import dataclass
from enum import Enum
from typing import Generic

from xqs.bounds import Bounds, lost, named, overdue
from xqs.endpoints import Command, Endpoint
from xqs.errors import Closed, Lost, NotStarted, TimedOut, Unknown, XqError
from xqs.in_use import UNSTARTED
from xqs.requests import SHOWN, F, Waiting
from xqs.starting import is_on_file

GRACE = 0.2
"""How many seconds a server may work on a request that nobody waits for, before it is ended."""
RETRY_SECONDS = 5.0
"""For how many seconds a socket is tried again after its stream ended during requests."""
RETRY_DELAY = 0.1
END_PATIENCE = 60.0
"""How many seconds to wait for the end of a stream after the last request."""
ASK = "it may have been carried out, or not: ask for the document before you send it again"


def retry_delays() -> Iterator[float]:
    """The seconds to wait before each try of a socket, until the tries end."""
    yield 0.0
    yield RETRY_DELAY / 4
    end = time.monotonic() + RETRY_SECONDS
    while time.monotonic() < end:
        yield RETRY_DELAY


class Cause(Enum):
    """Why a stream ended."""

    ITSELF = "the stream ended"
    OVERDUE = "the server took too long for a request"
    ABANDONED = "nobody waits for the reply any more"
    CLOSED = "the connection was closed"


@dataclass(frozen=True)
class Origin:
    """Where a stream comes from, so that another one can be made."""

    place: Endpoint
    bounds: Bounds

    @property
    def is_started(self) -> bool:
        """Whether the server is started here, and so can be ended."""
        return isinstance(self.place, Command)

    @property
    def keeps(self) -> bool:
        """Whether a server that is started here has its documents in a file, by its command."""
        return isinstance(self.place, Command) and is_on_file(self.place.words)


@dataclass
class Ended(Generic[F]):
    """What happens to the requests: those to send `again`, and those that `failed`."""

    again: list[Waiting[F]]
    failed: list[tuple[Waiting[F], XqError]]

    def settle(self) -> None:
        """Settles the failed requests with their errors."""
        for waiting, error in self.failed:
            waiting.fail(error)

    def fail_all(self, why: str) -> None:
        """Makes the requests fail that waited to be sent again."""
        self.failed += [(it, _closed(it, why)) for it in self.again]
        self.again = []


def after_end(cause: Cause, why: str, origin: Origin | None, waiting: Sequence[Waiting[F]],
              missing: set[str]) -> Ended[F]:
    """What happens to the waiting requests, oldest first. `missing` are the addresses of documents
    that the next server no longer has."""
    if origin is None or cause is Cause.CLOSED or (cause is Cause.ITSELF and origin.is_started):
        return Ended([], [(it, _closed(it, why)) for it in waiting])
    result: Ended[F] = Ended([], [])
    for number, it in enumerate(waiting):
        error = _fate(cause, number == 0, origin, it, missing)
        if error is not None:
            result.failed.append((it, error))
        elif not it.is_dead:
            it.is_repeated = it.is_repeated or cause is Cause.ITSELF
            result.again.append(it)
    return result


def _fate(cause: Cause, is_front: bool, origin: Origin, waiting: Waiting[F],
          missing: set[str]) -> XqError | None:
    """The error of a request; None if it may be sent again, or if nobody waits for it."""
    shown = waiting.request.shown[:SHOWN]
    if is_front and cause is Cause.OVERDUE:
        return TimedOut(f"the request {told(waiting, missing)} (it was: {shown})")
    if waiting.is_dead:
        return None
    if missing:
        return Lost(f"{lost(missing) if origin.is_started else gone(missing)}; not carried out: "
                    f"{shown}")
    if origin.is_started:
        return None
    if waiting.request.changes:
        return Unknown(f"the stream ended before the reply to: {shown}; {ASK}")
    if waiting.is_repeated:
        return Closed(f"the stream ended twice before the reply to: {shown}")
    return None


def told(waiting: Waiting[F], missing: set[str]) -> str:
    """The message about a request whose server was ended."""
    said = overdue(waiting.seconds or 0) + "; the server was ended, and is started again"
    if missing:
        return f"{said}; {lost(missing)}"
    return f"{said}; {ASK}" if waiting.request.changes else said


def gone(missing: set[str]) -> str:
    """The message about documents that a server at a socket no longer has after a break."""
    return ("the stream ended, and the server no longer has documents that were stored here: "
            f"{named(missing)}")


def _closed(waiting: Waiting[F], why: str) -> Closed:
    if why.startswith(UNSTARTED):
        return NotStarted(why)
    shown = waiting.request.shown[:SHOWN]
    kind = Unknown if waiting.request.changes else Closed
    return kind(f"{why} before the reply to: {shown}")


def may_end(origin: Origin | None, is_closing: bool, stored: bool, has_changes: bool) -> bool:
    """Whether a stream may be ended because of a request that nobody waits for: only if nothing is
    lost by that.

    `stored` says that documents were stored, `has_changes` that a change is under way.
    """
    if is_closing:
        return True
    if origin is None:
        return False
    return (origin.keeps or not stored) if origin.is_started else not has_changes
