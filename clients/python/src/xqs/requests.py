"""Requests under way, by their tags, for the clients of threads and of asyncio."""

import asyncio
import itertools
import time
from concurrent.futures import Future, InvalidStateError
from contextlib import suppress
from dataclasses import dataclass
from typing import Any, Generic, Protocol, TypeAlias, TypeVar

from xqs import protocol
from xqs.errors import Closed, Refused, RefusedAsSlow, Wanting, XqError
from xqs.protocol import Kind, Status
from xqs.values import Item, values

TOO_SLOW = "xqs:SECONDS"
"""The code of a multiplexer's refusal of a request that took too long."""
SHOWN = 60
"""How many characters of a request a message shows."""


@dataclass(frozen=True, slots=True)
class Request:
    """A request: its kind, its body, its description for messages, and the address if it is a
    change."""

    kind: Kind
    body: bytes
    shown: str
    address: str = ""

    @property
    def changes(self) -> bool:
        """Whether it may change documents; any other request can be repeated."""
        return self.kind in (Kind.STORE, Kind.DROP)


def query_of(text: str) -> Request:
    """Asks for the value of a query. Raises NoText if it has no UTF-8."""
    return Request(Kind.QUERY, protocol.utf8(text), text)


def store_of(address: str, text: str) -> Request:
    """Asks to store the document that a query gives. Raises NotAnAddress if the address is
    invalid."""
    return Request(Kind.STORE, protocol.store_body(address, text), f"store {address}", address)


def drop_of(address: str) -> Request:
    """Asks to drop a document. Raises NotAnAddress if the address is invalid."""
    return Request(Kind.DROP, protocol.address_bytes(address), f"drop {address}", address)


LIST = Request(Kind.LIST, b"", "list")
PROBE = query_of("()")
"""A request that a server answers as soon as it has opened its store."""


Items: TypeAlias = list[Item]
Addresses: TypeAlias = list[str]


def addresses_of(text: str) -> Addresses:
    """The addresses in the reply to a list."""
    return [it for it in values(text) if isinstance(it, str)]


class Settled(Protocol):
    """What the futures of threads and of asyncio have in common."""

    def done(self) -> bool:
        """Whether it has a result or an error, or was cancelled."""

    def cancelled(self) -> bool:
        """Whether it was cancelled."""

    def set_result(self, result: Any, /) -> None:
        """Gives it the result. Raises InvalidStateError if it is done."""

    def set_exception(self, exception: Any, /) -> None:
        """Gives it an error instead of a result. Raises InvalidStateError if it is done."""


F = TypeVar("F", bound=Settled)


@dataclass(slots=True)
class Waiting(Generic[F]):
    """A request that waits for its reply: `seconds` is how long the server may take, None for any
    time; `is_repeated` says whether it has been sent once more."""

    request: Request
    future: F
    seconds: float | None
    is_repeated: bool = False

    @property
    def is_dead(self) -> bool:
        """Whether nobody waits for the reply any more."""
        return self.future.done()

    def fail(self, error: Exception) -> None:
        """Gives the future an error, unless it is done."""
        if not self.future.done():
            with suppress(InvalidStateError):
                self.future.set_exception(error)

    def answer(self, message: bytes) -> None:
        """Gives the future the reply."""
        try:
            text = _text(self.request, message)
        except XqError as error:
            self.fail(error)
            return
        if not self.future.done():
            with suppress(InvalidStateError):
                self.future.set_result(text)


class InFlight(Generic[F]):
    """The requests that wait for their replies, oldest first (the server works on the oldest), and
    the addresses that were stored by them and not dropped.

    One thread may take replies while another begins a request: each step is one operation of a
    dict, and needs no lock.
    """

    def __init__(self) -> None:
        self._tags = itertools.cycle(range(1, protocol.MAX_TAG + 1))
        self._waiting: dict[int, Waiting[F]] = {}
        self._since = 0.0
        self.stored: set[str] = set()

    def __len__(self) -> int:
        return len(self._waiting)

    def front(self) -> Waiting[F] | None:
        """The oldest request."""
        while True:
            try:
                return next(iter(self._waiting.values()), None)
            except RuntimeError:  # Another thread has begun one between the two steps.
                continue

    def has_changes(self) -> bool:
        """Whether a change is under way whose reply somebody waits for."""
        return any(it.request.changes and not it.is_dead for it in list(self._waiting.values()))

    def begin(self, waiting: Waiting[F]) -> bytes:
        """The frame of a request, whose reply is expected from now on.

        Raises FrameFault if the frame is too long; then nothing is expected.
        """
        tag = next(self._tags)
        data = protocol.frame(tag, waiting.request.kind, waiting.request.body)
        if not self._waiting:
            self._since = time.monotonic()
        self._waiting[tag] = waiting
        return data

    def due(self, seconds: float | None) -> float | None:
        """When the server will have worked too long on the oldest request; None for never."""
        return None if seconds is None or not self._waiting else self._since + seconds

    def replied(self, message: bytes) -> Waiting[F]:
        """The request of a reply, which no longer waits. Raises KeyError if there is none."""
        waiting = self._waiting.pop(protocol.tag_of(message))
        self._since = time.monotonic()
        request = waiting.request
        if request.address and message[4] == Status.DONE:
            (self.stored.add if request.kind is Kind.STORE else self.stored.discard)(
                request.address)
        return waiting

    def take_missing(self, listed: "Future[str] | asyncio.Future[str]") -> set[str]:
        """The stored addresses that a list doesn't have; they no longer count as stored. None if
        the list was refused."""
        if listed.exception():
            return set()
        missing = self.stored - set(addresses_of(listed.result()))
        self.stored -= missing
        return missing

    def take_all(self) -> list[Waiting[F]]:
        """All that wait, oldest first; afterwards none waits."""
        waiting = list(self._waiting.values())
        self._waiting.clear()
        return waiting


def _text(request: Request, message: bytes) -> str:
    try:
        text = message[5:].decode()
    except UnicodeDecodeError as error:
        raise Closed(f"the other end is not a server: a reply is not UTF-8 ({error})") from error
    match message[4]:
        case Status.DONE:
            return text
        case Status.REFUSED if text == TOO_SLOW:
            raise RefusedAsSlow(text, request.shown)
        case Status.REFUSED:
            raise Refused(text, request.shown)
    raise Wanting(text, request.shown)


TextFuture: TypeAlias = Future[str]
"""A future of the text of a reply, or of the error that it means."""
