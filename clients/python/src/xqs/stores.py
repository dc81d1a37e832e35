"""Stores documents from XML or from constructors, of any length, with a client of either kind.

A document that fits a request is sent as one. A larger one is sent in parts under temporary
addresses; then one store joins them, and they are dropped. All these requests are sent ahead, since
a server carries requests out in order: if a part is refused, so is the store that asks for it, and
no document has changed.
"""

from collections.abc import Callable, Iterable
from concurrent.futures import Future
from dataclasses import dataclass
from functools import partial
from typing import BinaryIO

from xqs.aio import AsyncClient
from xqs.client import Client
from xqs.constructor_reader import ConstructorReader
from xqs.errors import Closed, XqError
from xqs.incoming import (
    ConstructorDocument,
    Incoming,
    PrintedDocument,
    XmlDocument,
    chunks_of,
    incoming,
)
from xqs.progress import Progress, silent
from xqs.requests import store_of
from xqs.temporary import Temporary, check_lasting
from xqs.values import events
from xqs.window import Window
from xqs.xml_in import XmlChoices, XmlReader

__all__ = ["Sender", "Stored", "chunks_of", "store_again", "store_constructors", "store_file",
           "store_xml", "store_xml_async"]


@dataclass
class Stored:
    """The outcome of a document: whether it replaced another one, its nodes, and its number of
    parts, 0 if it was sent as one."""

    replaced: bool
    nodes: int
    parts: int


class _Sending:
    """What to do with the replies to one document's requests."""

    is_sent = False

    def __init__(
        self,
        document: Incoming,
        temporary: Temporary,
        done: Callable[[str | BaseException], None],
        progress: Progress,
    ) -> None:
        self._document, self._temporary = document, temporary
        self._done, self._progress = done, progress
        self._failures: list[BaseException] = []
        self._parts = 0

    def part_ended(self, read: int, future: Future[str]) -> None:
        """A part has its reply; `read` bytes of the text had been read before it."""
        self._note(future)
        self._parts += 1
        self._progress.reach(read)
        if self.is_sent and self._parts == self._temporary.count:
            self._progress.show(f"joining {self._parts} parts")

    def ended(self, future: Future[str]) -> None:
        """The document has its reply."""
        self._note(future)
        self._done(self._failures[0] if self._failures else future.result())

    def _note(self, future: Future[str]) -> None:
        error = future.exception()
        if error is not None:
            self._failures.append(error)


class Sender:
    """Sends the requests of documents ahead, through one window."""

    def __init__(self, client: Client, window: Window) -> None:
        self._client = client
        self._window = window

    def send(
        self,
        address: str,
        document: Incoming,
        temporary: Temporary,
        done: Callable[[str | BaseException], None],
        progress: Progress | None = None,
    ) -> None:
        """Sends the parts of a document, the document itself, and drops of the parts.

        `done` is called with the reply of the store, or with its error or that of a part. If
        reading the document fails, the error is raised, `done` is not called, and the parts that
        were sent are dropped.
        """
        sending = _Sending(document, temporary, done, progress or silent())
        try:
            for part in document.parts():
                ended = partial(sending.part_ended, document.read)
                self._store(part.address, part.text, ended)
            sending.is_sent = True
            self._store(address, document.whole(), sending.ended)
        finally:
            self._drop(temporary.given())

    def _store(self, address: str, text: str, done: Callable[[Future[str]], None]) -> None:
        request = store_of(address, text)
        self._window.add(self._client.request_later(request), len(request.body), done)

    def _drop(self, addresses: list[str]) -> None:
        try:
            for address in addresses:
                self._window.add(self._client.drop_later(address), 100, _ignore)
        except Closed:
            return


def _ignore(_: Future[str]) -> None:
    """The drop of a part that was not stored is refused, which is right."""


def _send_and_wait(
    client: Client,
    address: str,
    document: Incoming,
    temporary: Temporary,
    progress: Progress | None = None,
) -> Stored:
    window, answers = Window(), list[str | BaseException]()
    try:
        Sender(client, window).send(address, document, temporary, answers.append, progress)
    finally:
        window.drain()
    [answer] = answers
    if isinstance(answer, BaseException):
        raise answer
    return Stored(answer == "replaced", document.nodes, temporary.count)


def store_at(client: Client, address: str, document: Incoming, temporary: Temporary) -> Stored:
    """Stores a document at any address, even a temporary one."""
    return _send_and_wait(client, address, document, temporary)


def store_xml(
    client: Client,
    address: str,
    chunks: Iterable[bytes],
    source: str = "XML",
    choices: XmlChoices = XmlChoices(),  # noqa: B008 (it is frozen)
    charset: str | None = None,
) -> Stored:
    """Stores a document of XML whose bytes come in pieces of any size.

    Raises XmlFault if it is not well-formed or is refused, KeptAddress if the address is kept for
    parts, Refused and Wanting. `source` is the text's name in messages, `charset` that of its
    transport.
    """
    check_lasting(address)
    temporary = Temporary()
    document = XmlDocument(chunks, XmlReader(source, temporary, choices, charset))
    return _send_and_wait(client, address, document, temporary)


def store_file(
    client: Client,
    address: str,
    file: BinaryIO,
    source: str = "file",
    choices: XmlChoices = XmlChoices(),  # noqa: B008 (it is frozen)
    charset: str | None = None,
    progress: Progress | None = None,
) -> Stored:
    """Stores a file: XML, or a query that gives the document. A query that is too long for a
    request must consist of constructors. Errors as in `store_xml`, and PlacedFault."""
    check_lasting(address)
    temporary = Temporary()
    document = incoming(file, source, temporary, choices, charset)
    return _send_and_wait(client, address, document, temporary, progress)


def store_constructors(client: Client, address: str, text: str, source: str = "text") -> Stored:
    """Stores a document of constructors, of any length, written by hand or printed.

    Raises PlacedFault (a ValueError) if the text is not one document of constructors that the
    server takes, KeptAddress if the address is kept for parts.
    """
    check_lasting(address)
    temporary = Temporary()
    document = ConstructorDocument(ConstructorReader(text, source), temporary)
    return _send_and_wait(client, address, document, temporary)


def store_again(
    client: Client, address: str, text: str, progress: Progress | None = None
) -> Stored:
    """Stores what the server has printed, at any address, since a backup may hold parts. Raises
    Misspelt, or another ValueError, if the server can't have printed it."""
    temporary = Temporary()
    document = PrintedDocument(events(text), temporary)
    return _send_and_wait(client, address, document, temporary, progress)


async def store_xml_async(
    client: AsyncClient,
    address: str,
    chunks: Iterable[bytes],
    source: str = "XML",
    choices: XmlChoices = XmlChoices(),  # noqa: B008 (it is frozen)
    charset: str | None = None,
) -> Stored:
    """Like `store_xml`, for asyncio; waits for each part."""
    check_lasting(address)
    temporary = Temporary()
    document = XmlDocument(chunks, XmlReader(source, temporary, choices, charset))
    try:
        for part in document.parts():
            await client.request(store_of(part.address, part.text))
        replaced = await client.store(address, document.whole())
    finally:
        await _drop_async(client, temporary.given())
    return Stored(replaced, document.nodes, temporary.count)


async def _drop_async(client: AsyncClient, addresses: list[str]) -> None:
    for address in addresses:
        try:
            await client.drop(address)
        except XqError:
            continue
