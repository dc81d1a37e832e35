"""Documents of any length, read as events. A read stores nothing if that is possible.

A document whose text fits a reply comes as one. A larger one is read in pieces (`ranges`), which
must all be from one state of the document:

- A server that was started here has no other client, so the document can be read in place.
- `xqs mux` and `xqs web` tell whether a document has changed meanwhile. The pieces are held back
  until that is known, and read once more if it has changed.
- Otherwise, or if a document keeps changing, a copy under a temporary address is read.
"""

import pickle
import tempfile
from collections.abc import Callable, Iterable, Iterator
from contextlib import contextmanager, suppress
from typing import cast

from xqs.client import Client
from xqs.constructors import ConstructorWriter
from xqs.errors import Changed, XqError
from xqs.progress import Progress, silent
from xqs.queries import q
from xqs.ranges import Piece, Pieces, first_look
from xqs.requests import store_of
from xqs.temporary import Temporary
from xqs.values import Event, events

TRIES = 3
"""How many times a document that changes meanwhile is read in pieces before a copy is read."""
HELD = 32_000_000
"""How many bytes of pieces are held back in memory; more go to the disk."""


def document_events(
    client: Client, address: str, progress: Progress | None = None
) -> Iterator[Event]:
    """The events of a document, with a long text as several events. Raises Refused with FODC0002 if
    there is no document, and Changed if another thread of this client changes it meanwhile.

    `progress` counts the nodes of a document that comes in pieces.
    """
    for piece in _pieces(client, address, progress):
        if isinstance(piece.part, str):
            yield from events(piece.part)
        else:
            yield piece.part


def write_text(
    client: Client, address: str, write: Callable[[str], object], is_still: bool = False,
    progress: Progress | None = None,
) -> None:
    """Writes the constructor of a document, as the server prints it, in pieces if it is long.

    `is_still` says that nobody stores or drops meanwhile, so that the document can be read in
    place. Errors and `progress` are as in `document_events`.
    """
    writer = ConstructorWriter(write)
    for piece in _pieces(client, address, progress, is_still):
        if isinstance(piece.part, str):
            writer.printed(piece.part)
        else:
            writer.event(piece.part)


def _pieces(
    client: Client, address: str, progress: Progress | None, is_still: bool = False
) -> Iterator[Piece]:
    """The pieces of a document; one piece if it fits a reply."""
    found = first_look(client, address)
    if isinstance(found, str):
        yield Piece(found)
        return
    told = _Told(progress or silent(), found)
    if is_still:
        yield from told.read(Pieces(client, address))
    elif client.has_server:
        yield from told.read(_watched(client, address))
    else:
        yield from _of_one_moment(client, address, told)


class _Told:
    """Reports the nodes of a document that comes in pieces."""

    def __init__(self, progress: Progress, nodes: int) -> None:
        self._progress, self._nodes = progress, max(nodes, 1)

    def read(self, pieces: Iterable[Piece], begin: float = 0, end: float = 1) -> Iterator[Piece]:
        """Passes on all pieces, and moves the progress from one share of the work to another."""
        nodes = 0
        for piece in pieces:
            nodes = min(nodes + piece.nodes, self._nodes)
            share = begin + (end - begin) * nodes / self._nodes
            self._progress.reach_nodes(int(share * self._nodes), self._nodes)
            yield piece


def _watched(client: Client, address: str) -> Iterator[Piece]:
    """The pieces of a document that no other client can change. Raises Changed if this one did."""
    before = client.state_of(address)
    try:
        yield from Pieces(client, address)
    except XqError as error:
        if client.state_of(address) != before:
            raise Changed(address) from error
        raise
    if client.state_of(address) != before:
        raise Changed(address)


def _of_one_moment(client: Client, address: str, told: _Told) -> Iterator[Piece]:
    """The pieces of a document that others may change meanwhile."""
    for _ in range(TRIES):
        before = client.state_of(address)
        if before is None:
            break
        with _Held() as held:
            if held.holds_all(client, address, before, told):
                yield from told.read(held.pieces(), begin=0.5)
                return
    with _copied(client, address) as copy:
        yield from told.read(Pieces(client, copy))


class _Held:
    """Pieces that are held back, in memory and on the disk."""

    def __init__(self) -> None:
        self._file = tempfile.SpooledTemporaryFile(HELD)
        self._count = 0

    def __enter__(self) -> "_Held":
        return self

    def __exit__(self, *_: object) -> None:
        self._file.close()

    def holds_all(self, client: Client, address: str, before: str, told: _Told) -> bool:
        """Reads a document. Returns whether it stayed the same."""
        try:
            for piece in told.read(Pieces(client, address), end=0.5):
                pickle.dump(piece, self._file)
                self._count += 1
        except XqError:
            if client.state_of(address) == before:
                raise
            return False
        return client.state_of(address) == before

    def pieces(self) -> Iterator[Piece]:
        """All pieces, in order."""
        self._file.seek(0)
        for _ in range(self._count):
            yield cast(Piece, pickle.load(self._file))


@contextmanager
def _copied(client: Client, address: str) -> Iterator[str]:
    copy = Temporary().next()
    client.request_later(store_of(copy, q("doc($a)", a=address))).result()
    try:
        yield copy
    finally:
        with suppress(XqError):
            client.drop(copy)
