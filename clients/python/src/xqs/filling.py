"""Copies all documents of one server to another, while the first goes on serving and changing.

Each address is copied in its state of some moment. What is written to it after that moment is noted
and copied again. When few are left, writes wait and the last ones are copied: then both servers
have the same documents. No request of a copy occupies the source for long, and nothing is written
there: a document that is too large for a frame is read in parts, which are joined at the target.
"""

import asyncio
import hashlib
import itertools
from collections.abc import Awaitable, Callable, Iterable

from xqs.errors import XqError
from xqs.protocol import MAX_REQUEST, Kind, Status
from xqs.queries import q
from xqs.temporary import Temporary
from xqs.values import values
from xqs.waiting import cancelled

AT_ONCE = 6
"""How many documents are copied at the same time."""
FEW = 16
"""How many documents may be left when writes begin to wait."""
ROUNDS = 12
"""After how many rounds writes wait, however many documents are left."""
NODES = 20_000
"""A request of a copy asks for at most twice this number of nodes, as far as sizes are known."""
MOST = MAX_REQUEST - 2_000
"""The longest text that one request stores."""
SHORT = 2_000
"""A text up to this length stays in its element; a longer one is a part of its own."""
PIECE = 200_000
"""How many characters of a long text make a part; each takes five bytes at most."""

Ask = Callable[[bytes], Awaitable[bytes]]


class CannotFill(XqError):
    """The documents can't be copied; the message says why."""


class CannotHold(CannotFill):
    """The server has no room for the documents within its memory."""


class _Changed(Exception):
    """The document changed while it was read in parts."""


def _query(text: str) -> bytes:
    return Kind.QUERY + text.encode()


def _store(address: bytes, text: bytes) -> bytes:
    return Kind.STORE + bytes([len(address)]) + address + text


class Filling:
    """Copies all documents of the server that `source` asks to the one that `target` asks, which
    has none. The code that writes to the source must call `changed`."""

    def __init__(self, source: Ask, target: Ask) -> None:
        self._source, self._ask = source, target
        self.left: set[bytes] = set()
        self.count = 0

    def changed(self, address: bytes) -> None:
        """Notes that a write to the address is in the source's queue."""
        self.left.add(address)

    async def copy_most(self) -> None:
        """Copies all documents, and again those that change meanwhile, until few are left.

        Raises ServerEnded and CannotFill.
        """
        self.left.update(await self._addresses(self._source))
        for _ in range(ROUNDS):
            before = len(self.left)
            await self._round()
            if len(self.left) <= FEW or len(self.left) > before // 2:
                return

    async def finish(self) -> None:
        """Copies what is left, while no client writes. Nothing is left when this returns.

        Raises ServerEnded and CannotFill.
        """
        while True:
            while self.left:
                await self._round()
            theirs, ours = await asyncio.gather(
                self._addresses(self._source), self._addresses(self._ask))
            if self.left:  # A write that was in doubt turned out to be carried out.
                continue
            if theirs != ours:
                raise CannotFill(f"{len(ours)} addresses arrived of {len(theirs)}")
            self.count = len(ours)
            return

    async def _addresses(self, ask: Ask) -> list[bytes]:
        reply = await ask(Kind.LIST.value)
        if reply[0] != Status.DONE:
            raise CannotFill(f"the addresses can't be listed ({reply[1:].decode()})")
        return [str(it).encode() for it in values(reply[1:].decode())]

    async def _round(self) -> None:
        """Copies what was left when it began."""
        wanted = iter(sorted(self.left))
        works = [asyncio.create_task(self._copy_each(wanted)) for _ in range(AT_ONCE)]
        try:
            await asyncio.gather(*works)
        finally:
            await cancelled(*works)

    async def _copy_each(self, wanted: Iterable[bytes]) -> None:
        for address in wanted:
            self.left.discard(address)
            await self._copy(address)

    async def _copy(self, address: bytes) -> None:
        name = address.decode()
        reply = await self._source(_query(q(
            f"let $d := doc($a), $n := count($d//node()) return if ($n <= {NODES}) then $d else $n",
            a=name)))
        text = reply[1:]
        if reply[0] == Status.REFUSED and text == b"FODC0002":
            await self._drop(address)
        elif reply[0] == Status.DONE and text[:1] == b"d" and len(text) <= MOST:
            await self._keep(_store(address, text))
        elif reply[0] == Status.DONE or text == b"prof:REPLY":
            await self._copy_parts(address)
        else:
            raise CannotFill(f"{name} can't be read ({text.decode()})")

    async def _drop(self, address: bytes) -> None:
        """Makes the target drop a document that it may have."""
        reply = await self._ask(Kind.DROP + address)
        if reply[0] == Status.WANTING:
            raise CannotHold(f"it can't drop a document ({reply[1:].decode()})")

    async def _copy_parts(self, address: bytes) -> None:
        """Copies a large document; leaves it for later if it changes meanwhile."""
        names = Temporary()
        parts = _Parts(self._read, self._keep, names.next, lambda: address in self.left)
        path = f'doc("{address.decode()}")'
        try:
            text = await parts.node(path)
            await self._keep(_store(address, text.encode()))
            await self._check(address, path)
        except _Changed:
            self.left.add(address)
        finally:
            for part in names.given():
                await self._drop(part.encode())

    async def _check(self, address: bytes, path: str) -> None:
        """Checks that a joined document has as many nodes as the one that was read."""
        text = f"let $d := {path} return (count($d//node()), count($d//@*))"
        theirs, ours = await asyncio.gather(self._source(_query(text)),
                                            self._ask(_query(text)))
        if theirs != ours and address not in self.left:
            raise CannotFill(f"{path} has {ours[1:].decode()} nodes and attributes, not "
                             f"{theirs[1:].decode()}")

    async def _read(self, text: str) -> bytes | None:
        return await _value_of(self._source, text)

    async def _keep(self, payload: bytes) -> None:
        """Makes the target store a document."""
        reply = await self._ask(payload)
        if reply[0] == Status.WANTING:
            raise CannotHold(f"it can't hold the documents ({reply[1:].decode()})")
        if reply[0] != Status.DONE:
            raise CannotFill(f"a document is refused ({reply[1:].decode()})")


async def _value_of(ask: Ask, text: str) -> bytes | None:
    """The text of a value; None if it would be too long."""
    reply = await ask(_query(text))
    if reply[0] == Status.DONE:
        return reply[1:]
    if reply[1:] == b"prof:REPLY":
        return None
    if reply[0] == Status.WANTING:
        raise CannotFill(f"a document can't be read ({reply[1:].decode()})")
    raise _Changed


async def fingerprint(ask: Ask, address: bytes) -> bytes:
    """A digest of the document at an address, or of its absence. Two servers have the same digest
    exactly if they have the same document, except for a SHA-256 collision. Nobody may write
    meanwhile.

    Raises ServerEnded and CannotFill.
    """
    path = f'doc("{address.decode()}")'
    reply = await ask(_query(path))
    if reply[0] == Status.WANTING:
        raise CannotFill(f"{path} can't be read ({reply[1:].decode()})")
    digest = hashlib.sha256(reply)
    if reply[1:] == b"prof:REPLY":

        async def read(text: str) -> bytes | None:
            return await _value_of(ask, text)

        async def keep(payload: bytes) -> None:
            digest.update(payload)

        numbers = itertools.count(1)
        parts = _Parts(read, keep, lambda: f"part/{next(numbers)}", lambda: False)
        digest.update((await parts.node(path)).encode())
    return digest.digest()


class _Parts:
    """Reads a large document in parts, and returns the query that joins them at the target.

    `read` asks for a value, `keep` stores a part at an address that `name` makes, and `is_changed`
    says that the work is in vain.
    """

    def __init__(self, read: Callable[[str], Awaitable[bytes | None]],
                 keep: Callable[[bytes], Awaitable[None]], name: Callable[[], str],
                 is_changed: Callable[[], bool]) -> None:
        self._read, self._keep, self._name, self._is_changed = read, keep, name, is_changed

    async def node(self, path: str) -> str:
        """The query that makes a copy of one node."""
        kind, name = await self._head(path)
        if kind == "document":
            return f"document {{{await self._all(f'{path}/node()')}}}"
        if kind == "element":
            inner = [await self._all(f"{path}/@*"), await self._all(f"{path}/node()")]
            return f"element {name} {{{', '.join(filter(None, inner))}}}"
        if kind == "text":
            return ", ".join([f'doc("{it}")/node()' for it in await self._pieces(path)])
        pieces = ", ".join([f'doc("{it}")' for it in await self._pieces(path)])
        return f'{kind} {name + " " if name else ""}{{string-join(({pieces}), "")}}'

    async def _head(self, path: str) -> tuple[str, str]:
        """The kind of a node, as its constructor names it, and its name."""
        kinds = ("document-node", "element", "text", "comment", "processing-instruction")
        asked = ", ".join(f"exists($n/self::{kind}())" for kind in kinds)
        *found, name = values((await self._value(f"let $n := {path} return ({asked}, name($n))"
                                                 )).decode())
        names = [kind for kind, holds in zip(kinds, found, strict=True) if holds is True]
        return (names or ["attribute"])[0].removesuffix("-node"), str(name)

    async def _value(self, text: str) -> bytes:
        if self._is_changed():
            raise _Changed
        found = await self._read(text)
        if found is None:
            raise CannotFill("a short value is too long for a reply")
        return found

    async def _number(self, text: str) -> int:
        return int(await self._value(text))

    async def _all(self, path: str) -> str:
        """Queries for all nodes of a path, by ranges that fit a frame."""
        count = await self._number(f"count({path})")
        nodes = await self._number(f"count({path}/descendant-or-self::node())")
        found: list[str] = []
        first, width = 1, max(1, count * NODES // max(nodes, 1))
        while first <= count:
            last = min(first + width - 1, count)
            text = await self._range(path, first, last)
            if text is not None and len(text) <= MOST:
                found.append(await self._part(path, text))
                first = last + 1
                width *= 2 if len(text) < MOST // 3 else 1
            elif width > 1:
                width = max(1, width // 2)
            else:
                found.append(await self.node(f"{path}[{first}]"))
                first += 1
        return ", ".join(found)

    async def _range(self, path: str, first: int, last: int) -> bytes | None:
        """The text of some nodes; None if it is too long."""
        if self._is_changed():
            raise _Changed
        some = f"{path}[position() >= {first} and position() <= {last}]"
        text = await self._read(
            f"let $n := {some} return if (count($n/descendant-or-self::node()) <= {2 * NODES}) "
            "then $n else ()")
        return None if text == b"()" else text

    async def _part(self, path: str, text: bytes) -> str:
        if len(text) <= SHORT:
            return text.decode()
        address = self._name()
        await self._keep(_store(address.encode(), b"document {element b {" + text + b"}}"))
        return f'doc("{address}")/*/{"@*" if path.endswith("/@*") else "node()"}'

    async def _pieces(self, path: str) -> list[str]:
        """The addresses of the parts with the pieces of a long value."""
        length = await self._number(f"string-length(string({path}))")
        found: list[str] = []
        for first in range(1, length + 1, PIECE):
            piece = await self._value(f"substring(string({path}), {first}, {PIECE})")
            found.append(self._name())
            await self._keep(_store(found[-1].encode(), b"document {text {" + piece + b"}}"))
        return found
