"""The pieces of a document that is too long for one reply, found by sizes: children by ranges of
positions, long texts by ranges of characters. Nothing is stored here."""

from collections.abc import Iterator, Sequence
from dataclasses import dataclass

from xqs.client import Client
from xqs.errors import Changed, Refused
from xqs.queries import q
from xqs.values import PARENTS, Close, Event, Leaf, NodeKind, Open

PIECE = 3_000_000
"""How many characters of a text are read at once; each takes five bytes at most. A range of
children has about this many characters, too."""
FEW_NODES, FEW_CHARACTERS = 20_000, 500_000
"""A document with no more nodes than this is read whole at once."""
WHOLE = 10_000_000
"""A document with about this many characters, when it is printed, is read whole."""
AT_ONCE = 50_000
"""How many children's sizes are read at once: to find a range the server goes over all of them."""
NODE_CHARACTERS = 40
"""How many characters a node counts for, besides its text."""
TOO_LONG = "prof:REPLY"
_SIZES = (
    "(let $below := $n/descendant-or-self::node(), $attributes := $below/@*, "
    "$nodes := count($below) + count($attributes) return ($nodes, "
    f"$nodes * {NODE_CHARACTERS} + string-length(string($n)) + "
    "string-length(string-join($attributes))))")
"""The number of nodes in `$n`, and about how many characters they have when printed. (Comments and
instructions don't count: if they are long the reply is refused, and smaller parts are read.)"""
_KINDS = {
    NodeKind.DOCUMENT: "self::document-node()",
    NodeKind.ELEMENT: "self::element()",
    NodeKind.TEXT: "self::text()",
    NodeKind.COMMENT: "self::comment()",
    NodeKind.INSTRUCTION: "self::processing-instruction()",
}


@dataclass(frozen=True, slots=True)
class Piece:
    """A piece of a document: nodes as the server prints them, or a step; and about how many nodes
    begin in it."""

    part: str | Event
    nodes: int = 0


def look(address: str) -> str:
    """The query that gives a short document, and the sizes of any other one."""
    return q(f"let $n := doc($a) return if (count($n/descendant::node()) <= {FEW_NODES} and "
             f"string-length(string($n)) <= {FEW_CHARACTERS}) then $n else {_SIZES}", a=address)


def sizes_of(text: str) -> tuple[int, int] | None:
    """The number of nodes of a document, and about how many characters they have, if a look gave
    that."""
    if text.startswith(NodeKind.DOCUMENT):
        return None
    nodes, characters = text.split(", ")
    return int(nodes), int(characters)


def first_look(client: Client, address: str) -> str | int:
    """The text of a document, or its number of nodes if it is too long for a reply.

    Raises Refused with FODC0002 if there is none.
    """
    text = text_or_none(client, look(address))
    if text is None:  # It has a long comment or instruction.
        sizes_alone = client.query_text(q(f"let $n := doc($a) return {_SIZES}", a=address))
        return int(sizes_alone.partition(",")[0])
    sizes = sizes_of(text)
    if sizes is None:
        return text
    nodes, characters = sizes
    whole = text_or_none(client, q("doc($a)", a=address)) if characters <= WHOLE else None
    return nodes if whole is None else whole


def text_or_none(client: Client, query: str) -> str | None:
    """The reply's text; None if it would be too long."""
    try:
        return client.query_text(query)
    except Refused as error:
        if error.code != TOO_LONG:
            raise
        return None


@dataclass(frozen=True)
class _Range:
    """Children from one position to another, the number of nodes in and below them, and about how
    many characters these have."""

    first: int
    last: int
    nodes: int
    characters: int


class Pieces:
    """Reads documents by pieces; an expression stands for each node.

    Raises Changed if the pieces belong to different states of the document.
    """

    def __init__(self, client: Client, address: str) -> None:
        self._client, self._address = client, address

    def __iter__(self) -> Iterator[Piece]:
        return self._node(f'doc("{self._address}")')

    def _node(self, path: str) -> Iterator[Piece]:
        """The pieces of one node."""
        kind, name, attributes, children = self._head(path)
        if kind not in PARENTS:
            yield from self._value(path, kind, name)
            return
        yield Piece(Open(kind, name), 1)
        yield from self._all(f"{path}/@*", attributes)
        yield from self._all(f"{path}/node()", children)
        yield Piece(Close())

    def _head(self, path: str) -> tuple[NodeKind, str, int, int]:
        """The kind and name of a node, its number of attributes, and its number of children."""
        asked = ", ".join(f"exists($n/{test})" for test in _KINDS.values())
        *found, name, attributes, children = self._client.query(
            f"let $n := {path} return ({asked}, name($n), count($n/@*), count($n/node()))")
        if not isinstance(attributes, int) or not isinstance(children, int):
            raise Changed(self._address)
        kinds = [kind for kind, holds in zip(_KINDS, found, strict=False) if holds is True]
        return (kinds or [NodeKind.ATTRIBUTE])[0], str(name), attributes, children

    def _all(self, path: str, count: int) -> Iterator[Piece]:
        """The pieces of all nodes of a path."""
        for first in range(1, count + 1, AT_ONCE):
            last = min(first + AT_ONCE - 1, count)
            for it in ranges(first, self._sizes(path, first, last)):
                if it.first == it.last and it.characters > PIECE:
                    yield from self._node(f"{path}[{it.first}]")
                else:
                    yield from self._range(path, it)

    def _sizes(self, path: str, first: int, last: int) -> list[tuple[int, int]]:
        """The number of nodes, and about how many characters, of each of some nodes."""
        numbers = self._client.query(
            f"for $n in {_positions(path, first, last)} return {_SIZES}")
        sizes = [it for it in numbers if isinstance(it, int)]
        if len(sizes) != 2 * (last - first + 1):
            raise Changed(self._address)
        return list(zip(sizes[::2], sizes[1::2], strict=True))

    def _range(self, path: str, it: _Range) -> Iterator[Piece]:
        """The nodes of a range, as one piece if they fit a reply."""
        text = text_or_none(self._client, _positions(path, it.first, it.last))
        if text == "()":
            raise Changed(self._address)
        if text is not None:
            yield Piece(text, it.nodes)
        elif it.first == it.last:
            yield from self._node(f"{path}[{it.first}]")
        else:
            middle = (it.first + it.last) // 2
            yield from self._range(path, _Range(it.first, middle, it.nodes // 2, 0))
            yield from self._range(path, _Range(middle + 1, it.last, it.nodes // 2, 0))

    def _value(self, path: str, kind: NodeKind, name: str) -> Iterator[Piece]:
        """A long value: a text in several pieces, any other node as one."""
        pieces = self._characters(path)
        if kind is NodeKind.TEXT:
            yield from (Piece(Leaf(kind, name, piece)) for piece in pieces)
        else:
            yield Piece(Leaf(kind, name, "".join(pieces)), 1)

    def _characters(self, path: str) -> Iterator[str]:
        """The string value of a node, in pieces."""
        [length] = self._client.query(f"string-length(string({path}))")
        assert isinstance(length, int)
        for first in range(1, length + 1, PIECE):
            [piece] = self._client.query(f"substring(string({path}), {first}, {PIECE})")
            yield str(piece)


def ranges(first: int, sizes: Sequence[tuple[int, int]]) -> Iterator[_Range]:
    """Ranges of nodes that together have the size of a piece, or of one larger node. `sizes` has
    the nodes and characters of each node from the position `first` on."""
    begin, nodes, characters = first, 0, 0
    for position, (some, size) in enumerate(sizes, first):
        if position > begin and characters + size > PIECE:
            yield _Range(begin, position - 1, nodes, characters)
            begin, nodes, characters = position, 0, 0
        nodes += some
        characters += size
    if sizes:
        yield _Range(begin, first + len(sizes) - 1, nodes, characters)


def _positions(path: str, first: int, last: int) -> str:
    return f"{path}[position() >= {first} and position() <= {last}]"
