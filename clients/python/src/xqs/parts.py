"""The constructor text of one document, from its nodes in order, in parts if it is long.

A request holds about a megabyte. When the pending content of an open element grows beyond a limit,
it becomes a part: a document under a temporary address, whose nodes the element's constructor then
asks for. Parts may ask for other parts. Once a document is known to be long, its nodes are packed
too (`packing`), so that parts have few nodes. This module does no input or output.
"""

from dataclasses import dataclass

from xqs import packing
from xqs.errors import XqError
from xqs.packing import Packed, counted, packed_element, packed_leaf, part_of, unpacked
from xqs.protocol import MAX_LEVEL, MAX_NODES
from xqs.temporary import Temporary
from xqs.values import Atom, Close, Event, Leaf, NodeKind, Open, quoted

PART_BYTES = 900_000
"""About the longest text of a part; a request holds 1,048,626 bytes of it at least."""


class TooLarge(XqError, ValueError):
    """A document with more nodes or levels than the server takes."""


class NotADocument(XqError, ValueError):
    """The nodes to store are not exactly one document."""


@dataclass(frozen=True, slots=True)
class Part:
    """A document that is stored before the whole one, and dropped after it."""

    address: str
    text: str


class _Run:
    """A run of adjacent expressions: first those for parts, then constructors.

    `nodes` has the packed form of each constructor, or None. `size` is the number of bytes of the
    constructors, joined, `parts_size` that of the expressions for parts. `packed` are the addresses
    of the packed parts that the last of these expressions stands for.
    """

    __slots__ = ("texts", "nodes", "size", "parts", "parts_size", "packed")

    def __init__(self) -> None:
        self.texts: list[str] = []
        self.nodes: list[Packed | None] = []
        self.packed: list[str] = []
        self.size = self.parts = self.parts_size = 0

    def add(self, text: str, size: int, node: Packed | None) -> None:
        """Adds a constructor at the end."""
        self.texts.append(text)
        self.nodes.append(node)
        self.size += size + 2

    def give_up_parts(self) -> None:
        """Turns the expressions for parts into constructors if they have become long themselves, so
        that the next part takes them in."""
        if self.parts_size > PART_BYTES // 2:
            self.parts = self.parts_size = 0
            self.packed = []

    def constructors(self) -> str:
        """The text for a part."""
        return ", ".join(self.texts[self.parts :])

    def items(self) -> list[tuple[str, Packed | None]]:
        """The text for a packed part."""
        return list(zip(self.texts[self.parts :], self.nodes[self.parts :], strict=True))

    def replace(self, text: str) -> None:
        """Replaces the constructors by the expression for a part."""
        self.texts[self.parts :] = [text]
        self.nodes[self.parts :] = [None]
        self.parts += 1
        self.parts_size += len(text) + 2
        self.packed = []
        self.size = 0

    def replace_packed(self, address: str) -> None:
        """Replaces the constructors by the expression for a packed part, joined with those before
        it."""
        packed = [*self.packed, address]
        if self.packed:
            self.parts -= 1
            self.parts_size -= len(self.texts[self.parts]) + 2
        self.replace(unpacked(packed))
        self.packed = packed


class _Parent(_Run):
    """An open document or element: its constructor up to the brace, its attributes, and as a run
    its children."""

    __slots__ = ("head", "name", "attributes")

    def __init__(self, head: str, name: str = "") -> None:
        self.texts, self.nodes, self.packed = [], [], []
        self.size = self.parts = self.parts_size = 0
        self.head, self.name = head, name
        self.attributes: _Run | None = None


def byte_count(text: str) -> int:
    """The number of bytes of the text in UTF-8."""
    return len(text) if text.isascii() else len(text.encode())


class NodeCount:
    """Counts the nodes of a document, taken in order, as the server will: adjacent texts are one.

    Each method that takes a node raises TooLarge if that is one node or level too many.
    """

    def __init__(self) -> None:
        self.nodes = 1
        self._level = 1
        self._after_text = False

    def open(self) -> None:
        """Begins an element."""
        self.add()
        self._level += 1

    def close(self) -> None:
        """Ends the innermost open element."""
        self._level -= 1
        self._after_text = False

    def text(self) -> None:
        """Counts a text, which is not empty."""
        if not self._after_text:
            self.add()
            self._after_text = True

    def add(self, count: int = 1) -> None:
        """Counts nodes that hold no others."""
        self._after_text = False
        self.nodes += count
        if self.nodes > MAX_NODES:
            raise TooLarge(f"more than {MAX_NODES:,} nodes, which is the server's limit")
        if self._level > MAX_LEVEL:
            raise TooLarge(f"deeper than {MAX_LEVEL} levels, which is the server's limit")


class DocumentText:
    """Takes the nodes of a document in order, and gives the text that makes it. Raises TooLarge as
    NodeCount does."""

    def __init__(self, temporary: Temporary, part_bytes: int = PART_BYTES) -> None:
        self._temporary = temporary
        self._limit = part_bytes
        # A character takes five bytes at most: `&` takes five, others four and are not escaped.
        self._piece = max(part_bytes // 6, 1)
        self._count = NodeCount()
        self._last = _Parent("document {")
        self._stack = [self._last]
        self._parts: list[Part] = []
        self._packs = False
        """Whether nodes are packed: whether the document is known to be long."""
        self._has_packed = False

    @property
    def nodes(self) -> int:
        """The number of nodes so far."""
        return self._count.nodes

    def open(self, name: str) -> None:
        """Begins an element."""
        self._count.open()
        self._last = _Parent(f"element {name} {{", name)
        self._stack.append(self._last)

    def attribute(self, name: str, value: str) -> None:
        """Adds an attribute to the element that has begun, before its children."""
        self._count.add()
        run = self._last.attributes
        if run is None:
            run = self._last.attributes = _Run()
        text = self._valued(f"attribute {name} {{", value)
        size = byte_count(text)
        if run.size and run.size + size > self._limit // 2:
            holder = "document {element holder {" + run.constructors() + "}}"
            run.replace(f'doc("{self._stored(holder)}")/*/@*')
        run.add(text, size, self._leaf(packing.ATTRIBUTE, name, value))

    def text(self, value: str) -> None:
        """Adds a text, which may be empty, and is one node with a text before it."""
        if not value:
            return
        self._count.text()
        if len(value) <= self._piece:
            self._add(f"text {{{quoted(value)}}}", self._leaf(packing.TEXT, "", value))
            return
        for at in range(0, len(value), self._piece):
            self._add(f"text {{{quoted(value[at : at + self._piece])}}}", None)

    def comment(self, value: str) -> None:
        """Adds a comment."""
        self._count.add()
        self._add(self._valued("comment {", value), self._leaf(packing.COMMENT, "", value))

    def instruction(self, name: str, value: str) -> None:
        """Adds a processing instruction."""
        self._count.add()
        self._add(self._valued(f"processing-instruction {name} {{", value),
                  self._leaf(packing.INSTRUCTION, name, value))

    def close(self) -> None:
        """Ends the innermost open element."""
        self._count.close()
        last = self._stack.pop()
        attributes = last.attributes
        size = last.size + last.parts_size + byte_count(last.head)
        if attributes:
            size += attributes.size + attributes.parts_size
        if size > self._limit and last.size:
            self._take_away(last)
        texts = attributes.texts + last.texts if attributes else last.texts
        nodes = attributes.nodes + last.nodes if attributes else last.nodes
        self._last = self._stack[-1]
        node = packed_element(last.name, nodes) if self._packs else None
        self._add(last.head + ", ".join(texts) + "}", node)

    def event(self, event: Event) -> None:
        """Takes the next event of printed nodes, except those of the document itself.

        Raises NotADocument for an atomic value, and for an attribute outside an element.
        """
        match event:
            case Open(NodeKind.ELEMENT, name):
                self.open(name)
            case Leaf(NodeKind.ATTRIBUTE, name, value) if len(self._stack) > 1:
                self.attribute(name, value)
            case Leaf(NodeKind.TEXT, _, value):
                self.text(value)
            case Leaf(NodeKind.COMMENT, _, value):
                self.comment(value)
            case Leaf(NodeKind.INSTRUCTION, name, value):
                self.instruction(name, value)
            case Close():
                self.close()
            case Atom() | _:
                raise NotADocument("the value is not exactly one document")

    def take_parts(self) -> list[Part]:
        """The parts to store next, in this order."""
        parts, self._parts = self._parts, []
        return parts

    def whole(self) -> str:
        """The text of the whole document, once all its elements have ended.

        If nodes are packed, it gives no document unless it makes as many nodes as there were.
        """
        text = self._stack[0].head + ", ".join(self._stack[0].texts) + "}"
        return counted(text, self.nodes) if self._has_packed else text

    def _leaf(self, kind: int, name: str, value: str) -> Packed | None:
        return packed_leaf(kind, name, value) if self._packs else None

    def _add(self, text: str, node: Packed | None) -> None:
        run = self._last
        size = len(text) if text.isascii() else len(text.encode())
        if run.size + size > self._limit and run.size:
            self._take_away(run)
        run.add(text, size, node)
        if not self._packs and run.size > self._limit // 4:
            self._packs = self._limit >= packing.LEAST_PART

    def _take_away(self, run: _Run) -> None:
        """Makes a part of the nodes in the run."""
        run.give_up_parts()
        # (in a packed part nodes are one level deeper, which the deepest ones can't be)
        is_below = run is not self._stack[0]
        if self._packs and is_below and len(self._stack) <= packing.HIGHEST:
            self._has_packed = True
            run.replace_packed(self._stored(f"document {{{part_of(run.items())}}}"))
        else:
            address = self._stored("document {" + run.constructors() + "}")
            run.replace(f'doc("{address}")/node()')

    def _stored(self, text: str) -> str:
        part = Part(self._temporary.next(), text)
        self._parts.append(part)
        return part.address

    def _valued(self, head: str, value: str) -> str:
        """The constructor of a node with a value, which is in parts if it is long."""
        if len(value) <= self._piece:
            return f"{head}{quoted(value)}}}"
        pieces = (value[at : at + self._piece] for at in range(0, len(value), self._piece))
        held = [self._stored(f"document {{text {{{quoted(it)}}}}}") for it in pieces]
        documents = ", ".join(f'doc("{address}")' for address in held)
        return f'{head}string-join(({documents}), "")}}'
