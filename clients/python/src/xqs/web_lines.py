"""XML in indented lines for people; joined, the lines are the exact XML."""

from dataclasses import dataclass

from xqs.values import Close, Event, Leaf, NodeKind, Open
from xqs.xml_out import KEEP, XmlWriter

LEFT_OUT = -1
"""The depth of white space that the indented form leaves out."""
Line = tuple[int, str]
_SPACE = frozenset(" \t\n\r")


@dataclass(slots=True)
class _Open:
    """An open node: at which break its content begins, and what has come of it."""

    breaks: int
    is_mixed: bool
    has_child: bool = False
    has_space: bool = False


class LineWriter:
    """Takes the events of items, one after another.

    Each child of an element begins a line, and so does the end of the element, if the element has
    no text but white space. In an element with other texts, or with `xml:space="preserve"`, nothing
    begins a line.
    """

    def __init__(self, names: str = KEEP) -> None:
        """`names` as in `xml_out.XmlWriter`."""
        self._pieces: list[str] = []
        self._writer = XmlWriter(self._pieces.append, names)
        self._breaks: list[tuple[int, int]] = [(0, 0)]
        self._open: list[_Open] = []
        self._is_document = False

    def event(self, event: Event) -> None:
        """Takes the next event."""
        begin = len(self._pieces)
        self._writer.event(event)
        if begin < len(self._pieces) and self._pieces[begin] == ">":
            # The end of the tag around this node.
            begin += 1
        match event:
            case Open(kind, _):
                self._is_document |= kind is NodeKind.DOCUMENT
                self._child(begin, False)
                is_mixed = bool(self._open) and self._open[-1].is_mixed
                self._open.append(_Open(len(self._breaks), is_mixed))
            case Leaf(NodeKind.ATTRIBUTE, name, value):
                self._attribute(name, value)
            case Leaf(NodeKind.TEXT, _, value):
                self._child(begin, True, _SPACE.issuperset(value))
            case Leaf():
                self._child(begin, False)
            case Close():
                self._close(begin)

    def take_lines(self) -> list[Line]:
        """The lines of the item with their depths, once it has ended; another one may follow."""
        pieces, breaks = self._pieces, self._breaks
        if len(breaks) == 1:
            lines = [(0, "".join(pieces))] if pieces else []
        else:
            ends = [at for at, _ in breaks[1:]] + [len(pieces)]
            lines = [
                (depth, "".join(pieces[at:end]))
                for (at, depth), end in zip(breaks, ends, strict=True)
                if at < end
            ]
        pieces.clear()
        self._breaks = [(0, 0)]
        self._is_document = False
        return lines

    def _attribute(self, name: str, value: str) -> None:
        if self._open and value == "preserve" and name in ("xml:space", "xml__space"):
            self._open[-1].is_mixed = True

    def _child(self, begin: int, is_text: bool, is_space: bool = False) -> None:
        """A child of the open node begins, at this piece."""
        if not self._open:
            return
        parent = self._open[-1]
        if is_text and not is_space:
            parent.is_mixed = True
        parent.has_space |= is_space
        parent.has_child |= not is_text
        if not parent.is_mixed:
            self._breaks.append((begin, LEFT_OUT if is_text else self._depth()))

    def _depth(self) -> int:
        """The depth of a child of the open node; a document takes no depth."""
        return len(self._open) - self._is_document

    def _close(self, begin: int) -> None:
        node = self._open.pop()
        if node.is_mixed or (node.has_space and not node.has_child):
            del self._breaks[node.breaks :]
        elif node.has_child:
            self._breaks.append((begin, self._depth()))
