"""Nodes as XML text, escaped so that reading it gives the same nodes again."""

import io
from collections.abc import Callable, Iterator

from xqs.errors import XqError
from xqs.values import Atom, Close, Event, Item, Leaf, Node, NodeKind, Open
from xqs.xml_names import NoChoice, outgoing

DECLARATION = '<?xml version="1.0" encoding="UTF-8"?>\n'
_IN_TEXT = str.maketrans({"&": "&amp;", "<": "&lt;", ">": "&gt;", "\r": "&#xD;"})
_IN_VALUE = str.maketrans(
    {"&": "&amp;", "<": "&lt;", '"': "&quot;", "\t": "&#x9;", "\n": "&#xA;", "\r": "&#xD;"}
)
KEEP, FLAT = "keep", "flat"


class NotXml(XqError, ValueError):
    """A document that no XML text can give: it has text or more or less than one element at its
    top, or a carriage return in a comment or a processing instruction."""


def is_flat(names: str) -> bool:
    """Whether to turn flat names into names with a prefix. Raises NoChoice for a word that is
    neither `keep` nor `flat`."""
    if names not in (KEEP, FLAT):
        raise NoChoice(f"names are kept or flat, not {names!r}")
    return names == FLAT


class XmlWriter:
    """Writes printed nodes as XML, as their events come."""

    def __init__(self, write: Callable[[str], object], names: str = KEEP) -> None:
        """`names` is `keep`, or `flat` to turn flat names back (`p__a` into `p:a`)."""
        self._write = write
        self._name = speller(names)
        self._open: list[str] = []
        self._in_tag = False

    def event(self, event: Event) -> None:
        """Writes the next event."""
        match event:
            case Leaf(NodeKind.ATTRIBUTE, name, value):
                space = " " if self._in_tag else ""
                self._write(f'{space}{self._name(name)}="{value.translate(_IN_VALUE)}"')
            case Leaf(kind, name, value):
                self._end_tag()
                self._write(self._leaf(kind, name, value))
            case Open(NodeKind.ELEMENT, name):
                self._end_tag()
                self._open.append(self._name(name))
                self._write("<" + self._open[-1])
                self._in_tag = True
            case Open():
                self._open.append("")
            case Close():
                self._close(self._open.pop())
            case Atom(atom):
                self._write(atom_text(atom).translate(_IN_TEXT))

    def _end_tag(self) -> None:
        if self._in_tag:
            self._write(">")
            self._in_tag = False

    def _close(self, name: str) -> None:
        if self._in_tag:
            self._write("/>")
        elif name:
            self._write(f"</{name}>")
        self._in_tag = False

    def _leaf(self, kind: NodeKind, name: str, value: str) -> str:
        if kind is NodeKind.TEXT:
            return value.translate(_IN_TEXT)
        if kind is NodeKind.COMMENT:
            return f"<!--{value}-->"
        return f"<?{self._name(name)} {value}?>" if value else f"<?{self._name(name)}?>"


def speller(names: str) -> Callable[[str], str]:
    """The function from a stored name to the name in XML; `names` as in XmlWriter."""
    return outgoing if is_flat(names) else _same


def _same(name: str) -> str:
    return name


def atom_text(atom: object) -> str:
    """An atomic value as text, without quotes and escapes."""
    if isinstance(atom, bool):
        return "true" if atom else "false"
    return str(atom)


def node_events(item: Item) -> Iterator[Event]:
    """The events of an item."""
    if not isinstance(item, Node):
        yield Atom(item)
    elif item.kind not in (NodeKind.DOCUMENT, NodeKind.ELEMENT):
        yield Leaf(item.kind, item.name, item.value)
    else:
        yield Open(item.kind, item.name)
        yield from (Leaf(NodeKind.ATTRIBUTE, *it) for it in item.attributes.items())
        for child in item.children:
            yield from node_events(child)
        yield Close()


def xml(item: Item, names: str = KEEP) -> str:
    """An item as XML: a node as its markup, an attribute as `name="value"`, an atomic value as
    text. `names` as in XmlWriter.

    A document may hold what no file of XML can, as two elements; then this text is no such file.
    """
    text = io.StringIO()
    writer = XmlWriter(text.write, names)
    for event in node_events(item):
        writer.event(event)
    return text.getvalue()


def write_document(
    events: Iterator[Event], write: Callable[[str], object], names: str = KEEP
) -> None:
    """Writes a whole document as a text of XML, with a declaration and a line feed at its end.

    Raises NotXml if the document can't be one; part of it may have been written then.
    """
    writer = XmlWriter(write, names)
    write(DECLARATION)
    depth = elements = 0
    for event in events:
        if depth == 1:
            elements += isinstance(event, Open)
            _judge_at_top(event, elements)
        _judge_value(event)
        depth += isinstance(event, Open) - isinstance(event, Close)
        writer.event(event)
        if depth == 1 and isinstance(event, Leaf | Close):
            write("\n")
    if elements != 1:
        raise NotXml("the document has no element at its top")


def _judge_at_top(event: Event, elements: int) -> None:
    if elements > 1:
        raise NotXml("the document has several elements at its top")
    if isinstance(event, Leaf) and event.kind is NodeKind.TEXT:
        raise NotXml("the document has a text at its top")


def _judge_value(event: Event) -> None:
    if not isinstance(event, Leaf) or "\r" not in event.value:
        return
    if event.kind in (NodeKind.COMMENT, NodeKind.INSTRUCTION):
        raise NotXml(f"a {event.kind} holds a carriage return, which XML can't have there")
