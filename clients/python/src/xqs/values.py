"""The text of a reply as Python values, and values as the text of a query."""

import re
from collections.abc import Iterator
from dataclasses import dataclass, field
from decimal import Decimal
from enum import StrEnum
from typing import TYPE_CHECKING, Any, TypeAlias

from xqs.errors import Misspelt

if TYPE_CHECKING:
    from xml.etree import ElementTree


class NodeKind(StrEnum):
    """The kinds of nodes, as constructors name them."""

    DOCUMENT = "document"
    ELEMENT = "element"
    ATTRIBUTE = "attribute"
    TEXT = "text"
    COMMENT = "comment"
    INSTRUCTION = "processing-instruction"


PARENTS = frozenset((NodeKind.DOCUMENT, NodeKind.ELEMENT))
"""The kinds of nodes that hold others."""


class Untyped(str):
    """A value of type xs:untypedAtomic."""

    __slots__ = ()

    def __repr__(self) -> str:
        return f"Untyped({super().__repr__()})"


@dataclass(slots=True)
class Node:
    """A node with all below it.

    Documents and elements have children, and elements have attributes; the other kinds have a
    value. Documents, texts and comments have no name. `str` gives its constructor.
    """

    kind: NodeKind
    name: str = ""
    value: str = ""
    attributes: dict[str, str] = field(default_factory=dict)
    children: list["Node"] = field(default_factory=list)

    def __getitem__(self, name: str) -> str:
        """The value of an attribute. Raises KeyError if there is none of that name."""
        return self.attributes[name]

    def __str__(self) -> str:
        return self.constructor()

    def descendants(self, name: str = "") -> Iterator["Node"]:
        """This node and those below it in document order, without attributes; only those with
        `name`, if it is given."""
        stack = [self]
        while stack:
            node = stack.pop()
            if not name or node.name == name:
                yield node
            stack.extend(reversed(node.children))

    @property
    def text(self) -> str:
        """The string value: for a document or an element the texts below it, joined."""
        if self.kind not in PARENTS:
            return self.value
        return "".join(it.value for it in self.descendants() if it.kind is NodeKind.TEXT)

    def constructor(self) -> str:
        """The text that makes this node, as the server prints it."""
        if self.kind not in PARENTS:
            return leaf(self.kind, self.name, self.value)
        content = [leaf(NodeKind.ATTRIBUTE, *it) for it in self.attributes.items()]
        content.extend(it.constructor() for it in self.children)
        return opening(self.kind, self.name) + ", ".join(content) + "}"

    def xml(self, names: str = "keep") -> str:
        """This node as XML; `names` as in `xqs.xml_out.xml`."""
        from xqs.xml_out import xml

        return xml(self, names)

    def element(self) -> "ElementTree.Element":
        """This element, or that of this document, for xml.etree.ElementTree. Raises NoTree (a
        ValueError) if ElementTree can't hold it."""
        from xqs.trees import to_element

        return to_element(self)

    def lxml(self) -> Any:
        """This element, or this document as a tree, for lxml. Raises NoTree (a ValueError) if lxml
        can't hold it, or isn't installed."""
        from xqs.trees import to_lxml

        return to_lxml(self)

    @classmethod
    def of(cls, tree: Any) -> "Node":
        """The node of an element or of a tree of ElementTree or lxml. Raises NoTree for names with
        a namespace."""
        from xqs.trees import from_tree

        return from_tree(tree)


Item: TypeAlias = int | Decimal | str | bool | Untyped | Node
"""An item of a reply. A Python int may have any size; an integer of the server has 64 bits."""


def quoted(text: str) -> str:
    """A text as a string literal of a query."""
    if "&" in text:
        text = text.replace("&", "&amp;")
    if "\r" in text:
        text = text.replace("\r", "&#xD;")
    if '"' in text:
        text = text.replace('"', '""')
    return f'"{text}"'


def unquoted(literal: str) -> str:
    """The text of a string literal that the server printed."""
    text = literal[1:-1]
    if '"' in text:
        text = text.replace('""', '"')
    if "&" in text:
        text = text.replace("&#xD;", "\r").replace("&amp;", "&")
    return text


def opening(kind: NodeKind, name: str) -> str:
    """The beginning of the constructor of a document or an element."""
    return f"{kind.value} {name} {{" if name else f"{kind.value} {{"


def leaf(kind: NodeKind, name: str, value: str) -> str:
    """The constructor of a node that holds no others."""
    return f"{opening(kind, name)}{quoted(value)}}}"


_STRING = r'"[^"]*+(?:""[^"]*+)*+"'
_TOKEN = re.compile(
    r"(?P<head>(?:document|text|comment|(?:element|attribute|processing-instruction) [^ ]++) \{)"
    rf"(?:(?P<leaf>{_STRING})\}})?"
    r"|(?P<close>\})|(?P<comma>, )"
    rf"|(?P<string>{_STRING})|xs:untypedAtomic\((?P<untyped>{_STRING})\)"
    r"|(?P<true>true\(\))|(?P<false>false\(\))"
    r'|(?P<decimal>-?\d+\.\d+)|xs:integer\("(?P<least>-\d+)"\)|(?P<integer>-?\d+)|(?P<none>\(\))'
)


@dataclass(frozen=True, slots=True)
class Open:
    """A document or an element begins."""

    kind: NodeKind
    name: str


@dataclass(frozen=True, slots=True)
class Leaf:
    """A node that holds no others."""

    kind: NodeKind
    name: str
    value: str


@dataclass(frozen=True, slots=True)
class Close:
    """The innermost open document or element ends."""


@dataclass(frozen=True, slots=True)
class Atom:
    """An atomic value."""

    value: int | Decimal | str | bool | Untyped


Event: TypeAlias = Open | Leaf | Close | Atom
"""An event of printed items; nodes come as in their constructors."""
_CLOSE = Close()


def events(text: str) -> Iterator[Event]:
    """The events of a printed value.

    Raises Misspelt if the text is none. Does not check that each node that opens closes again.
    """
    at, end, match = 0, len(text), _TOKEN.match
    while at < end:
        token = match(text, at)
        if token is None:
            raise Misspelt(f"not a printed value at character {at}: {text[at : at + 40]!r}")
        at = token.end()
        group = token.lastgroup
        if group == "leaf" or group == "head":
            yield _node_event(token["head"][:-2], token["leaf"])
        elif group == "close":
            yield _CLOSE
        elif group != "comma" and group != "none":
            yield Atom(_atom(group or "", token[group or 0]))


def _node_event(head: str, literal: str | None) -> Event:
    word, _, name = head.partition(" ")
    kind = NodeKind(word)
    if literal is None:
        return Open(kind, name)
    return Leaf(kind, name, unquoted(literal))


def _atom(group: str, text: str) -> int | Decimal | str | bool | Untyped:
    match group:
        case "string":
            return unquoted(text)
        case "untyped":
            return Untyped(unquoted(text))
        case "decimal":
            return Decimal(text)
        case "true" | "false":
            return group == "true"
        case _:
            return int(text)


def items(text: str) -> Iterator[Item]:
    """The items in a reply's text, one by one. Raises Misspelt if it is no printed value."""
    stack: list[Node] = []
    for event in events(text):
        match event:
            case Leaf(NodeKind.ATTRIBUTE, name, value) if stack:
                stack[-1].attributes[name] = value
            case Leaf(kind, name, value) if stack:
                stack[-1].children.append(Node(kind, name, value))
            case Leaf(kind, name, value):
                yield Node(kind, name, value)
            case Open(kind, name):
                _open(stack, Node(kind, name))
            case Close():
                node = _left(stack)
                if not stack:
                    yield node
            case Atom(atom):
                yield atom
    if stack:
        raise Misspelt("a printed value that is cut short")


def values(text: str) -> list[Item]:
    """The items in a reply's text. Raises Misspelt if it is no printed value."""
    return list(items(text))


def _open(stack: list[Node], node: Node) -> None:
    if stack:
        stack[-1].children.append(node)
    stack.append(node)


def _left(stack: list[Node]) -> Node:
    if not stack:
        raise Misspelt("a brace closes that was not opened")
    return stack.pop()
