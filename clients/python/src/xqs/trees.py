"""Nodes as trees of Python's ElementTree and of lxml, and the reverse.

lxml is imported only when one of its trees is needed. Names with a namespace are refused: the
server has no namespaces, and neither package can have a colon in a name without one.
"""

import importlib
import xml.etree.ElementTree as ElementTree
from collections.abc import Iterator
from types import ModuleType
from typing import Any, TypeAlias

from xqs.errors import XqError
from xqs.values import Node, NodeKind

Element: TypeAlias = Any
"""An element of ElementTree or lxml, which have no types."""


class NoTree(XqError, ValueError):
    """A node that has no such tree, or a tree that is no node."""


def lxml_etree() -> ModuleType:
    """The package. Raises NoTree if it isn't installed."""
    try:
        return importlib.import_module("lxml.etree")
    except ImportError as error:
        raise NoTree("this needs lxml (Debian: python3-lxml), which is not installed") from error


def to_element(node: Node) -> ElementTree.Element:
    """An element, or that of a document, for ElementTree.

    Raises NoTree for other nodes, and for a document with more than its element, which lxml can
    hold.
    """
    root, before, after = _parts(node)
    if before or after:
        raise NoTree("the document has comments or instructions beside its element, for which "
                     "ElementTree has no room; lxml has")
    element: ElementTree.Element = _element(root, ElementTree)
    return element


def to_lxml(node: Node) -> Element:
    """An element for lxml; for a document its tree, with what is beside its element."""
    etree = lxml_etree()
    root, before, after = _parts(node)
    try:
        element = _element(root, etree)
        for it in before:
            element.addprevious(_beside(it, etree))
        for it in reversed(after):
            element.addnext(_beside(it, etree))
    except ValueError as error:
        raise NoTree(f"lxml doesn't take it: {error}") from error
    return element.getroottree() if node.kind is NodeKind.DOCUMENT else element


def _parts(node: Node) -> tuple[Node, list[Node], list[Node]]:
    """The element of an element or a document, and the nodes before and after it."""
    if node.kind is NodeKind.ELEMENT:
        return node, [], []
    roots = [number for number, it in enumerate(node.children) if it.kind is NodeKind.ELEMENT]
    is_one = node.kind is NodeKind.DOCUMENT and len(roots) == 1
    if not is_one or any(it.kind is NodeKind.TEXT for it in node.children):
        raise NoTree(f"a tree is of an element, or of a document with one; this is: {node.kind}")
    return node.children[roots[0]], node.children[: roots[0]], node.children[roots[0] + 1 :]


def _element(node: Node, package: ModuleType) -> Element:
    element = package.Element(node.name)
    for name, value in node.attributes.items():
        element.set(name, value)
    last: Element = None
    for child in node.children:
        if child.kind is NodeKind.TEXT:
            _add_text(element, last, child.value)
        else:
            last = (_element if child.kind is NodeKind.ELEMENT else _beside)(child, package)
            element.append(last)
    return element


def _add_text(element: Element, last: Element, text: str) -> None:
    if last is None:
        element.text = (element.text or "") + text
    else:
        last.tail = (last.tail or "") + text


def _beside(node: Node, package: ModuleType) -> Element:
    """A comment or an instruction."""
    if node.kind is NodeKind.COMMENT:
        return package.Comment(node.value)
    return package.ProcessingInstruction(node.name, node.value)


def from_tree(tree: Element) -> Node:
    """The node of an element, or of a whole tree, of ElementTree or lxml.

    Raises NoTree for anything else, and for names with a namespace.
    """
    if hasattr(tree, "getroot"):
        root = tree.getroot()
        if root is None:
            raise NoTree("the tree has no element")
        return Node(NodeKind.DOCUMENT, children=[
            *reversed([_node(it) for it in _siblings(root, True)]), _node(root),
            *(_node(it) for it in _siblings(root, False))])
    if not hasattr(tree, "tag") or not hasattr(tree, "attrib"):
        raise NoTree(f"neither an element nor a tree: {tree!r}")
    return _node(tree)


def _siblings(root: Element, preceding: bool) -> Iterator[Element]:
    """The nodes beside the element of a tree of lxml; none for ElementTree."""
    if hasattr(root, "itersiblings"):
        yield from root.itersiblings(preceding=preceding)


def _node(element: Element) -> Node:
    if not isinstance(element.tag, str):
        return _beside_node(element)
    node = Node(NodeKind.ELEMENT, _name(element.tag),
                attributes={_name(name): value for name, value in element.attrib.items()})
    _add_node_text(node, element.text)
    for child in element:
        node.children.append(_node(child))
        _add_node_text(node, child.tail)
    return node


def _beside_node(element: Element) -> Node:
    text = element.text or ""
    called = getattr(element.tag, "__name__", "")
    if called == "Comment":
        return Node(NodeKind.COMMENT, value=text)
    if called not in ("ProcessingInstruction", "PI"):
        raise NoTree(f"neither an element, a comment nor an instruction: {element!r}")
    if hasattr(element, "target"):
        return Node(NodeKind.INSTRUCTION, element.target, text)
    name, _, value = text.partition(" ")
    return Node(NodeKind.INSTRUCTION, name, value)


def _add_node_text(node: Node, text: str | None) -> None:
    if not text:
        return
    if node.children and node.children[-1].kind is NodeKind.TEXT:
        node.children[-1].value += text
    else:
        node.children.append(Node(NodeKind.TEXT, value=text))


def _name(name: str) -> str:
    if name.startswith("{") or ":" in name:
        raise NoTree(f"the name {name} has a namespace or a prefix, and the server has none")
    return name
