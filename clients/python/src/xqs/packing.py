"""Nodes packed into texts, so that a part of a long document has few nodes of its own; and the
query that makes the nodes again.

To store or drop a node takes the server several times as long as to make one, and a text takes
little, however long it is. So about a hundred adjacent nodes in a part become one text. A text is a
list: three digits for the number of nodes, then eleven digits for each node, and then their names
and contents, one after another. The digits are the kind (1), the length of the name (2), the place
of the name in the text (4, from 1; the content follows it), and the length of the content (4). The
content of an element is the list of its attributes and children, or only its text if it has nothing
else; that of any other node is its value. A part has such texts in elements `s`, and other nodes in
elements `n`.
"""

from collections.abc import Iterable, Iterator, Sequence
from typing import TypeAlias

from xqs.values import quoted

DEEPEST = 8
"""The greatest depth of nested elements in a text."""
HIGHEST = 60
"""Nodes are packed only up to this depth: the expression that makes them nests too, by four levels
for each level of elements."""
LONGEST = 9_000
"""The most characters of a text."""
LEAST_PART = 100_000
"""A shorter part, in bytes, holds plain nodes: the expression that makes nodes of texts has some
4,000 bytes."""
SHORT = 1_000
"""A text takes further nodes up to this many characters: the time to look into it grows with its
length."""
MOST_NODES, LONGEST_NAME = 999, 99
_COUNT, _HEAD = 3, 11
_ELEMENT, _VALUED, TEXT, ATTRIBUTE, COMMENT, INSTRUCTION = 1, 2, 3, 4, 5, 6
"""The digits of the kinds of nodes; a valued one is an element with only a text."""

Packed: TypeAlias = tuple[int, str, str, int]
"""A node as it stands in a text: its kind, its name, its content, and the depth of nested elements
in it. (A tuple, since each node of a long document becomes one.)"""


def packed_leaf(kind: int, name: str, value: str) -> Packed | None:
    """A node with a value; None if it doesn't fit a text."""
    if len(value) > LONGEST or len(name) > LONGEST_NAME:
        return None
    return kind, name, value, 0


def packed_element(name: str, nodes: Sequence[Packed | None]) -> Packed | None:
    """An element with these attributes and children; None if it doesn't fit a text."""
    if len(nodes) > MOST_NODES or len(name) > LONGEST_NAME:
        return None
    if len(nodes) == 1 and (only := nodes[0]) and only[0] == TEXT:
        return _VALUED, name, only[2], 1
    text, depth = _listed(nodes)
    if depth >= DEEPEST or len(text) > LONGEST:
        return None
    return _ELEMENT, name, text, depth + 1


def _listed(nodes: Sequence[Packed | None]) -> tuple[str, int]:
    """The text of a list of nodes, and the depth of nested elements in it; a depth above the limit
    if a node is not packed, or if they are too long."""
    heads, bodies, deepest = ["%03d" % len(nodes)], list[str](), 0
    at = _COUNT + _HEAD * len(nodes) + 1
    for node in nodes:
        if node is None or at > LONGEST:
            return "", DEEPEST
        kind, name, content, depth = node
        heads.append("%d%02d%04d%04d" % (kind, len(name), at, len(content)))
        bodies.append(name)
        bodies.append(content)
        at += len(name) + len(content)
        deepest = max(deepest, depth)
    return "".join(heads) + "".join(bodies), deepest


def part_of(items: Iterable[tuple[str, Packed | None]]) -> str:
    """The content of a part, from the constructor and the packed form of each node."""
    return ", ".join(_elements(items))


def _elements(items: Iterable[tuple[str, Packed | None]]) -> Iterator[str]:
    plain: list[str] = []
    nodes: list[Packed] = []
    size = 0
    for constructor, node in items:
        more = _HEAD + len(node[1]) + len(node[2]) if node else 0
        if nodes and (node is None or size + more > SHORT):
            yield f"element s {{{quoted(_listed(nodes)[0])}}}"
            nodes, size = [], 0
        if node is None:
            plain.append(constructor)
            continue
        if plain:
            yield f"element n {{{', '.join(plain)}}}"
            plain = []
        nodes.append(node)
        size += more
    if nodes:
        yield f"element s {{{quoted(_listed(nodes)[0])}}}"
    if plain:
        yield f"element n {{{', '.join(plain)}}}"


def unpacked(addresses: Iterable[str]) -> str:
    """The expression that makes the nodes of parts again, one part after another."""
    parts = ", ".join(f'doc("{it}")/*' for it in addresses)
    return (f"for $p in ({parts}) let $c0 := string($p) return if ($p/self::n) then $p/node() else "
            f"{_nodes(1)}")


def counted(document: str, nodes: int) -> str:
    """The expression that gives a document if it has exactly this number of nodes, else nothing."""
    return (f"let $d := {document} return if (count($d/descendant-or-self::node()) + "
            f"count($d//@*) = {nodes}) then $d else ()")


def _nodes(level: int) -> str:
    """The expression that makes the nodes of a list from the text of the level above. At the
    deepest level it makes one more list, whose elements hold no lists."""
    text, i, h, n, c = f"$c{level - 1}", *(f"${it}{level}" for it in "ihnc")
    below = _nodes(level + 1) if level <= DEEPEST else "()"
    at, length = f"{h} idiv 10000 mod 10000", f"{h} idiv 100000000 mod 100"
    return (
        f"for {i} in 1 to xs:integer(substring({text}, 1, 3)) "
        f"let {h} := xs:integer(substring({text}, 11 * {i} - 7, 11)), "
        f"{n} := substring({text}, {at}, {length}), "
        f"{c} := substring({text}, {at} + {length}, {h} mod 10000) return "
        f"if ({h} < 20000000000) then element {{{n}}} {{{below}}} else "
        f"if ({h} < 30000000000) then element {{{n}}} {{text {{{c}}}}} else "
        f"if ({h} < 40000000000) then text {{{c}}} else "
        f"if ({h} < 50000000000) then attribute {{{n}}} {{{c}}} else "
        f"if ({h} < 60000000000) then comment {{{c}}} else "
        f"processing-instruction {{{n}}} {{{c}}}")
