"""The items of an answer as JSON: for programs, and with all that the page shows of them.

The page doesn't parse replies. It gets each item with its type, its text, its XML in lines and its
tree, and shows these as they are.
"""

import json
from collections.abc import Callable

from xqs.prefixed import told
from xqs.values import Atom, Close, Event, Leaf, NodeKind, Open, events, items
from xqs.web_forms import type_of
from xqs.web_lines import LineWriter
from xqs.web_table import table_of
from xqs.xml_out import atom_text, speller

json_text = json.JSONEncoder(ensure_ascii=False).encode
"""A value as JSON."""
LONGEST_TABLE = 1_000_000
"""A longer reply, in characters, is not made into a table."""


class _ItemWriter:
    """Writes the items of an answer, one after another."""

    def __init__(self, names: str, is_page: bool) -> None:
        self._is_page = is_page
        self._lines = LineWriter(names)
        self._name = speller(names)
        self._type = ""
        self._texts: list[str] = []
        self._tree: list[str] = []
        self._heads: list[_Head] = []

    def event(self, event: Event) -> bool:
        """Takes the next event. Returns whether the item ends with it."""
        self._type = self._type or type_of(event)
        self._lines.event(event)
        match event:
            case Open(kind, name):
                self._begin()
                self._heads.append(_Head())
                self._tree.append(f"[{json_text(kind)},{json_text(self._name(name))},[")
            case Leaf(NodeKind.ATTRIBUTE, name, value) if self._heads:
                comma = "," if self._heads[-1].attributes else ""
                self._heads[-1].attributes += 1
                self._tree.append(f"{comma}{json_text(self._name(name))},{json_text(value)}")
            case Leaf(kind, name, value):
                self._begin()
                self._leaf(kind, self._name(name), value)
            case Close():
                self._tree.append("]]" if self._heads.pop().children else "],[]]")
            case Atom(value):
                self._texts.append(atom_text(value))
        return not self._heads

    def _begin(self) -> None:
        """A child of the open node begins."""
        if self._heads:
            self._tree.append("," if self._heads[-1].children else "],[")
            self._heads[-1].children += 1

    def _leaf(self, kind: NodeKind, name: str, value: str) -> None:
        if kind is NodeKind.TEXT or not self._heads:
            self._texts.append(value)
        self._tree.append(f"[{json_text(kind)},{json_text(name)},{json_text(value)}]")

    def write(self, write: Callable[[str], object]) -> None:
        """Writes the item, once it has ended; another one may follow."""
        lines = self._lines.take_lines()
        text = json_text("".join(self._texts))
        write(f'{{"type":"{self._type}","text":{text},"xml":')
        if self._is_page:
            write("[" + ",".join([f"{depth},{json_text(line)}" for depth, line in lines]))
            write(f'],"tree":{"".join(self._tree) or "null"}}}')
        else:
            write(json_text("".join([line for _, line in lines])) + "}")
        self._type = ""
        self._texts.clear()
        self._tree.clear()


class _Head:
    """The parts of an open node that have come."""

    __slots__ = ("attributes", "children")

    def __init__(self) -> None:
        self.attributes = self.children = 0


def _written_items(text: str, names: str, is_page: bool) -> str:
    """The items as the elements of an array, without its brackets."""
    out: list[str] = []
    item = _ItemWriter(names, is_page)
    for event in events(text):
        if item.event(event):
            item.write(out.append)
            out.append(",")
    return "".join(out[:-1])


def as_json(text: str, names: str) -> str:
    """Printed items as an array of JSON: the `type`, `text` and `xml` of each item.

    Raises Misspelt if the text is no printed value.
    """
    return f"[{_written_items(text, names, False)}]"


def as_page_json(text: str, names: str) -> str:
    """Printed items as an object of JSON for the page.

    `constructors` is the reply itself. Each of the `items` has `xml`, a list of depths and texts:
    joined, the texts are the exact XML; each text with a depth from 0 is a line of the indented
    form, which leaves out those with depth -1. Its `tree` is `[kind, name, value]`, or `[kind,
    name, [name, value, ..], [tree, ..]]` for a document or an element, and null for an atomic
    value. `table` is null, or the items in rows.
    """
    table = table_of(items(text), names) if len(text) <= LONGEST_TABLE else None
    return (f'{{"constructors":{json_text(told(text, names))},'
            f'"items":[{_written_items(text, names, True)}],'
            f'"table":{json_text(table)}}}')
