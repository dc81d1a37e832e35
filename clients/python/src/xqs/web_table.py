"""A sequence as a table: elements with the same parts, or texts and numbers in alternation."""

import re
from collections.abc import Iterable, Iterator, Sequence
from itertools import chain
from typing import TypedDict

from xqs.values import Item, Node, NodeKind
from xqs.xml_out import atom_text, speller

NUMBER = re.compile(r"\s*[+-]?(\d+(\.\d*)?|\.\d+)\s*")
MOST_COLUMNS = 50
Row = dict[str, str]
"""The cells of a row by the names of their columns."""


class Table(TypedDict):
    """Columns with the type of each, `number` or `text`, and rows; a missing cell is None."""

    columns: list[str]
    kinds: list[str]
    rows: list[list[str | None]]


def table_of(items: Iterable[Item], names: str) -> Table | None:
    """The items as a table, or None if they make none.

    Each element is a row. Its columns are its attributes, as `@NAME`, and the elements in it, which
    must have different names and no elements of their own. If all elements have only a text, the
    column is that text. Texts and numbers in alternation make rows of two columns.
    """
    rest = iter(items)
    first = next(rest, None)
    if first is None:
        return None
    rows = _elements(chain([first], rest), names) if isinstance(first, Node) else _pairs(
        chain([first], rest))
    if not rows:
        return None
    columns = list(dict.fromkeys(name for row in rows for name in row))
    if not columns or len(columns) > MOST_COLUMNS:
        return None
    cells = [[row.get(name) for name in columns] for row in rows]
    kinds = [_kind([row[at] for row in cells]) for at in range(len(columns))]
    return Table(columns=columns, kinds=kinds, rows=cells)


def _kind(cells: Sequence[str | None]) -> str:
    given = [cell for cell in cells if cell is not None]
    return "number" if given and all(map(NUMBER.fullmatch, given)) else "text"


def _pairs(items: Iterator[Item]) -> list[Row]:
    """Rows of a text and a number each; none if the items are anything else."""
    rows: list[Row] = []
    for text in items:
        number = next(items, None)
        if not isinstance(text, str) or number is None or isinstance(number, str | Node | bool):
            return []
        rows.append({"1": atom_text(text), "2": atom_text(number)})
    return rows


def _elements(items: Iterable[Item], names: str) -> list[Row]:
    """A row for each element; none if one of them makes no row, or has other columns."""
    rows: list[Row] = []
    for item in items:
        row = _row(item, names)
        if row is None or (rows and not row.keys() & rows[0].keys()):
            return []
        rows.append(row)
    return rows


def _row(item: Item, names: str) -> Row | None:
    """The cells of an element; None if it makes no row."""
    if not isinstance(item, Node) or item.kind is not NodeKind.ELEMENT:
        return None
    spell = speller(names)
    row = {f"@{spell(name)}": value for name, value in item.attributes.items()}
    children = [it for it in item.children if not _is_space(it)]
    if all(it.kind is NodeKind.TEXT for it in children):
        if children or not row:
            row[spell(item.name)] = item.text
        return row
    for child in children:
        if child.kind is NodeKind.COMMENT:
            continue
        name = spell(child.name)
        if child.kind is not NodeKind.ELEMENT or name in row or not _is_plain(child):
            return None
        row[name] = child.text
    return row


def _is_space(node: Node) -> bool:
    return node.kind is NodeKind.TEXT and not node.value.strip(" \t\r\n")


def _is_plain(node: Node) -> bool:
    """Whether an element holds only a text."""
    return not node.attributes and all(it.kind is NodeKind.TEXT for it in node.children)
