"""Literal documents of one frame, of three shapes; the rows of a document; the pages of a log."""

from __future__ import annotations

from collections.abc import Callable, Iterable, Mapping
from typing import NamedTuple

from xqs.values import Close, Leaf, NodeKind, Open, events

RECORDS, PARAGRAPHS, CHAINS, LEVELS = 4_500, 2_600, 750, 40
PLACES = ("Bamberg", "Chartres", "Durham", "Leiden", "Parma", "Uppsala", "Vic")
WORDS = ("a letter of the abbot to the chapter, of which the seal is lost, and which was copied in "
         "the year after by a hand that is not known, with marks at the edge and between ")
KINDS = tuple(NodeKind)


class Row(NamedTuple):
    """A row of a document, with its name in the place of the label."""

    pre: int
    size: int
    level: int
    kind: int
    name: str
    value: str


def records(turn: int) -> str:
    """Records of nine nodes; each turn gives other values."""
    return of_parts(
        f'element record {{attribute id {{"{number}"}}, attribute state {{"it is kept {turn}"}}, '
        f'element title {{"Charter {number * 7919 % 10007}, read in turn {turn}"}}, '
        f'element date {{"{1100 + number * 17 % 400}-{turn % 12 + 1:02}-01"}}, '
        f'element place {{"{PLACES[(number + turn) % len(PLACES)]}"}}}}'
        for number in range(RECORDS))


def prose(turn: int) -> str:
    """Paragraphs of five nodes: two texts, and a third below an element between them."""
    return of_parts(
        f'element p {{"{number}: {WORDS}", element em {{"{turn}"}}, '
        f'" and so on, as number {number} has it."}}' for number in range(PARAGRAPHS))


def nested(turn: int) -> str:
    """Chains of elements, each in another, with a text in the last."""
    opened = "".join(f"element division{level} {{" for level in range(LEVELS))
    return of_parts(f'{opened}"text {number} of turn {turn}"{"}" * LEVELS}'
                    for number in range(CHAINS))


def of_parts(parts: Iterable[str]) -> str:
    """The document of some nodes."""
    return f"document {{{', '.join(parts)}}}"


SHAPES: Mapping[str, Callable[[int], str]] = {
    "records": records, "prose": prose, "nested": nested}


def rows_of(printed: str) -> list[Row]:
    """The rows of a document that the server printed."""
    rows: list[Row] = []
    above: list[int] = []
    for event in events(printed):
        if isinstance(event, Close):
            first = above.pop()
            rows[first] = rows[first]._replace(size=len(rows) - first - 1)
        elif isinstance(event, Open | Leaf):
            value = event.value if isinstance(event, Leaf) else ""
            kind = KINDS.index(event.kind)
            rows.append(Row(len(rows), 0, len(above), kind, event.name, value))
            if isinstance(event, Open):
                above.append(len(rows) - 1)
    return rows


def written(log: bytes) -> tuple[bytes, int]:
    """The salts of a log of SQLite's, and how many pages it holds since it began anew with them."""
    if len(log) < 32:
        return b"", 0
    step, salts = int.from_bytes(log[8:12], "big") + 24, log[16:24]
    places = range(32, len(log) - step + 1, step)
    beyond = (number for number, at in enumerate(places) if log[at + 8:at + 16] != salts)
    return salts, next(beyond, len(places))


def pages(before: bytes, after: bytes) -> int:
    """How many pages of log were written between two looks at it, if it began anew once at most."""
    (old, count), (salts, many) = written(before), written(after)
    return many - count if salts == old else many
