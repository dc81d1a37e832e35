"""Documents that are edited at random, one after another, as queries that make them.

The numbers follow from a seed, so that a case is the same each time.
"""

from collections.abc import Iterator
from dataclasses import dataclass
from enum import Enum

NAMES = ("a", "b", "c")
WORDS = ("", "1", "2", "three")
"""Texts of attributes and of text nodes, which are absent where there is no text."""
LONG_FROM, LAST_SEED = 57, 60


class Kept(Enum):
    """Which rows of the document before the server keeps as the next is stored."""

    NOTHING = 0
    FRONT = 1
    WHOLE = 2


class Edit(Enum):
    """What is changed of a document."""

    TEXT = 0
    ATTRIBUTE = 1
    PUT_IN = 2
    TAKE_OUT = 3
    MOVE = 4
    EVERYTHING = 5


@dataclass(frozen=True)
class Item:
    """An element, with the texts of its attribute and of its text node."""

    name: str
    id: str
    text: str

    def query(self) -> str:
        """The constructor of the element."""
        parts = (f'attribute id {{"{self.id}"}}' if self.id else "",
                 f'text {{"{self.text}"}}' if self.text else "")
        return f"element {self.name} {{{', '.join(filter(None, parts))}}}"


@dataclass(frozen=True)
class Case:
    """So many edits of a document of so many elements, and what is kept meanwhile."""

    seed: int
    elements: int
    edits: int
    kept: Kept


class Numbers:
    """Numbers that follow from a seed."""

    def __init__(self, seed: int) -> None:
        self.state = seed

    def below(self, bound: int) -> int:
        """The next number, below the bound."""
        self.state = (self.state * 6_364_136_223_846_793_005 + 1) % 2**64
        return (self.state >> 32) % bound

    def item(self) -> Item:
        """The next element."""
        name = NAMES[self.below(3)]
        return Item(name, WORDS[self.below(4)], WORDS[self.below(4)])


def cases() -> Iterator[Case]:
    """The cases; the last documents are so long that they are read and kept in parts."""
    for seed in range(LAST_SEED):
        elements = 600 if seed >= LONG_FROM else 12
        yield Case(seed, elements, seed % 5 + 1, Kept(seed % 3))


def changed(items: list[Item], numbers: Numbers, edit: Edit) -> None:
    """Changes the text of an element, or of its attribute."""
    at, word = numbers.below(len(items) + 1), WORDS[numbers.below(4)]
    if at < len(items):
        old = items[at]
        items[at] = (Item(old.name, old.id, word) if edit is Edit.TEXT
                     else Item(old.name, word, old.text))


def taken_out(items: list[Item], numbers: Numbers) -> Item | None:
    """An element that is taken out, where there is one at the place."""
    at = numbers.below(len(items) + 1)
    return items.pop(at) if at < len(items) else None


def make_edit(items: list[Item], numbers: Numbers) -> None:
    """Makes the next edit."""
    edit = Edit(numbers.below(6))
    if edit in (Edit.TEXT, Edit.ATTRIBUTE):
        changed(items, numbers, edit)
    elif edit is Edit.EVERYTHING:
        items[:] = [numbers.item() for _ in range(10)]
    elif edit is Edit.PUT_IN:
        item = numbers.item()
        items.insert(numbers.below(len(items) + 1), item)
    elif (item_out := taken_out(items, numbers)) and edit is Edit.MOVE:
        items.insert(numbers.below(len(items) + 1), item_out)


def documents(case: Case) -> Iterator[str]:
    """The documents of a case in turn, and one more at the end."""
    numbers = Numbers(case.seed)
    items = [numbers.item() for _ in range(case.elements)]
    for _ in range(case.edits + 1):
        yield f"document {{{', '.join(item.query() for item in items)}}}"
        make_edit(items, numbers)
