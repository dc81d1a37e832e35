"""Which tokens may continue a text of the language: a recognizer for the grammar's table.

It uses Earley's algorithm, which takes any grammar. After each token it holds all productions that
the text so far may be part of. So the first token that fits none of them is the place of the fault,
and the tokens that would fit are known.
"""

import re
import time
from collections.abc import Sequence
from dataclasses import dataclass
from functools import cache, cached_property
from typing import TypeAlias

from xqs.language_tables import GRAMMAR

Terminal: TypeAlias = str
"""A kind of token, as NAME; or in quotes a word or symbol that stands for itself."""
SECONDS = 2.0
"""The longest time for reading a list of tokens, in processor seconds."""
_PIECE = re.compile(r'"[^"]*"|\w+|[()|?*]')
_Item: TypeAlias = tuple[int, int, int]
"""A production, how much of it has been read, and at which token it began."""


@dataclass(frozen=True)
class Reading:
    """How far a list of tokens can be read: `count` of them; which kinds may follow there; and
    whether they are a whole text."""

    count: int
    expected: frozenset[Terminal]
    is_whole: bool


class Grammar:
    """The productions of a table, without its brackets and signs of repetition."""

    def __init__(self, table: str) -> None:
        """`table` has one production per line, which may continue on indented lines; the first one
        is the whole text."""
        self.heads: list[str] = []
        self.bodies: list[tuple[str, ...]] = []
        self.of: dict[str, list[int]] = {}
        whole = re.sub(r"\n +", " ", table.strip())
        lines = [line.split(" ::= ") for line in whole.splitlines()]
        self.start = lines[0][0]
        for name, body in lines:
            self._pieces: list[str] = _PIECE.findall(body)
            self._add_all(name, self._choice())

    @cached_property
    def empty(self) -> frozenset[str]:
        """The symbols that may match no token at all."""
        found: set[str] = set()
        while True:
            more = {head for head, body in zip(self.heads, self.bodies, strict=True)
                    if all(it in found for it in body)}
            if more <= found:
                return frozenset(found)
            found |= more

    def _add_all(self, name: str, bodies: Sequence[tuple[str, ...]]) -> str:
        for body in bodies:
            self.of.setdefault(name, []).append(len(self.heads))
            self.heads.append(name)
            self.bodies.append(body)
        return name

    def _choice(self) -> list[tuple[str, ...]]:
        found = [self._sequence()]
        while self._pieces and self._pieces[0] == "|":
            self._pieces.pop(0)
            found.append(self._sequence())
        return found

    def _sequence(self) -> tuple[str, ...]:
        parts: list[str] = []
        while self._pieces and self._pieces[0] not in "|)":
            parts.append(self._part())
        return tuple(parts)

    def _part(self) -> str:
        part: str = self._pieces.pop(0)
        if part == "(":
            inner = self._choice()
            self._pieces.pop(0)
            part = self._add_all(self._new_name(), inner)
        sign = self._pieces[0] if self._pieces else ""
        if sign not in ("?", "*") or not sign:
            return part
        self._pieces.pop(0)
        name = self._new_name()
        return self._add_all(name, [(), (part,) if sign == "?" else (name, part)])

    def _new_name(self) -> str:
        return f"_{len(self.heads)}"


class _Set:
    """The items that may be under way after some tokens."""

    def __init__(self) -> None:
        self.items: list[_Item] = []
        self._seen: set[_Item] = set()
        self.predicted: set[str] = set()
        self.waiting: dict[str, list[_Item]] = {}

    def add(self, item: _Item) -> None:
        """Adds an item, once."""
        if item not in self._seen:
            self._seen.add(item)
            self.items.append(item)


class Reader:
    """Reads one list of tokens."""

    def __init__(self, grammar: Grammar, kinds: Sequence[Terminal] = ()) -> None:
        """`kinds` are those of the first tokens."""
        self._grammar = grammar
        self._sets = [_Set()]
        for number in grammar.of[grammar.start]:
            self._sets[0].add((number, 0, 0))
        self._close()
        for kind in kinds:
            self.take(frozenset((kind,)))

    def expected(self) -> frozenset[Terminal]:
        """The kinds of tokens that may come next."""
        return frozenset(it for it in self._sets[-1].waiting if it not in self._grammar.of)

    def is_whole(self) -> bool:
        """Whether the tokens so far are a whole text."""
        heads, bodies = self._grammar.heads, self._grammar.bodies
        start = self._grammar.start
        return any(begin == 0 and heads[number] == start and dot == len(bodies[number])
                   for number, dot, begin in self._sets[-1].items)

    def take(self, kinds: frozenset[Terminal]) -> bool:
        """Takes a token of these kinds. Returns whether it fits."""
        last, following = self._sets[-1], _Set()
        for kind in kinds:
            for number, dot, begin in last.waiting.get(kind, ()):
                following.add((number, dot + 1, begin))
        if not following.items:
            return False
        self._sets.append(following)
        self._close()
        return True

    def _close(self) -> None:
        """Adds all that follows from the items of the last set."""
        here, bodies = self._sets[-1], self._grammar.bodies
        for item in here.items:  # (which grows during the loop)
            number, dot, begin = item
            if dot == len(bodies[number]):
                self._complete(here, self._grammar.heads[number], begin)
            else:
                self._await(here, bodies[number][dot], item)

    def _complete(self, here: _Set, head: str, begin: int) -> None:
        for number, dot, start in self._sets[begin].waiting.get(head, ()):
            here.add((number, dot + 1, start))

    def _await(self, here: _Set, symbol: str, item: _Item) -> None:
        here.waiting.setdefault(symbol, []).append(item)
        if symbol not in self._grammar.of:
            return
        if symbol not in here.predicted:
            here.predicted.add(symbol)
            at = len(self._sets) - 1
            for number in self._grammar.of[symbol]:
                here.add((number, 0, at))
        if symbol in self._grammar.empty:
            here.add((item[0], item[1] + 1, item[2]))


@cache
def language() -> Grammar:
    """The grammar of the language."""
    return Grammar(GRAMMAR)


def read(tokens: Sequence[frozenset[Terminal]], seconds: float = SECONDS) -> Reading | None:
    """How far the tokens can be read, each given by its kinds; None if that takes too many
    processor seconds."""
    reader, end = Reader(language()), time.thread_time() + seconds
    for number, kinds in enumerate(tokens):
        if time.thread_time() > end:
            return None
        if not reader.take(kinds):
            return Reading(number, reader.expected(), False)
    return Reading(len(tokens), reader.expected(), reader.is_whole())
