"""Values in a query, so that nobody pastes text into one.

`q("doc($a)//b[@id = $id]", a="books", id=7)` is a query in which `$a` and `$id` are bound.
"""

import re
from collections.abc import Iterable
from decimal import Decimal
from typing import TypeAlias

from xqs.values import Item, Node, Untyped, quoted

Value: TypeAlias = Item | Iterable[Item | None] | None
"""A value for a query: an item, several items, or none."""

NOT_XML = re.compile("[^\t\n\r\x20-\ud7ff\ue000-\ufffd\U00010000-\U0010ffff]")
"""A character that XML 1.0 doesn't have."""
_LEAST, _MOST = -(2**63), 2**63 - 1
_DECIMAL_BOUND = 10**19


def q(query: str, /, **values: Value) -> str:
    """The query with a variable for each value, under its name.

    Values are int, Decimal, str, bool, Untyped, Node, an iterable of these, or None for the empty
    sequence. Raises TypeError for any other, as float, since the server has no doubles; ValueError
    for a number out of the server's range, a text with a character that XML 1.0 doesn't have, and a
    name that no variable can have.
    """
    if not values:
        return query
    bindings = ", ".join(f"${_variable(name)} := {literal(it)}" for name, it in values.items())
    return f"let {bindings} return ({query}\n)"


def _variable(name: str) -> str:
    if not name.isidentifier():
        raise ValueError(f"not the name of a variable: {name!r}")
    return name


def literal(value: Value) -> str:
    """A value as an expression that gives it; errors as in `q`."""
    match value:
        case bool():
            return "true()" if value else "false()"
        case int():
            return _integer(value)
        case Decimal():
            return _decimal(value)
        case Untyped():
            return f"xs:untypedAtomic({_string(value)})"
        case str():
            return _string(value)
        case Node():
            return value.constructor()
        case None:
            return "()"
        case Iterable():
            return "(" + ", ".join(literal(it) for it in value) + ")"
    raise TypeError(f"a value of type {type(value).__name__} can't be put into a query")


def _string(value: str) -> str:
    wrong = NOT_XML.search(value)
    if wrong:
        raise ValueError(f"the character U+{ord(wrong[0]):04X} at {wrong.start()} is not of XML")
    return quoted(value)


def _integer(value: int) -> str:
    if not _LEAST <= value <= _MOST:
        raise ValueError(f"an integer has 64 bits: {value}")
    return f'xs:integer("{value}")' if value == _LEAST else f"({value})"


def _decimal(value: Decimal) -> str:
    if not value.is_finite() or abs(value) >= _DECIMAL_BOUND:
        raise ValueError(f"a decimal is below 10^19: {value}")
    text = format(value, "f")
    whole, _, part = text.partition(".")
    part = part.rstrip("0")
    if len(part) > 6:
        raise ValueError(f"a decimal has six digits after the point: {value}")
    return f"({whole}.{part or '0'})"
