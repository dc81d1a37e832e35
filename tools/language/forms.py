"""The forms of a query: what rows.queries reads from its text."""

from __future__ import annotations

from typing import NamedTuple, TypeAlias

from tools.language.tokens import Name

# Any expression, clause, step or test: one of the classes below.
Form: TypeAlias = tuple[object, ...]

# Primary expressions.


class Integer(NamedTuple):
    """An integer literal."""

    value: int


class Decimal(NamedTuple):
    """A decimal literal."""

    millionths: int


class String(NamedTuple):
    """A string literal."""

    text: str


class Variable(NamedTuple):
    """A use of a variable."""

    name: Name


class ContextItem(NamedTuple):
    """The context item."""


class Sequence(NamedTuple):
    """Parts between commas, or none."""

    parts: list[Form]


class Call(NamedTuple):
    """A function call."""

    name: Name
    arguments: list[Form]

# Operators. A chain has pairs of an operator and its right operand.


class Or(NamedTuple):
    """Parts joined by `or`."""

    parts: list[Form]


class And(NamedTuple):
    """Parts joined by `and`."""

    parts: list[Form]


class Comparison(NamedTuple):
    """A comparison of any kind."""

    left: Form
    kind: str
    relation: str
    right: Form


class Concat(NamedTuple):
    """Parts joined by `||`."""

    parts: list[Form]


class Range(NamedTuple):
    """The integers from one to another."""

    first: Form
    last: Form


class Sum(NamedTuple):
    """A chain of `+` and `-`."""

    first: Form
    rest: list[tuple[str, Form]]


class Product(NamedTuple):
    """A chain of `*`, `div`, `idiv` and `mod`."""

    first: Form
    rest: list[tuple[str, Form]]


class Union(NamedTuple):
    """Parts joined by `|`."""

    parts: list[Form]


class SetOperation(NamedTuple):
    """A chain of `intersect` and `except`."""

    first: Form
    rest: list[tuple[str, Form]]


class Unary(NamedTuple):
    """Signs before a part."""

    signs: list[str]
    part: Form
# The calls are pairs of a name and the arguments after the first.


class Arrow(NamedTuple):
    """A part and the calls that it goes through."""

    first: Form
    calls: list[tuple[Name, list[Form]]]


class Map(NamedTuple):
    """Parts joined by `!`."""

    parts: list[Form]


class If(NamedTuple):
    """A conditional expression."""

    condition: Form
    yes: Form
    no: Form


class Quantified(NamedTuple):
    """`some` or `every`."""

    quantifier: str
    bindings: list[Binding]
    condition: Form

# Paths: pairs of a separator and a step follow the first step.


class Root(NamedTuple):
    """A slash alone."""


class Path(NamedTuple):
    """Steps from a start."""

    start: str
    first: Form
    rest: list[tuple[str, Form]]


class PrimaryStep(NamedTuple):
    """A primary expression as a step."""

    part: Form
    predicates: list[Form]


class ParentStep(NamedTuple):
    """The step `..`."""

    predicates: list[Form]


class AttributeStep(NamedTuple):
    """A step that begins with `@`."""

    test: Form
    predicates: list[Form]


class AxisStep(NamedTuple):
    """A step with its axis."""

    axis: str
    test: Form
    predicates: list[Form]


class ShortStep(NamedTuple):
    """A step without its axis."""

    test: Form
    predicates: list[Form]


class NameTest(NamedTuple):
    """A test by name."""

    name: Name


class KindTest(NamedTuple):
    """A test by kind."""

    kind: str


class NamedKindTest(NamedTuple):
    """A test by kind and name."""

    kind: str
    name: Name | None

# Constructors: the name is a Name, or the expression that gives it.


class Named(NamedTuple):
    """A constructor of a node with a name."""

    kind: str
    name: Name | Form
    content: Form


class Unnamed(NamedTuple):
    """A constructor of a node without a name."""

    kind: str
    content: Form

# FLWOR.


class Flwor(NamedTuple):
    """A FLWOR expression."""

    clauses: list[Form]
    result: Form


class For(NamedTuple):
    """A clause `for`."""

    bindings: list[Each]


class Each(NamedTuple):
    """A variable of `for`."""

    name: Name
    allows_empty: bool
    position: Name | None
    range: Form


class Let(NamedTuple):
    """A clause `let`."""

    bindings: list[Binding]


class Binding(NamedTuple):
    """A variable and its value, or none."""

    name: Name
    value: Form | None


class Where(NamedTuple):
    """A clause `where`."""

    condition: Form


class Group(NamedTuple):
    """A clause `group by`."""

    bindings: list[Binding]


class Order(NamedTuple):
    """A clause `order by`."""

    keys: list[Key]


class Count(NamedTuple):
    """A clause `count`."""

    name: Name


class Key(NamedTuple):
    """A key of an order."""

    part: Form
    descends: bool
    is_empty_greatest: bool
