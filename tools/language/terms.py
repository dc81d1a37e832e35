"""Writes the meaning of a query as a term, with the words of crates/xq_meaning/proofs/Writing.

A term is a word, a quoted text, an application (a tuple of a word and its arguments) or a list.
"""

from __future__ import annotations

import re
from collections.abc import Callable, Iterable
from typing import Any, TypeAlias

from tools.language import forms as form
from tools.language.queries import tree
from tools.language.tokens import Name, Refused

# A word or a quoted text, an application, or a list.
Term: TypeAlias = "str | tuple[Term, ...] | list[Term]"

PATHS = {"Relative": "path", "Root": "path_from_root", "RootAndBelow": "path_below_root"}
OPERATORS = {
    "Plus": "plus", "Minus": "minus", "Times": "times", "Div": "div_by", "Idiv": "idiv_by",
    "Mod": "mod_by", "Intersect": "intersect", "Except": "without", "Slash": "slash",
    "DoubleSlash": "below"}
QUANTIFIERS = {"some": "quantifier.Some", "every": "quantifier.Every"}
NAMED_NODES = {"element": "element", "attribute": "attribute",
               "processing-instruction": "instruction"}
# By whether a key descends, and whether an empty one is the greatest.
MODIFIERS = {(False, False): "ascending", (True, False): "descending",
             (False, True): "empty_greatest", (True, True): "descending_greatest"}


def meaning(text: str) -> Term:
    """The term of what the query of this text means; Refused where it is no query."""
    return term(tree(text))


def written(given: Term, is_argument: bool = False) -> str:
    """The text of a term, in parentheses where it stands as an argument and needs them."""
    if isinstance(given, str):
        return given
    if isinstance(given, list):
        return f"({' ∷ '.join([*map(written, given), '[]'])})" if given else "[]"
    text = " ".join(written(part, is_argument=True) for part in given)
    return f"({text})" if is_argument else text


def words(given: Term) -> set[str]:
    """The words of a term, without its quoted texts; of a list also its constructors."""
    if isinstance(given, str):
        return set() if given.startswith('"') else {given}
    found: set[str] = set().union(*map(words, given))
    if isinstance(given, list):
        found.add("[]")
        if given:
            found.add("◌∷◌")
    return found


def is_plain(text: str) -> bool:
    """Whether the characters of a text are its bytes."""
    return all(ord(character) < 127 for character in text)


def quoted(text: str) -> str:
    """The text as a literal."""
    escapes = {"\\": "\\\\", '"': '\\"', "\n": "\\n", "\t": "\\t", "\r": "\\r"}
    return '"%s"' % re.sub(r'[\\"\n\t\r]', lambda match: escapes[str(match.group())], text)


def spelled(name: Name) -> str:
    """The text of a name, which has no prefix."""
    if name.prefix is not None:
        raise Refused("prof:PREFIX")
    return quoted(name.local)


def term(given: form.Form) -> Term:
    """The term of an expression, a clause, a step or a test."""
    return TERMS[type(given)](given)


def terms(given: Iterable[form.Form]) -> list[Term]:
    """The terms of forms, in their order."""
    return [term(part) for part in given]


def chain_of(name: str) -> Callable[[form.Sum | form.Product | form.SetOperation], Term]:
    """What writes a first operand, and the others with their operators."""
    return lambda it: (name, term(it.first), followers(it.rest))


def followers(rest: Iterable[tuple[str, form.Form]]) -> list[Term]:
    """The pairs that follow a first operand or step."""
    return [(OPERATORS[operator], term(part)) for operator, part in rest]


def string_term(it: form.String) -> Term:
    """A string literal; one whose characters are not its bytes has a word of its own."""
    return ("txt" if is_plain(it.text) else "txt8", quoted(it.text))


def called(word: str, name: Name, arguments: list[form.Form]) -> Term:
    """What writes a call: one by a prefixed name has a word of its own."""
    prefix, local = name
    if prefix is None:
        return (word, quoted(local), terms(arguments))
    return (f"{word}_by", ("prefixed", quoted(prefix), quoted(local)), terms(arguments))


def call_term(it: form.Call) -> Term:
    """A function call."""
    return called("call", *it)


def arrow_term(it: form.Arrow) -> Term:
    """A first operand, and the calls that take it one after another."""
    return ("arrow", term(it.first), [called("onto", *call) for call in it.calls])


def named_term(it: form.Named) -> Term:
    """A constructor whose name is written out, or computed."""
    name = NAMED_NODES[it.kind]
    if isinstance(it.name, Name):
        return (name, spelled(it.name), term(it.content))
    return (f"{name}_by", term(it.name), term(it.content))


def primary_step_term(it: form.PrimaryStep) -> Term:
    """A primary expression as a step, with predicates or without."""
    if it.predicates:
        return ("filtered", term(it.part), terms(it.predicates))
    return ("primary", term(it.part))


def step_of(short: str, long: str) -> Callable[[form.AttributeStep | form.ShortStep], Term]:
    """What writes a step whose axis is understood: a name alone has a shorter word."""
    def step_term(it: form.AttributeStep | form.ShortStep) -> Term:
        if isinstance(it.test, form.NameTest) and not it.predicates:
            return (short, spelled(it.test.name))
        return (long, term(it.test), terms(it.predicates))
    return step_term


def named_kind_term(it: form.NamedKindTest) -> Term:
    """A kind test with the name in it, or none. Raises Refused where that has a prefix."""
    if it.name is None:
        return (f"written.{it.kind}", "None")
    wrapper = "codes" if it.kind == "ProcessingInstruction" else "bare"
    return (f"written.{it.kind}", ("Some", (wrapper, spelled(it.name))))


def for_term(it: form.For) -> Term:
    """The bindings of `for`; one alone that has only a name and a range has a shorter word.

    Raises Refused where a name has a prefix.
    """
    first = it.bindings[0]
    if len(it.bindings) == 1 and first.position is None and not first.allows_empty:
        return ("for_in", spelled(first.name), term(first.range))
    return ("for_all", terms(it.bindings))


def each_term(it: form.Each) -> Term:
    """A variable of `for` with what it ranges over, and that of its position, or none.

    Raises Refused where a name has a prefix.
    """
    name = "each_or_none" if it.allows_empty else "each"
    if it.position is None:
        return (name, spelled(it.name), term(it.range))
    return (f"{name}_at", spelled(it.name), spelled(it.position), term(it.range))


def binding_term(it: form.Binding) -> tuple[Term, ...]:
    """A variable with its value, or with what it ranges over."""
    assert it.value is not None, "a variable without a value"
    return ("be", spelled(it.name), term(it.value))


def let_term(it: form.Let) -> Term:
    """The bindings of `let`; one alone has a shorter word.

    Raises Refused where a name has a prefix.
    """
    if len(it.bindings) == 1:
        _, *arguments = binding_term(it.bindings[0])
        return ("let_be", *arguments)
    return ("let_all", terms(it.bindings))


def grouping_term(it: form.Binding) -> Term:
    """A variable of `group by` with its value, or none.

    Raises Refused where the name has a prefix.
    """
    if it.value is None:
        return ("grouping", spelled(it.name))
    return ("assigned", spelled(it.name), term(it.value))


# By the class of a form, what writes it. (Each takes a form of its class.)
TERMS: dict[type, Callable[[Any], Term]] = {
    form.Integer: lambda it: ("num", str(it.value)),
    form.Decimal: lambda it: ("dec", str(it.millionths)),
    form.String: string_term,
    form.Variable: lambda it: ("var", spelled(it.name)),
    form.ContextItem: lambda it: "dot",
    form.Sequence: lambda it: ("seq", terms(it.parts)) if it.parts else "none",
    form.Call: call_term,
    form.Or: lambda it: ("any_of", terms(it.parts)),
    form.And: lambda it: ("all_of", terms(it.parts)),
    form.Comparison: lambda it: (
        "compare", (it.kind, it.relation), term(it.left), term(it.right)),
    form.Concat: lambda it: ("concat", terms(it.parts)),
    form.Range: lambda it: ("to", term(it.first), term(it.last)),
    form.Sum: chain_of("sum"),
    form.Product: chain_of("product"),
    form.Union: lambda it: ("union", terms(it.parts)),
    form.SetOperation: chain_of("sets"),
    form.Arrow: arrow_term,
    form.Map: lambda it: ("mapped", term(it.parts[0]), terms(it.parts[1:])),
    form.Unary: lambda it: ("unary", it.signs, term(it.part)),
    form.If: lambda it: ("iff", term(it.condition), term(it.yes), term(it.no)),
    form.Quantified: lambda it: (
        "quantified", QUANTIFIERS[it.quantifier], terms(it.bindings), term(it.condition)),
    form.Root: lambda it: "root",
    form.Path: lambda it: (PATHS[it.start], term(it.first), followers(it.rest)),
    form.PrimaryStep: primary_step_term,
    form.ParentStep: lambda it: ("up", terms(it.predicates)),
    form.AttributeStep: step_of("at", "at_test"),
    form.AxisStep: lambda it: (
        "along", f"axis.{it.axis}", term(it.test), terms(it.predicates)),
    form.ShortStep: step_of("child", "bare_step"),
    form.NameTest: lambda it: ("named", spelled(it.name)),
    form.KindTest: lambda it: f"written.{it.kind}",
    form.NamedKindTest: named_kind_term,
    form.Named: named_term,
    form.Unnamed: lambda it: (it.kind, term(it.content)),
    form.Flwor: lambda it: ("flwor", terms(it.clauses), term(it.result)),
    form.For: for_term,
    form.Each: each_term,
    form.Let: let_term,
    form.Binding: binding_term,
    form.Count: lambda it: ("count_as", spelled(it.name)),
    form.Where: lambda it: ("where_is", term(it.condition)),
    form.Group: lambda it: ("group_by", [grouping_term(part) for part in it.bindings]),
    form.Order: lambda it: ("order_by", terms(it.keys)),
    form.Key: lambda it: (
        "by", term(it.part), MODIFIERS[it.descends, it.is_empty_greatest]),
}
