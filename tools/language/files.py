"""Writes files of worked rows: queries with what they give, each computed by the checker."""

import os
import re
import textwrap
from collections.abc import Collection, Iterable, Iterator, Sequence
from typing import NamedTuple

from tools.common.repository import TOP
from tools.language.terms import Term, is_plain, meaning, quoted, words, written

WRITING = os.path.join(TOP, "crates/xq_meaning/proofs/Writing.antt")
PRELUDE = ("[]", "◌∷◌", "Some", "None", "Ok", "Err", "codes")
CODES = "Rattle.xq_atoms.specs.declared.refusals.Code.TheVariants"
VARIANTS = {
    "Sign": ("Plus", "Minus"),
    "Relation": ("Equal", "NotEqual", "Less", "LessEqual", "Greater", "GreaterEqual"),
    "ComparisonOperator": ("Value", "General", "Node"),
    "NodeComparison": ("Is", "Precedes", "Follows")}
NAMED = {"element", "element_by", "attribute", "attribute_by", "instruction", "instruction_by"}
ALIASES = {"Quantifier": "quantifier", "AxisName": "axis", "NodeTest": "written"}


class Row(NamedTuple):
    """A query with what it gives, as printed, or the code by which it is refused."""

    name: str
    query: str
    answer: str
    is_refused: bool


def statement_of(row: Row) -> tuple[Term, Term]:
    """The two sides of a row: the term of the query's meaning, and that of its result."""
    return meaning(row.query), result_of(row)


def result_of(row: Row) -> Term:
    """The term of what a row gives."""
    if row.is_refused:
        return ("Err", variant_of(row.answer))
    return ("Ok", ("codes" if is_plain(row.answer) else "utf8", quoted(row.answer)))


def variant_of(code: str) -> str:
    """The variant of crates/xq_atoms's Code for the code that is spelled so."""
    prefix, colon, name = code.partition(":")
    return prefix.capitalize() + name.capitalize() if colon else code


def text_of(row: Row, encodes: bool = False) -> str:
    """A row: its query as a comment, its statement, and its proof, which is computing.

    It encodes characters where the query or its answer has any beyond ASCII; `encodes` says that
    the documents have too.
    """
    query = row.query.replace("\r", "\\r").replace("\n", "\\n")
    comment = textwrap.wrap(query, 95, break_long_words=False, break_on_hyphens=False)
    term, result = statement_of(row)
    head = f"{row.name} : answer {written(term, is_argument=True)} ≡ {written(result)}"
    unfolded = " encode_utf8" if encodes or needs_encoding(row) else ""
    unfolded += " is_name_start is_name_char" if needs_names(row) else ""
    return "\n".join((*(f"-- {line}" for line in comment), wrapped(head),
                      f"unfolding digits chars{unfolded}", f"{row.name} = refl"))


def needs_encoding(row: Row) -> bool:
    """Whether characters are encoded as the row is computed, as substring does with any."""
    used = set().union(*map(words, statement_of(row)))
    return bool(used & {"txt8", "utf8"}) or "substring" in row.query


def needs_names(row: Row) -> bool:
    """Whether a name is judged as the row is computed: that of a node that a constructor makes."""
    return bool(words(statement_of(row)[0]) & NAMED)


def wrapped(line: str) -> str:
    """The line, broken at spaces that stand outside of quoted texts."""
    first, *rest = re.findall(r'(?:"(?:\\.|[^"\\])*"|[^ "])+', line)
    lines = [first]
    for piece in rest:
        if len(lines[-1]) + 1 + len(piece) > 99:
            lines.append(f"    {piece}")
        else:
            lines[-1] += f" {piece}"
    return "\n".join(lines)


def file_of(title: str, rows: Sequence[Row], answers: str, encodes: bool = False) -> str:
    """A file of rows; answers is the module that defines what a meaning is answered by."""
    head = "\n".join((f"-- {title}", *imports_of(rows, answers, encodes)))
    return "\n\n".join((head, *(text_of(row, encodes) for row in rows))) + "\n"


def imports_of(rows: Sequence[Row], answers: str, encodes: bool) -> Iterator[str]:
    """What the file brings in: only what it uses."""
    used = set().union(*(words(side) for row in rows for side in statement_of(row)))
    yield brought("Rattle.std.specs.Prelude", ["◌≡◌", "refl", *among(PRELUDE, used)])
    yield brought("Rattle.std.specs.Fmt", ["digits"])
    yield brought("Rattle.std.specs.Str", ["chars"])
    if encodes or any(map(needs_encoding, rows)):
        yield brought("Rattle.std.specs.Char", ["encode_utf8"])
    if any(map(needs_names, rows)):
        yield brought("Rattle.xq_atoms.specs.Characters", ["is_name_start", "is_name_char"])
    codes = {variant_of(row.answer) for row in rows if row.is_refused}
    if codes:
        yield brought(CODES, sorted(codes))
    yield from imports_of_operators(used)
    yield brought("Rattle.xq_meaning.proofs.Writing", among(words_of_writing(), used))
    yield brought(answers, ["answer"])


def imports_of_operators(used: set[str]) -> Iterator[str]:
    """The lines that bring in the variants of operators, as far as they are used."""
    module = "Rattle.xq_expressions.specs.declared.operators.%s.TheVariants"
    for kind, variants in VARIANTS.items():
        if used.intersection(variants):
            yield brought(module % kind, among(variants, used))
    for kind, alias in ALIASES.items():
        if any(name.startswith(f"{alias}.") for name in used):
            yield f"use {module % kind} as {alias}"


def words_of_writing() -> list[str]:
    """The words that Writing defines, in its order."""
    with open(WRITING) as file:
        return re.findall(r"(?m)^abbrev pub (\S+) :", file.read())


def brought(module: str, names: Iterable[str]) -> str:
    """The line that brings these names in."""
    return f"use {module}.{{{', '.join(names)}}}"


def among(names: Iterable[str], used: Collection[str]) -> list[str]:
    """Those of the names that are used, in their order."""
    return [name for name in names if name in used]
