"""Normal forms and plans as tools/programs/plan prints them, and as lines.

The program prints a form as `(word PART ..)`, where a part is a form, a word or a string literal.
Nothing is left out, but for the numbers of the slots that clauses bind: a binding takes the next
one. Lines show these numbers, and the names of variables, after a `$`.
"""

from __future__ import annotations

import dataclasses
import re
from collections.abc import Iterable, Iterator, Mapping

TOKEN = re.compile(r'[()]|"(?:[^"]|"")*"|[^\s()"]+')
INDENT = "  "
# The clauses and parts that bind, with how many slots they open.
OPENED = {"for": 1, "join": 1, "group-join": 1, "let": 1, "count": 1, "in": 1}
# The clauses that have a range and keys.
JOINS = ("join", "group-join")
# The forms in which a part is seen by those after it.
BINDING = ("flwor", "quantified")


@dataclasses.dataclass(frozen=True, eq=False)
class Form:
    """A form: its word, the words and literals in it, and the forms in it."""

    word: str
    words: tuple[str, ...] = ()
    parts: tuple[Form, ...] = ()


def read(text: str) -> list[Form]:
    """The forms that the program prints. Raises ValueError where they are none."""
    begun: list[tuple[list[str], list[Form]]] = [([], [])]
    for token in TOKEN.findall(text):
        if token == "(":
            begun.append(([], []))
        elif token != ")":
            begun[-1][0].append(token)
        elif len(begun) > 1 and begun[-1][0]:
            words, parts = begun.pop()
            begun[-1][1].append(Form(words[0], tuple(words[1:]), tuple(parts)))
        else:
            raise ValueError("a form ends that has not begun")
    words, parts = begun.pop()
    if begun or words:
        raise ValueError("a form has no end")
    return parts


def spelled(form: Form) -> str:
    """The text that is read as the form; its words stand before its parts."""
    return f"({' '.join((form.word, *form.words, *map(spelled, form.parts)))})"


def unquoted(literal: str) -> str:
    """The text of a string literal."""
    return literal[1:-1].replace('""', '"').replace("&#xD;", "\r").replace("&amp;", "&")


def test(axis: str, form: Form) -> str:
    """An axis and a test, as a step spells them."""
    name = unquoted(form.words[0]) if form.words else ""
    if form.word == ("attribute" if axis == "attribute" else "element"):
        return f"{axis}::{name or '*'}"
    return f"{axis}::{form.word}({name})"


def short(scan: Form) -> str:
    """A scan, as a path spells it at its shortest: `room`, `@room`."""
    shown = test(scan.words[0], scan.parts[0])
    is_name = not shown.endswith(")")
    return shown.removeprefix("child::").replace("attribute::", "@") if is_name else shown


def key(form: Form) -> str:
    """A key of a join."""
    steps = [short(it) for it in form.parts]
    path = "/".join((f"${form.words[1]}", *steps))
    return path if form.words[0] == "value" else f"{form.words[0]}({path})"


def opened(form: Form) -> int:
    """How many slots a clause opens."""
    return OPENED.get(form.word, 0) + (form.word == "for" and "at" in form.words)


def variables(form: Form, slots: int) -> list[str]:
    """The variables that a clause binds, by their names or by their slots; so many slots are open
    before it."""
    names = [f"${unquoted(it)}" for it in form.words if it.startswith('"')]
    return names or [f"${slots + it}" for it in range(opened(form))]


def joined(form: Form, slots: int, outer: int) -> str:
    """The line of a join, or of a group join."""
    carried = next((it.words[0] for it in form.parts if it.word == "carried"), None)
    carrying = f" carrying ${carried}" if carried else ""
    renamed = f" as ${outer}" if carried not in (None, f"{outer}") else ""
    where = f" {form.words[0]} ".join(key(it) for it in form.parts if it.word == "key")
    return f"{form.word.replace('-', ' ')} ${slots} in ..{carrying}{renamed} where {where}"


def bound(form: Form, slots: int) -> str:
    """The line of another clause that binds."""
    bound_here = variables(form, slots)
    if form.word == "for":
        empties = " allowing empty" if "allowing-empty" in form.words else ""
        return f"for {bound_here[0]}{empties}{''.join(f' at {it}' for it in bound_here[1:])} in"
    return {"let": f"let {bound_here[0]} :=", "in": f"{bound_here[0]} in",
            "count": f"count {bound_here[0]}"}[form.word]


def line(form: Form, slots: int, outer: int) -> str:
    """What stands in the line of a form, where so many slots are open, and so many were before its
    FLWOR expression."""
    if form.word in JOINS:
        return joined(form, slots, outer)
    if form.word in OPENED:
        return bound(form, slots)
    if form.word == "group":
        names = [f"${unquoted(it) if it.startswith(chr(34)) else outer + int(it)}"
                 for it in form.words]
        return " ".join(("group by", *names))
    if form.word in ("step", "scan"):
        return f"{form.word} {test(form.words[0], form.parts[0])}"
    if form.word == "variable":
        return f"${unquoted(form.words[0])}"
    return " ".join((form.word, *form.words)).replace("\n", "&#xA;")


def below(form: Form) -> tuple[Form, ...]:
    """The forms that have lines of their own below that of the form."""
    if form.word in ("step", "scan"):
        return form.parts[1:]
    return form.parts[:1] if form.word in JOINS else form.parts


@dataclasses.dataclass(frozen=True)
class Layout:
    """How forms are laid out: some of them with a mark behind their line."""

    marks: Mapping[Form, Iterable[str]] = dataclasses.field(default_factory=dict)

    def lines(self, form: Form, slots: int = 0, outer: int = 0) -> list[str]:
        """The lines of a form, where so many slots are open. A part that has one line and no
        brothers stands behind its form's word."""
        of_parts = list(self.lines_below(form, slots, outer))
        of_form = self.marks.get(form, ())
        head, mark = line(form, slots, outer), f"   <- {', '.join(of_form)}" if of_form else ""
        if len(of_parts) == 1 and len(of_parts[0]) == 1 and form.word not in JOINS:
            return [f"{head} {of_parts[0][0]}{mark}"]
        return [head + mark, *(INDENT + it for lines in of_parts for it in lines)]

    def lines_below(self, form: Form, slots: int, outer: int) -> Iterator[list[str]]:
        """The lines of each part."""
        inner = slots
        for part in below(form):
            if form.word in JOINS:
                carries = any(it.word == "carried" for it in form.parts)
                yield self.lines(part, outer + carries)
            elif form.word in BINDING:
                yield self.lines(part, inner, slots)
                inner += opened(part)
            else:
                yield self.lines(part, slots)
