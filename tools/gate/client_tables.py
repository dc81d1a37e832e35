"""Writes what the client knows of the language from the server's own tables: the grammar of
crates/xq_parser/specs/Grammar.antt, and the functions of Signatures.antt in
crates/xq_expressions/specs.

    tools/run client_tables --check      says, by its status too, whether the client has them so
    tools/run client_tables --write      writes them anew, into the client and docs/LANGUAGE.md
"""

from __future__ import annotations

import re
import sys
from collections.abc import Iterator

from tools.common import command_line
from tools.common.repository import TOP

GRAMMAR = TOP / "crates/xq_parser/specs/Grammar.antt"
SPELLING = TOP / "crates/xq_lexer/specs/Spelling.antt"
SIGNATURES = TOP / "crates/xq_expressions/specs/Signatures.antt"
MODULE = TOP / "clients/python/src/xqs/language_tables.py"
PAGE = TOP / "docs/LANGUAGE.md"

TERMINALS = {
    "NC": "NAME", "Prefixed": "PREFIXED", "CallNC": "CALLED", "IntLiteral": "INTEGER",
    "DecLiteral": "DECIMAL", "StrLiteral": "STRING", "Lone": "SLASH",
}
"""Lines of the grammar that stand for one token, by what the client calls it."""
RENAMED = {
    "Whole": "Expr", "Any": "ExprSingle", "Single": "ExprSingle", "QN": "Name",
    "Quant": "Quantified", "QB": "QuantifiedBinding", "LetB": "LetBinding", "ForB": "ForBinding",
    "GroupS": "GroupSpec",
    "OrderS": "OrderSpec", "Comp": "Comparison", "Prod": "Product", "Inter": "Intersection",
    "StepRel": "Step", "AxisStepRel": "AxisStep", "ClauseRel": "Clause", "Make": "Constructor",
}
"""Lines of the grammar that are called otherwise where people read them."""
_LINE = re.compile(
    r"^ *abbrev pub (\w+) : (?:Rel|Table)[^\n]*\n((?: +[^\n]+\n|\1 =[^\n]*\n)+)", re.M)
_TOKEN = re.compile(r'"[^"]*"|[()▹◃∣&]|⟨\$⟩|[\w.\[\]]+')
_ENTRY = re.compile(r'\((word "[^"]*"|symbol s\.\w+)')


def symbols() -> dict[str, str]:
    """The text of each symbol, by its name."""
    text = SPELLING.read_text(encoding="utf-8")
    return dict(re.findall(r'symbol_text s\.(\w+) = codes "([^"]+)"', text))


def lines_of_grammar() -> Iterator[tuple[str, str]]:
    """The names of the grammar's tables and lines, each with what it is."""
    text = GRAMMAR.read_text(encoding="utf-8")
    for found in _LINE.finditer(text.replace("\n  abbrev", "\nabbrev").replace("\n  ", "\n ")):
        yield found[1], found[2].partition("=")[2]


def is_bracketed(text: str) -> bool:
    """Whether one pair of brackets holds the whole text, with what repeats it behind."""
    depth, text = 0, text.rstrip("?*")
    for number, character in enumerate(re.sub(r'"[^"]*"', lambda it: "x" * len(it[0]), text)):
        depth += (character == "(") - (character == ")")
        if depth == 0 and number < len(text) - 1:
            return False
    return text.startswith("(")


class Translator:
    """Writes a line of the grammar as a production."""

    def __init__(self, tables: dict[str, list[str]]) -> None:
        self._tables = tables
        self._symbols = symbols()
        self._tokens: list[str] = []

    def production(self, body: str) -> str:
        """What stands on the right side of a production."""
        self._tokens = _TOKEN.findall(body)
        return self._choice()

    def _next(self) -> str:
        return self._tokens[0] if self._tokens else ""

    def _choice(self) -> str:
        """Alternatives, up to a bracket that closes or the end."""
        found = [self._sequence()]
        while self._next() == "∣":
            self._tokens.pop(0)
            found.append(self._sequence())
        empty = "" in found
        text = " | ".join(it for it in found if it)
        if not empty:
            return text
        return f"{text}?" if is_bracketed(text) or " " not in text else f"({text})?"

    def _sequence(self) -> str:
        self._pass_meaning()
        parts = [self._part()]
        while self._next() in ("▹", "◃", "&"):
            self._tokens.pop(0)
            self._pass_meaning()
            parts.append(self._part())
        return " ".join(it for it in parts if it)

    def _pass_meaning(self) -> None:
        """Passes over what a phrase stands for, which is words before a sign, without brackets."""
        count = 0
        while re.fullmatch(r"[\w.]+", self._tokens[count]) and count + 1 < len(self._tokens):
            count += 1
            if self._tokens[count] == "⟨$⟩":
                del self._tokens[: count + 1]
                count = 0

    def _bracketed(self) -> str:
        """A part that stands for itself: in brackets, or one word."""
        text = self._part()
        return text if re.fullmatch(r'"[^"]*"|\w+', text) or is_bracketed(text) else f"({text})"

    def _part(self) -> str:
        token = self._tokens.pop(0)
        if token == "(":
            text = self._choice()
            self._tokens.pop(0)
            return f"({text})" if " | " in text and not is_bracketed(text) else text
        match token:
            case "word":
                return self._tokens.pop(0)
            case "symbol":
                return f'"{self._symbols[self._tokens.pop(0).removeprefix("s.")]}"'
            case "Is":
                text = self._part()
                self._value()
                return text
            case "empty":
                self._value()
                return ""
            case "OneOf":
                return "(" + " | ".join(self._tables[self._tokens.pop(0)]) + ")"
            case "Maybe":
                return self._bracketed() + "?"
            case "Many":
                return self._bracketed() + "*"
            case "Commas":
                text = self._bracketed()
                return f'{text} ("," {text})*'
        return TERMINALS.get(token, RENAMED.get(token, token))

    def _value(self) -> None:
        """Passes over what a phrase stands for."""
        depth = 0
        while True:
            token = self._tokens.pop(0)
            depth += (token == "(") - (token == ")")
            if depth == 0:
                return


def grammar() -> str:
    """The productions, the whole expression first."""
    entries = dict(lines_of_grammar())
    names = symbols()
    tables = {
        name: [it.removeprefix("word ") if it.startswith("word") else
               f'"{names[it.removeprefix("symbol s.")]}"' for it in _ENTRY.findall(body)]
        for name, body in entries.items() if name[0].islower()
    }
    translator = Translator(tables)
    lines = [
        f"{RENAMED.get(name, name)} ::= {translator.production(body)}"
        for name, body in entries.items()
        if name[0].isupper() and name not in TERMINALS and name not in ("Commas", "Single")
    ]
    lines.sort(key=lambda line: not line.startswith("Expr ::="))
    return "\n".join(lines)


def no_calls() -> list[str]:
    """The names that no call has without a prefix."""
    return re.findall(r'word "([^"]+)"', dict(lines_of_grammar())["no_calls"])


Arity = tuple[int, int | None]


def signatures() -> dict[str, tuple[str, Arity]]:
    """By its name in the server, each function: its local name and its numbers of arguments."""
    text = SIGNATURES.read_text(encoding="utf-8")
    line = r'^signature f\.(\w+) = \(codes "([^"]+)", (\w+) (\d+)(?: (\d+))?\)$'
    return {
        name: (local, (int(least), None if kind == "at_least" else int(most or least)))
        for name, local, kind, least, most in re.findall(line, text, re.M)
    }


def functions(table: str) -> dict[str, Arity]:
    """The functions of a list of the server's, `library` or `constructors`."""
    text = SIGNATURES.read_text(encoding="utf-8")
    body = text.partition(f"\n{table} =")[2].partition("[]")[0]
    known = signatures()
    return dict(known[it] for it in re.findall(r"f\.(\w+)", body))


def module() -> str:
    """The client's module of tables."""
    library = "\n".join(f'    "{name}": ({least}, {most}),'
                        for name, (least, most) in functions("library").items())
    types = ", ".join(f'"{it}"' for it in functions("constructors"))
    names = "\n".join(f'    "{it}",' for it in no_calls())
    table = "\n".join(wrapped(line) for line in grammar().split("\n"))
    return f'''"""What the client knows of the language: `tools/run client_tables --write` makes it
from the server's own tables, and a test compares them. Change nothing here by hand.
"""

FUNCTIONS: dict[str, tuple[int, int | None]] = {{
{library}
}}
"""The functions: the least and the greatest number of arguments of each; None: any."""
TYPES = ({types})
"""The functions that are called after `xs:`."""
NO_CALLS = frozenset((
{names}
))
"""The names that no call has without a prefix."""
GRAMMAR = r"""
{table}
"""
"""The grammar, one production a line, which may go on with an indent; docs/LANGUAGE.md says what
its tokens are."""
'''


def wrapped(line: str) -> str:
    """A production in lines of at most 96 characters."""
    words, lines = line.split(" "), [""]
    for word in words:
        if len(lines[-1]) + len(word) > 92:
            lines.append("       ")
        lines[-1] += (" " if lines[-1] else "") + word
    return "\n".join(lines)


def page(text: str) -> str:
    """The page of the language with the grammar as it is."""
    begin, end = "<!-- grammar: tools/run client_tables --write -->\n", "<!-- /grammar -->"
    before, _, rest = text.partition(begin)
    _, _, after = rest.partition(end)
    lines = "\n".join("    " + it for line in grammar().split("\n")
                      for it in wrapped(line).split("\n"))
    return f"{before}{begin}\n{lines}\n\n{end}{after}"


def main() -> int:
    """Compares, or writes."""
    words = command_line.parser(__doc__)
    which = words.add_mutually_exclusive_group(required=True)
    which.add_argument("--check", action="store_true")
    which.add_argument("--write", action="store_true")
    given = words.parse_args()
    wanted = {MODULE: module(), PAGE: page(PAGE.read_text(encoding="utf-8"))}
    differing = [it for it, text in wanted.items()
                 if not it.exists() or it.read_text(encoding="utf-8") != text]
    if given.write:
        for path in differing:
            path.write_text(wanted[path], encoding="utf-8")
        return 0
    for path in differing:
        print(f"{path.relative_to(TOP)} is not as the server has it: "
              "tools/run client_tables --write", file=sys.stderr)
    return 1 if differing else 0


if __name__ == "__main__":
    sys.exit(main())
