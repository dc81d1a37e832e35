"""Where the text of a query is at fault.

A reply has a code, but no place. This module finds the place in the text itself: by its tokens, by
the grammar (`grammar` reads them), and by the functions and variables that the language or the text
has. It is used only after the server has refused the text, and the server's code decides: if
nothing in the text explains the code, there is no place.
"""

import difflib
import re
from collections.abc import Iterable, Iterator, Sequence
from dataclasses import dataclass
from functools import cache

from xqs import grammar
from xqs.faults import line_and_column as line_and_column
from xqs.language_tables import FUNCTIONS as FUNCTIONS
from xqs.language_tables import GRAMMAR, NO_CALLS
from xqs.language_tables import TYPES as TYPES
from xqs.queries import NOT_XML
from xqs.tokens import Token, tokens

KEYWORDS = tuple(sorted(set(re.findall(r'"([a-z-]+)"', GRAMMAR))))
"""The keywords of the grammar."""
_NO_CALLS = {*NO_CALLS, *(it for it in KEYWORDS if it not in FUNCTIONS)}
"""Names that may come before a bracket without being called: tests, `in (`, `return (`."""
READ_AT_MOST = 20_000
"""The grammar is not read for longer texts: it would take too long."""
_NUMBERED = re.compile(r"&#(x[0-9a-fA-F]+|[0-9]+);")
_EXPONENT = re.compile(r"[eE][+-]?[0-9]")
_REFERENCE = re.compile(r"&(?!(?:lt|gt|amp|quot|apos|#[0-9]+|#x[0-9a-fA-F]+);)")
_PAIRS = {")": "(", "]": "[", "}": "{"}
_CLOSERS = {opener: closer for closer, opener in _PAIRS.items()}
_BINDS = {"for", "let", "some", "every", "in", "at", "by", "count", ","}


@dataclass(frozen=True)
class Place:
    """A place in a text, from 0, and what is wrong there."""

    at: int
    why: str


def is_open(text: str) -> bool:
    """Whether a string, a comment or a bracket is still open at the end of the text."""
    stack: list[str] = []
    for token in tokens(text):
        if token.kind.startswith("open"):
            return True
        if token.text in _PAIRS.values() and token.kind == "symbol":
            stack.append(token.text)
        elif token.text in _PAIRS and token.kind == "symbol" and stack:
            stack.pop()
    return bool(stack)


def may_go_on(text: str) -> bool:
    """Whether a text is not yet whole, and may become so by more text."""
    found = list(tokens(text))
    if found and found[-1].kind.startswith("open"):
        return True
    reading = _reading([it for it in found if it.kind != "comment"], text)
    if reading is None:
        return is_open(text)
    read = [it for it in found if it.kind != "comment"]
    return bool(read) and reading.count == len(read) and not reading.is_whole


def find(text: str, code: str) -> Place | None:
    """The first place that explains the code of the refusal; None if nothing does."""
    all_tokens = [it for it in tokens(text) if it.kind != "comment"]
    judges = {
        "XPST0017": _function,
        "XPST0008": _variable,
        "XQST0090": _no_reference,
        "prof:DOUBLE": _exponent,
        "prof:DIGITS": _digits,
        "prof:PREFIX": _prefix,
        "prof:TYPE": _type,
    }
    if code == "XPST0003":
        return _no_token(tokens(text)) or _unexpected(text, all_tokens)
    return judges[code](all_tokens) if code in judges else None


def _reading(found: Sequence[Token], text: str) -> grammar.Reading | None:
    """How far the grammar reads the tokens; None for a text that is too long."""
    if len(text) > READ_AT_MOST:
        return None
    after: list[Token | None] = [*found[1:], None]
    return grammar.read([_kinds(it, next_one) for it, next_one in zip(found, after, strict=False)])


def _kinds(token: Token, after: Token | None) -> frozenset[str]:
    """The names that the grammar has for a token."""
    quoted = f'"{token.text}"'
    match token.kind:
        case "string":
            return frozenset(("STRING",))
        case "number":
            return frozenset(("DECIMAL" if "." in token.text else "INTEGER",))
        case "name" if ":" in token.text:
            return frozenset(("PREFIXED",))
        case "name":
            return frozenset(("NAME", quoted, *(() if token.text in NO_CALLS else ("CALLED",))))
    is_lone = token.text == "/" and not (after and _begins_step(after))
    return frozenset((quoted, "SLASH") if is_lone else (quoted,))


def _begins_step(token: Token) -> bool:
    return token.kind != "symbol" or token.text in ("$", "(", ".", "..", "@", "*")


def _unexpected(text: str, found: list[Token]) -> Place | None:
    """The first token that fits nowhere, with what would fit; or the end, if the text is cut."""
    reading = _reading(found, text)
    if reading is None:
        return _bracket(found)
    if reading.count < len(found):
        token = found[reading.count]
        bracket = _bracket(found[: reading.count + 1]) if token.text in _PAIRS else None
        if bracket and bracket.at == token.at:
            return bracket
        return Place(token.at, f"{_shown(token)} is not expected here, but {_wanted(reading)}")
    if reading.is_whole:
        return None
    bracket = _bracket(found)
    if bracket and f'"{_CLOSERS[text[bracket.at]]}"' in reading.expected:
        return bracket
    end = found[-1].at + len(found[-1].text) if found else len(text)
    return Place(end, f"the text ends here, where {_wanted(reading)} is expected")


def _shown(token: Token) -> str:
    return token.text if len(token.text) <= 30 else f"{token.text[:30]}.."


def _wanted(reading: grammar.Reading) -> str:
    """What may come at a place, in words: keywords and symbols first, and then kinds of tokens."""
    rest, said = set(reading.expected), []
    for words, signs, kinds in _kinds_told():
        if signs <= rest:
            rest -= kinds
            said.append(words)
    one = sorted((it[1:-1] for it in rest if it.startswith('"')),
                 key=lambda it: (not it.isalpha(), it))
    shown = [*(f"'{it}'" for it in one[:8]), *(["others"] if len(one) > 8 else []), *said]
    return " or ".join(shown) or "nothing more"


@cache
def _kinds_told() -> tuple[tuple[str, frozenset[str], frozenset[str]], ...]:
    """A description, the signs that it stands for if all of them may come, and the other tokens
    that it covers."""
    operand = grammar.Reader(grammar.language()).expected()
    after = grammar.Reader(grammar.language(), ("INTEGER",)).expected() - {'","'}
    clauses = frozenset(f'"{it}"' for it in (
        "for", "let", "where", "group", "count", "order", "stable"))
    return (
        ("a clause", clauses, clauses),
        ("an expression", frozenset(("INTEGER", '"if"')), operand),
        ("an operand", frozenset(("INTEGER", "STRING")), operand),
        ("an operator", frozenset(('"+"', '"!"')), after),
        ("a name", frozenset(("NAME",)), frozenset(("NAME", "PREFIXED"))),
    )


def _no_token(found: Iterable[Token]) -> Place | None:
    before: Token | None = None
    for token in found:
        wrong = _REFERENCE.search(token.text) if token.kind == "string" else None
        strange = NOT_XML.search(token.text)
        if strange:
            return Place(token.at + strange.start(), "XML has no such character")
        if wrong:
            return Place(token.at + wrong.start(), "this & begins no reference; &amp; is the sign")
        if token.kind == "open string":
            return Place(token.at, f"the string that begins with this {token.text} is not closed")
        if token.kind == "open comment":
            return Place(token.at, "this comment is not closed")
        if token.kind == "other":
            return Place(token.at, f"no token begins with {token.text!r}")
        if before and before.kind == "number" and _follows_number(before, token):
            return Place(token.at, f"{_shown(token)} follows a number directly; put a space "
                         "between them")
        before = token
    return None


def _follows_number(number: Token, token: Token) -> bool:
    """Whether a token follows a number directly although it may not."""
    is_near = number.at + len(number.text) == token.at
    return is_near and (token.kind in ("name", "number") or token.text in (".", ".."))


def _no_reference(found: list[Token]) -> Place | None:
    for token in (it for it in found if it.kind == "string"):
        for wrong in _NUMBERED.finditer(token.text):
            digits = wrong[1]
            number = int(digits[1:], 16) if digits[0] == "x" else int(digits)
            if number > 0x10FFFF or NOT_XML.match(chr(number)):
                return Place(token.at + wrong.start(), f"{wrong[0]} names no character of XML")
    return None


def _exponent(found: list[Token]) -> Place | None:
    for number, token in zip(found, found[1:], strict=False):
        if number.kind == "number" and token.kind == "name" and _follows_number(number, token):
            if _EXPONENT.match(token.text) or token.text in ("e", "E"):
                return Place(number.at, "a number has no exponent here, since there are no doubles")
    return None


def _digits(found: list[Token]) -> Place | None:
    for token in (it for it in found if it.kind == "number"):
        if len(token.text.partition(".")[2].rstrip("0")) > 6:
            return Place(token.at, "this number has more than six digits after its point")
    return None


def _bracket(found: list[Token]) -> Place | None:
    stack: list[Token] = []
    for token in (it for it in found if it.kind == "symbol"):
        if token.text in _PAIRS.values():
            stack.append(token)
        elif token.text in _PAIRS:
            if not stack:
                return Place(token.at, f"this {token.text} closes nothing")
            opened = stack.pop()
            if opened.text != _PAIRS[token.text]:
                return Place(token.at, f"this {token.text} doesn't close the open {opened.text}")
    return Place(stack[-1].at, f"this {stack[-1].text} is not closed") if stack else None


def _calls(found: list[Token]) -> Iterator[tuple[int, Token]]:
    """The names that are called, each with the index of its token."""
    for number, (token, after) in enumerate(zip(found, found[1:], strict=False)):
        before = found[number - 1].text if number else ""
        if token.kind == "name" and after.text == "(" and before not in ("$", "::", "@"):
            yield number, token


def _function(found: list[Token]) -> Place | None:
    for number, token in _calls(found):
        prefix, colon, local = token.text.rpartition(":")
        if prefix not in ("", "fn", "xs") or (not colon and local in _NO_CALLS):
            continue
        known: dict[str, tuple[int, int | None]] = (
            dict.fromkeys(TYPES, (1, 1)) if prefix == "xs" else FUNCTIONS)
        if local not in known:
            return Place(token.at, f"there is no function {token.text}" + _near(local, known))
        count = _arguments(found, number + 1)
        least, most = known[local]
        if count is None:
            continue
        # The expression before an arrow is an argument too.
        count += number > 0 and found[number - 1].text == "=>"
        if not (least <= count and (most is None or count <= most)):
            return Place(token.at, f"{token.text} takes {_numbers(least, most)}, not {count}")
    return None


def _numbers(least: int, most: int | None) -> str:
    many = f"{least} or more" if most is None else f"{least} or {most}"
    return f"{least if most == least else many} argument{'' if most == 1 else 's'}"


def _arguments(found: list[Token], first: int) -> int | None:
    """The number of arguments in the bracket that begins there; None if it isn't closed."""
    depth, commas = 0, 0
    for number in range(first, len(found)):
        token = found[number]
        if token.kind == "symbol":
            depth += (token.text in _PAIRS.values()) - (token.text in _PAIRS)
            commas += token.text == "," and depth == 1
        if depth == 0:
            return 0 if number == first + 1 else commas + 1
    return None


def _variable(found: list[Token]) -> Place | None:
    uses = [
        (found[number - 1].text if number else "", token, name)
        for number, (token, name) in enumerate(zip(found, found[1:], strict=False))
        if token.text == "$" and token.kind == "symbol" and name.kind == "name"
    ]
    bound = {name.text for before, _, name in uses if before in _BINDS}
    for _, token, name in uses:
        if name.text not in bound:
            return Place(token.at, f"nothing binds ${name.text}" + _near(name.text, bound, "$"))
    return None


def _prefix(found: list[Token]) -> Place | None:
    called = {number for number, _ in _calls(found)}
    for number, token in enumerate(found):
        prefix, colon, _ = token.text.partition(":")
        is_known = prefix in ("fn", "xs") and number in called
        if token.kind == "name" and colon and not is_known:
            return Place(token.at, f"the name {token.text} has a prefix, and there are none but of "
                         "calls of fn: and xs:")
    return None


def _type(found: list[Token]) -> Place | None:
    for _, token in _calls(found):
        prefix, _, local = token.text.rpartition(":")
        if prefix == "xs" and local not in TYPES:
            return Place(token.at, f"there is no type {token.text}" + _near(local, TYPES, "xs:"))
    return None


def _near(name: str, known: object, before: str = "") -> str:
    assert isinstance(known, dict | set | tuple)
    nearest = difflib.get_close_matches(name, list(known), 1)
    return f"; the nearest is {before}{nearest[0]}" if nearest else ""


def shown(text: str, code: str) -> str:
    """The place that explains a refusal, with its line and a mark below; empty if there is none."""
    place = find(text, code)
    return "" if place is None else marked(text, place)


def marked(text: str, place: Place) -> str:
    """A place in words, with its line and a mark below."""
    line, column = line_and_column(text, place.at)
    shown_line = text.split("\n")[line - 1]
    start = max(column - 60, 0)
    mark = " " * (column - 1 - start) + "^"
    return f"{line}:{column}: {place.why}\n    {shown_line[start:start + 90]}\n    {mark}\n"
