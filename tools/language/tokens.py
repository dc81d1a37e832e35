"""Reads the text of a query into tokens (XQuery 3.1, A.2), with the literals of the profile."""

import re
from typing import NamedTuple

# The characters that begin a name, and those that go on with it (XML 1.0, without the colon).
BEGINS = ("A-Z_a-z\u00c0-\u00d6\u00d8-\u00f6\u00f8-\u02ff\u0370-\u037d\u037f-\u1fff\u200c-\u200d"
          "\u2070-\u218f\u2c00-\u2fef\u3001-\ud7ff\uf900-\ufdcf\ufdf0-\ufffd"
          "\U00010000-\U000effff")
GOES_ON = BEGINS + "\\-.0-9\u00b7\u0300-\u036f\u203f-\u2040"
NAME = f"[{BEGINS}][{GOES_ON}]*"
SYMBOLS = ("||", "//", "::", ":=", "..", "!=", "<=", ">=", "<<", ">>", "=>",
           *"()[]{},$/.@*+-=<>|!")
TOKEN = re.compile("|".join((
    r"(?P<blank>[ \t\n]+)",
    r"(?P<comment>\(:)",
    f"(?P<prefixed>{NAME}:{NAME})",
    f"(?P<name>{NAME})",
    r"(?P<decimal>[0-9]+\.[0-9]*|\.[0-9]+)",
    r"(?P<integer>[0-9]+)",
    r"""(?P<string>"(?:[^"]|"")*"|'(?:[^']|'')*')""",
    f"(?P<symbol>{'|'.join(map(re.escape, SYMBOLS))})")))
EXPONENT = re.compile(r"[eE][+-]?[0-9]")
AFTER_NUMBER = re.compile(f"[{BEGINS}0-9.]")
REFERENCE = re.compile(r"&(?:(lt|gt|amp|quot|apos|#[0-9]+|#x[0-9a-fA-F]+);)?")
ENTITIES = {"lt": "<", "gt": ">", "amp": "&", "quot": '"', "apos": "'"}
CHARACTERS = (range(0x9, 0xB), range(0xD, 0xE), range(0x20, 0xD800), range(0xE000, 0xFFFE),
              range(0x10000, 0x110000))


class Refused(Exception):
    """A text that is refused before evaluation, with the code as what it says."""


class Name(NamedTuple):
    """A name as it is written, with its prefix or none."""

    prefix: str | None
    local: str


class Token(NamedTuple):
    """A kind of token and its value.

    The kinds are name, prefixed (a Name), integer, decimal (in millionths), string, symbol, end.
    """

    kind: str
    value: Name | int | str | None

    @property
    def text(self) -> str:
        """The value where it is a text; nothing where it is none."""
        return self.value if isinstance(self.value, str) else ""


def tokens(text: str) -> list[Token]:
    """The tokens of a text, and one of the kind end after them."""
    text = text.replace("\r\n", "\n").replace("\r", "\n")
    found: list[Token] = []
    at = 0
    while at < len(text):
        match = TOKEN.match(text, at)
        if match is None:
            raise Refused("XPST0003")
        at = match.end()
        if match.lastgroup == "comment":
            at = end_of_comment(text, at)
        elif match.lastgroup and match.lastgroup != "blank":
            found.append(Token(match.lastgroup, value_of(match)))
    return [*found, Token("end", None)]


def end_of_comment(text: str, at: int) -> int:
    """Where the comment ends that was opened before this place; comments nest."""
    depth = 1
    for mark in re.compile(r"\(:|:\)").finditer(text, at):
        depth += 1 if mark.group() == "(:" else -1
        if depth == 0:
            return mark.end()
    raise Refused("XPST0003")


def value_of(match: re.Match[str]) -> Name | int | str:
    """The value of the token that was matched."""
    text = match.group()
    match match.lastgroup:
        case "prefixed":
            return Name(*text.split(":"))
        case "integer" | "decimal":
            return number(text, match.string, match.end())
        case "string":
            return string(text)
        case _:
            return text


def number(digits: str, text: str, end: int) -> int:
    """The value of a numeric literal that ends there in the text: of a decimal its millionths."""
    if EXPONENT.match(text, end):
        raise Refused("prof:DOUBLE")
    if AFTER_NUMBER.match(text, end):
        raise Refused("XPST0003")
    whole, point, fraction = digits.partition(".")
    fraction = fraction.rstrip("0")
    if len(fraction) > 6:
        raise Refused("prof:DIGITS")
    value = int(whole + fraction.ljust(6, "0")) if point else int(whole)
    if value >= (10 ** 25 if point else 2 ** 63):
        raise Refused("FOAR0002")
    return value


def string(literal: str) -> str:
    """The value of a string literal: its quote is doubled, and references stand for characters."""
    quote = literal[0]
    return REFERENCE.sub(referenced, literal[1:-1].replace(quote * 2, quote))


def referenced(match: re.Match[str]) -> str:
    """The character that a reference stands for."""
    reference = match.group(1)
    if reference is None:
        raise Refused("XPST0003")
    if reference in ENTITIES:
        return ENTITIES[reference]
    is_hexadecimal = reference[1] == "x"
    point = int(reference[2:], 16) if is_hexadecimal else int(reference[1:])
    if not any(point in characters for characters in CHARACTERS):
        raise Refused("XQST0090")
    return chr(point)
