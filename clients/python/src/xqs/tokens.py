"""The tokens of a query, as docs/LANGUAGE.md has them."""

import re
from collections.abc import Iterator
from typing import NamedTuple

_FIRST = (
    "A-Z_a-z\xc0-\xd6\xd8-\xf6\xf8-\u02ff\u0370-\u037d\u037f-\u1fff\u200c\u200d\u2070-\u218f"
    "\u2c00-\u2fef\u3001-\ud7ff\uf900-\ufdcf\ufdf0-\ufffd\U00010000-\U000effff"
)
NAME = rf"[{_FIRST}][{_FIRST}0-9.\-\xb7\u0300-\u036f\u203f\u2040]*+"
"""A name without a colon, by XML 1.0's fifth edition, as a regular expression."""
_TOKEN = re.compile(
    rf"""(?P<space>[ \t\r\n]+)
    |(?P<string>"(?:[^"]|"")*+"|'(?:[^']|'')*+')
    |(?P<name>{NAME}(?::{NAME})?)
    |(?P<number>[0-9]+(?:\.[0-9]*)?|\.[0-9]+)
    |(?P<symbol>:=|::|//|\.\.|!=|<=|>=|<<|>>|\|\||=>|[()\[\]{{}},$/.@*+\-=<>|!?])""",
    re.VERBOSE,
)
_COMMENT_MARK = re.compile(r"\(:|:\)")
ENDS = ("open string", "open comment", "other")
"""The kinds of texts that are no token; nothing is read after them."""


class Token(NamedTuple):
    """A token of a query, or a comment: its kind, its place, its text."""

    kind: str
    at: int
    text: str


def tokens(text: str) -> Iterator[Token]:
    """The tokens of a text, with comments but without white space. A kind in `ENDS` marks a text
    that is no token, and ends the tokens."""
    at = 0
    while at < len(text):
        token = _token_at(text, at)
        if token.kind != "space":
            yield token
        if token.kind in ENDS:
            return
        at += len(token.text)


def _token_at(text: str, at: int) -> Token:
    if text.startswith("(:", at):
        return _comment(text, at)
    found = _TOKEN.match(text, at)
    if found:
        return Token(found.lastgroup or "", at, found[0])
    return Token("open string" if text[at] in "\"'" else "other", at, text[at])


def _comment(text: str, start: int) -> Token:
    end = comment_end(text, start)
    return Token("open comment" if end is None else "comment", start, text[start:end])


def comment_end(text: str, start: int) -> int | None:
    """The end of the comment that begins there; None if it doesn't end."""
    depth = 0
    for found in _COMMENT_MARK.finditer(text, start):
        depth += 1 if found[0] == "(:" else -1
        if depth == 0:
            return found.end()
    return None
