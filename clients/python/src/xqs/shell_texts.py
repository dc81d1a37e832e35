"""The texts in the lines of a shell: queries, separated by `;` or by lines, and commands, which
begin with a dot."""

import re
from dataclasses import dataclass

from xqs import places
from xqs.tokens import tokens


@dataclass(frozen=True)
class Command:
    """A dot command: its words after the name, what it does, and the least and greatest number of
    words."""

    words: str
    summary: str
    least: int
    most: int


COMMANDS = {
    ".list": Command("[PREFIX]", "the addresses with a prefix, or that match a pattern", 0, 1),
    ".get": Command("ADDRESS", "a document, of any length", 1, 1),
    ".store": Command("ADDRESS FILE", "store a file of XML, or of a query", 2, 2),
    ".drop": Command("[--yes] ADDRESS ..",
                     "drop documents, or after a question all that match a pattern", 1, 1_000_000),
    ".load": Command("DIR [PREFIX]", "store the XML files of a folder", 1, 2),
    ".export": Command("DIR [PREFIX]", "write documents to a folder as XML", 1, 2),
    ".names": Command("refuse|flat|local", "what happens to names with a colon", 1, 1),
    ".xml": Command("on|off", "nodes as XML, or as constructors", 1, 1),
    ".timing": Command("on|off", "say how long each answer takes", 1, 1),
    ".read": Command("FILE", "run the queries and commands of a file", 1, 1),
    ".help": Command("", "this list", 0, 0),
    ".quit": Command("", "end; so does Ctrl+D", 0, 0),
}

END = ";"
"""The end of a query; no token of the language begins with it."""
_EMPTY_LINE = re.compile(r"\n[ \t]*\n\Z")


def is_whole(text: str, is_typed: bool = True) -> bool:
    """Whether to run a text, rather than read another line.

    A text continues if it is no whole query yet and may become one. A `;` at its end ends it in any
    case, and so does an empty line, unless a string or a comment is open, or in a file a bracket.
    """
    if is_command(text) or not text.strip():
        return True
    *_, last = tokens(text)
    if last.kind.startswith("open"):
        return False
    if last.text == END:
        return True
    if _EMPTY_LINE.search(text) and (is_typed or not places.is_open(text)):
        return True
    return not places.may_go_on(text)


def parted(text: str) -> list[str]:
    """The queries of a text, which `;` separates, or its one command."""
    if is_command(text):
        return [text.strip()]
    parts, rest = [], text
    while rest.strip():
        *_, last = tokens(rest)
        at = last.at if last.text == END else len(rest)
        parts.append(rest[:at].strip())
        rest = rest[at + 1 :]
    return [it for it in parts if it]


class Lines:
    """Lines that come one by one, and the texts that they make."""

    def __init__(self, is_typed: bool) -> None:
        """`is_typed` says that a user types them; then an empty line ends a text."""
        self._is_typed = is_typed
        self.pending = ""

    def take(self, line: str) -> list[str]:
        """The texts to run after this line. A command ends the pending text."""
        texts = []
        if self.pending.strip() and is_command(line) and not _is_quoted(self.pending):
            texts.append(self.rest())
        self.pending += line.rstrip("\n") + "\n"
        if is_whole(self.pending, self._is_typed):
            texts.append(self.rest())
        return texts

    def rest(self) -> str:
        """The pending text, which is then forgotten."""
        text, self.pending = self.pending, ""
        return text


def _is_quoted(text: str) -> bool:
    """Whether a string or a comment is open at the end of a text."""
    *_, last = tokens(text)
    return last.kind.startswith("open")


def is_command(text: str) -> bool:
    """Whether a text is a command of the shell."""
    words = text.split(None, 1)
    return bool(words) and words[0] in COMMANDS


def texts_of(text: str) -> list[str]:
    """The queries and commands of a file: each ends with a line after which it is whole, if an
    empty line or a command follows."""
    texts, pending = [], ""
    for line in [*text.splitlines(), ""]:
        begins = is_command(line)
        ends = begins and not (pending.strip() and _is_quoted(pending))
        if pending.strip() and (ends or (not line.strip() and is_whole(pending + "\n", False))):
            texts.append(pending)
            pending = ""
        pending += line + "\n"
        if begins and pending.strip() == line.strip():
            texts.append(pending)
            pending = ""
    return [*texts, pending] if pending.strip() else texts
