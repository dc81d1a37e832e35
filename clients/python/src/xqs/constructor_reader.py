"""Constructors as people and programs write them, read as events: for documents whose text is too
long for one request.

White space and comments may come anywhere. Strings may have either kind of quotes and references,
and a string may be content. Only the server can evaluate anything else that makes a document, as a
path.
"""

import re
from collections.abc import Callable, Iterator

from xqs.faults import PlacedFault, line_and_column
from xqs.queries import NOT_XML
from xqs.tokens import NAME, comment_end
from xqs.values import PARENTS, Close, Event, Leaf, NodeKind, Open
from xqs.xml_names import NAMESPACE, NameFault, Names, incoming

_SPACE = r"[ \t\n]"
_STRING = r"""(?:"[^"]*+(?:""[^"]*+)*+"|'[^']*+(?:''[^']*+)*+')"""
# No possessive quantifier around a group that captures: Python 3.11.2 has a bug there.
_TOKEN = re.compile(
    rf"""(?P<space>{_SPACE}++)
    |(?P<head>(?P<kind>document|text|comment|element|attribute|processing-instruction)
       (?:(?:(?<=element)|(?<=attribute)|(?<=instruction)){_SPACE}++(?P<name>{NAME}(?::{NAME})?))?
       {_SPACE}*+\{{)(?:{_SPACE}*+(?P<value>{_STRING}){_SPACE}*+\}})?
    |(?P<close>\}})|(?P<comma>,)|(?P<string>{_STRING})""",
    re.VERBOSE,
)
_REFERENCE = re.compile(r"&(?:(lt|gt|amp|quot|apos)|#([0-9]+)|#x([0-9a-fA-F]+));|&")
_PREDEFINED = {"lt": "<", "gt": ">", "amp": "&", "quot": '"', "apos": "'"}
_KINDS = {it.value: it for it in NodeKind}
_NAMED = frozenset((NodeKind.ELEMENT, NodeKind.ATTRIBUTE, NodeKind.INSTRUCTION))
NOT_ONE = "the text is not exactly one document"


class _Parent:
    """A constructor that is open. `strings` are the adjacent strings read so far, `names` the names
    of its attributes."""

    __slots__ = ("kind", "name", "strings", "names", "has_content")

    def __init__(self, kind: NodeKind, name: str) -> None:
        self.kind, self.name = kind, name
        self.strings: list[str] = []
        self.names: set[str] = set()
        self.has_content = False


class ConstructorReader:
    """The events of one document. Raises PlacedFault for any other text.

    `names` says what happens to names with a colon: `flat` accepts them.
    """

    def __init__(self, text: str, source: str, names: Names = Names.REFUSE) -> None:
        """`source` is the text's name in messages."""
        self._text = text.replace("\r\n", "\n").replace("\r", "\n") if "\r" in text else text
        self.length = len(text)
        self._source = source
        self._is_flat = names is Names.FLAT
        self._stored: dict[str, str] = {}
        self._at = 0
        self._stack: list[_Parent] = []
        self._events: list[Event] = []
        self._wants_comma = self._after_comma = self._is_over = False

    def fault(self, why: str) -> PlacedFault:
        """A refusal at the token that was read last."""
        return PlacedFault(self._source, *line_and_column(self._text, self._at), why)

    def __iter__(self) -> Iterator[Event]:
        end = len(self._text)
        takes: dict[str, Callable[[re.Match[str]], None]] = {
            "close": self._close, "comma": self._comma, "string": self._string,
            "value": self._leaf, "head": self._open, "kind": self._open, "name": self._open,
            "space": lambda _: None,
        }
        while self._at < end:
            found = _TOKEN.match(self._text, self._at)
            if found is None:
                self._at = self._comment()
                continue
            takes[found.lastgroup or ""](found)
            if self._events:
                yield from self._events
                self._events.clear()
            self._at = found.end()
        if not self._is_over:
            raise self.fault("the text ends inside a constructor" if self._stack else NOT_ONE)

    def _comment(self) -> int:
        """The end of the comment that begins here."""
        end = comment_end(self._text, self._at) if self._text.startswith("(:", self._at) else None
        if end is None:
            raise self.fault("a text that is too long for a request must have only constructors, "
                             "as document {element a {\"b\"}}, but here is something else")
        return end

    def _item(self, kind: NodeKind | None) -> _Parent | None:
        """Begins an item, and returns the constructor around it. The kind is None for a string."""
        if self._wants_comma:
            raise self.fault("a comma is missing before this")
        self._wants_comma, self._after_comma = True, False
        parent = self._stack[-1] if self._stack else None
        if self._is_over or (parent is None) != (kind is NodeKind.DOCUMENT):
            raise self.fault(NOT_ONE)
        if parent and kind and parent.kind not in PARENTS:
            raise self.fault(f"the constructor {parent.kind} holds strings, and here is {kind}")
        return parent

    def _string(self, found: re.Match[str]) -> None:
        parent = self._item(None)
        assert parent is not None
        parent.strings.append(self._value(found, "string"))

    def _open(self, found: re.Match[str]) -> None:
        kind, name = self._head(found)
        parent = self._item(kind)
        if parent:
            self._end_text(parent)
            if kind in PARENTS:
                parent.has_content = True
        self._stack.append(_Parent(kind, name))
        self._wants_comma = False
        if kind in PARENTS:
            self._events.append(Open(kind, name))

    def _leaf(self, found: re.Match[str]) -> None:
        kind, name = self._head(found)
        if kind in PARENTS:
            self._open(found)
            self._stack[-1].strings.append(self._value(found, "value"))
            self._close(found)
            return
        parent = self._item(kind)
        assert parent is not None
        self._node(parent, kind, name, self._value(found, "value"))

    def _node(self, parent: _Parent, kind: NodeKind, name: str, value: str) -> None:
        self._end_text(parent)
        if kind is not NodeKind.ATTRIBUTE:
            parent.has_content = parent.has_content or kind is not NodeKind.TEXT or bool(value)
        elif parent.kind is NodeKind.DOCUMENT:
            raise self.fault("a document has no attributes")
        elif parent.has_content:
            raise self.fault("an attribute comes after other content")
        elif name in parent.names:
            raise self.fault(f"the element has two attributes called {name}")
        else:
            parent.names.add(name)
        if why := _why_no_value(kind, name, value):
            raise self.fault(why)
        self._events.append(Leaf(kind, name, value))

    def _close(self, _: re.Match[str]) -> None:
        if not self._stack:
            raise self.fault("a brace closes that was not opened")
        if self._after_comma:
            raise self.fault("nothing follows the comma")
        last = self._stack.pop()
        self._wants_comma, self._is_over = True, not self._stack
        if last.kind in PARENTS:
            self._end_text(last)
            self._events.append(Close())
        elif last.strings or last.kind is not NodeKind.TEXT:
            self._node(self._stack[-1], last.kind, last.name, " ".join(last.strings))

    def _comma(self, _: re.Match[str]) -> None:
        if not self._wants_comma:
            raise self.fault("a comma comes before the first item or after another comma")
        self._wants_comma, self._after_comma = False, True

    def _end_text(self, parent: _Parent) -> None:
        """Passes adjacent strings on as one text."""
        if parent.strings and parent.kind in PARENTS:
            text = " ".join(parent.strings)
            parent.strings.clear()
            parent.has_content = parent.has_content or bool(text)
            self._events.append(Leaf(NodeKind.TEXT, "", text))

    def _head(self, found: re.Match[str]) -> tuple[NodeKind, str]:
        kind, name = _KINDS[found["kind"]], found["name"] or ""
        if (kind in _NAMED) != bool(name):
            raise self.fault(f"the name of the {kind} is missing")
        if ":" not in name and name != NAMESPACE:
            return kind, name
        if not self._is_flat:
            raise self.fault(f"the name {name} needs namespaces, which the server doesn't have; "
                             "the choice 'flat' takes it")
        try:
            return kind, self._stored.setdefault(name, incoming(Names.FLAT)(name))
        except NameFault as error:
            raise self.fault(str(error)) from None

    def _value(self, found: re.Match[str], group: str) -> str:
        """The text of a string, from that group of the match."""
        literal, self._at = found[group], found.start(group)
        quote, text = literal[0], literal[1:-1]
        if quote in text:
            text = text.replace(quote * 2, quote)
        if "&" in text:
            text = _REFERENCE.sub(self._character, text)
        if NOT_XML.search(text):
            raise self.fault("a string has a character that XML doesn't have")
        self._at = found.start()
        return text

    def _character(self, found: re.Match[str]) -> str:
        name, decimal, hexadecimal = found.groups()
        if name:
            return _PREDEFINED[name]
        number = int(decimal) if decimal else int(hexadecimal, 16) if hexadecimal else -1
        if not 0 <= number < 0x110000 or 0xD800 <= number < 0xE000:
            raise self.fault("a string has an & that begins no reference to a character")
        return chr(number)


def _why_no_value(kind: NodeKind, name: str, value: str) -> str:
    """Why a node can't have this name or value; empty if it can."""
    if kind is NodeKind.COMMENT and ("--" in value or value.endswith("-")):
        return "a comment holds -- or ends in -"
    if kind is NodeKind.INSTRUCTION and "?>" in value:
        return "a processing instruction holds ?>"
    if kind is NodeKind.INSTRUCTION and name.lower() == "xml":
        return "a processing instruction is called xml"
    return ""
