"""XML text, piece by piece, turned into the constructor text of a document. This module reads no
files.

It never reads external entities or definitions. It drops the document type itself, and keeps the
default values of attributes from its internal subset.
"""

from collections.abc import Callable, Iterator
from dataclasses import dataclass
from typing import NoReturn
from xml.parsers import expat

from xqs.faults import PlacedFault
from xqs.parts import DocumentText, Part, TooLarge
from xqs.temporary import Temporary
from xqs.xml_decoding import EncodingFault, Utf8
from xqs.xml_doctype import Doctype, EntityFault
from xqs.xml_names import NameFault, Names, incoming, is_declaration

SPACE = " \t\r\n"
"""White space, as XML has it."""
_TEXT_HELD = 1 << 20
"""How many characters of a text are collected before they are passed on."""
_SPACE_ATTRIBUTE = "xml:space"
_SLICE = 1 << 16
"""The least number of bytes that are parsed at once in a text with a document type."""
_INVALID_TOKEN = expat.errors.codes[expat.errors.XML_ERROR_INVALID_TOKEN]
FAULTS = (NameFault, TooLarge)
"""The errors by which names and nodes are refused. The place is added where the text is read, since
the parser has gone on when an error leaves it."""


@dataclass(frozen=True)
class XmlChoices:
    """How XML is read: what happens to names with a colon; whether texts of white space are
    dropped, unless `xml:space="preserve"` holds; whether entities that the text declares are
    expanded."""

    names: Names = Names.REFUSE
    strip: bool = False
    entities: bool = False


class XmlFault(PlacedFault):
    """XML that is not well-formed, or is refused; with its place, counted from 1."""


class ChoiceFault(XmlFault):
    """XML that is refused by one choice, and that another may accept."""


class XmlReader:
    """Reads one document.

    `feed` takes its bytes in pieces of any size, and returns the parts to store first. `close` ends
    it; then `whole` is the text that makes the document. All raise XmlFault.
    """

    def __init__(
        self,
        source: str,
        temporary: Temporary,
        choices: XmlChoices = XmlChoices(),  # noqa: B008 (it is frozen)
        charset: str | None = None,
    ) -> None:
        """`source` is the text's name in messages. `charset` is that of its transport, as of an
        HTTP header: it takes precedence over the declaration, and a byte order mark over both."""
        self._source = source
        self._document = DocumentText(temporary)
        self._strip = choices.strip
        self._names = _Cache(incoming(choices.names))
        self._is_local = choices.names is Names.LOCAL
        self._text: list[str] = []
        self._text_length = 0
        self._preserved: list[bool] = [False]
        self._bytes = Utf8(charset)
        self._slice = _SLICE
        self._parser = self._new_parser()
        self._doctype = Doctype(self._parser, choices.entities, self._refuse)
        self.whole = ""

    def feed(self, data: bytes) -> list[Part]:
        """Takes the next bytes. Returns the parts to store now, in this order."""
        self._parse(data, False)
        return self._document.take_parts()

    def close(self) -> list[Part]:
        """Ends the text. Returns the last parts."""
        self._parse(b"", True)
        self.whole = self._document.whole()
        return self._document.take_parts()

    @property
    def nodes(self) -> int:
        """The number of nodes so far."""
        return self._document.nodes

    def _new_parser(self) -> expat.XMLParserType:
        parser = expat.ParserCreate("utf-8", intern={})
        parser.buffer_text = True
        parser.buffer_size = 1 << 16
        parser.ordered_attributes = True
        parser.StartElementHandler = self._start
        parser.EndElementHandler = self._end
        parser.CharacterDataHandler = self._characters
        parser.CommentHandler = self._comment
        parser.ProcessingInstructionHandler = self._instruction
        return parser

    def _parse(self, data: bytes, final: bool) -> None:
        try:
            for piece in self._slices(self._bytes.feed(data, final)):
                self._parser.Parse(piece, False)
            if final:
                self._parser.Parse(b"", True)
        except EncodingFault as error:
            raise XmlFault(self._source, error.line, error.column, error.why) from None
        except expat.ExpatError as error:
            is_token = error.code == _INVALID_TOKEN
            why = self._bytes.fault(self._parser.ErrorByteIndex) if is_token else ""
            why = why or expat.errors.messages[error.code]
            raise XmlFault(self._source, error.lineno, error.offset + 1, why) from None

    def _slices(self, data: bytes) -> Iterator[bytes]:
        """The bytes in short pieces, since each look at the source of a tag copies a piece; in
        longer ones if a token goes on and on."""
        at = 0
        while at < len(data):
            begun = self._parser.CurrentByteIndex
            yield data[at : at + self._slice]
            at += self._slice
            is_on = self._parser.CurrentByteIndex > begun
            self._slice = _SLICE if is_on else self._slice * 2

    def _refuse(self, why: str | Exception) -> NoReturn:
        line, column = self._parser.CurrentLineNumber, self._parser.CurrentColumnNumber + 1
        kind = ChoiceFault if isinstance(why, NameFault | EntityFault) else XmlFault
        raise kind(self._source, line, column, str(why)) from None

    def _start(self, name: str, pairs: list[str]) -> None:
        if self._text:
            self._pass_text()
        if self._strip:
            self._preserved.append(self._is_preserved(pairs))
        try:
            self._document.open(self._names[name])
            if pairs:
                self._attributes(self._stored(pairs))
        except FAULTS as error:
            self._refuse(error)

    def _attributes(self, pairs: list[str]) -> None:
        attribute = self._document.attribute
        for name, value in zip(pairs[::2], pairs[1::2], strict=True):
            attribute(name, value)

    def _stored(self, pairs: list[str]) -> list[str]:
        """Names and values of attributes in the form that is stored."""
        if self._doctype.has_begun:
            self._doctype.check_tag()
        if self._is_local:
            return self._local(pairs)
        pairs[::2] = [self._names[it] for it in pairs[::2]]
        return pairs

    def _local(self, pairs: list[str]) -> list[str]:
        """Like `_stored`, but drops prefixes and declarations."""
        values: dict[str, str] = {}
        for name, value in zip(pairs[::2], pairs[1::2], strict=True):
            if is_declaration(name):
                continue
            stored = self._names[name]
            if stored in values:
                self._refuse(NameFault(f"two attributes would be called {stored}"))
            values[stored] = value
        return [it for pair in values.items() for it in pair]

    def _is_preserved(self, pairs: list[str]) -> bool:
        if _SPACE_ATTRIBUTE not in pairs[::2]:
            return self._preserved[-1]
        return pairs[pairs.index(_SPACE_ATTRIBUTE) + 1] == "preserve"

    def _end(self, _: str) -> None:
        if self._text:
            self._pass_text()
        if self._strip:
            self._preserved.pop()
        self._document.close()

    def _characters(self, text: str) -> None:
        self._text.append(text)
        self._text_length += len(text)
        if self._text_length > _TEXT_HELD and not self._strip:
            self._pass_text()

    def _pass_text(self) -> None:
        text = "".join(self._text)
        self._text.clear()
        self._text_length = 0
        if self._strip and not self._preserved[-1] and not text.strip(SPACE):
            return
        try:
            self._document.text(text)
        except FAULTS as error:
            self._refuse(error)

    def _comment(self, text: str) -> None:
        if self._doctype.is_inside:
            return
        self._pass_text()
        try:
            self._document.comment(text)
        except FAULTS as error:
            self._refuse(error)

    def _instruction(self, name: str, text: str) -> None:
        if self._doctype.is_inside:
            return
        self._pass_text()
        try:
            self._document.instruction(self._names[name], text)
        except FAULTS as error:
            self._refuse(error)


class _Cache(dict[str, str]):
    """The stored name of each name that has come."""

    def __init__(self, function: Callable[[str], str]) -> None:
        super().__init__()
        self._function = function

    def __missing__(self, name: str) -> str:
        stored = self._function(name)
        self[name] = stored
        return stored
