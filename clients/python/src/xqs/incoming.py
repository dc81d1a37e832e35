"""What a file gives to store: XML, a query, or constructors of any length.

A file that can be read twice is checked whole before its first part is sent.
"""

import re
from collections.abc import Iterable, Iterator
from io import SEEK_END
from pathlib import PurePath
from typing import BinaryIO, Protocol

from xqs.constructor_reader import NOT_ONE, ConstructorReader
from xqs.faults import PlacedFault, line_and_column
from xqs.parts import PART_BYTES, DocumentText, NotADocument, Part, TooLarge
from xqs.prefixed import PrefixFault, flat_query
from xqs.protocol import MAX_ADDRESS, MAX_REQUEST
from xqs.temporary import Temporary
from xqs.values import Close, Event, NodeKind, Open
from xqs.xml_in import XmlChoices, XmlReader
from xqs.xml_judge import judge_xml
from xqs.xml_names import Names

CHUNK, LONGEST_CHUNK = 1 << 16, 1 << 24
"""The least and the most bytes of a file that are read at once."""
MAX_QUERY = MAX_REQUEST - MAX_ADDRESS - 6
"""The longest query that a store has room for, in bytes, whatever its address."""
_XML = (b"<", b"\xff\xfe", b"\xfe\xff", b"\0<", b"\0\0\0<", b"\0\0\xfe\xff", b"\x4c\x6f\xa7\x94")
"""How XML begins in each encoding, after the byte order mark of UTF-8."""
_MARK = b"\xef\xbb\xbf"
_CONSTRUCTOR = re.compile(rb"document\s*\{")
QUERY_ENDINGS = frozenset((".xq", ".xql", ".xqm", ".xqy", ".xquery"))
"""The endings of files with queries."""


class Incoming(Protocol):
    """A document on its way in; `read` is how many bytes of its text have been read."""

    read: int

    @property
    def nodes(self) -> int:
        """How many nodes have been read; 0 for a query, whose nodes the server makes."""

    def parts(self) -> Iterator[Part]:
        """The documents to store first, in this order. Raises PlacedFault if the text is
        refused."""

    def whole(self) -> str:
        """The text that makes the document, once the parts have been taken."""


def chunks_of(file: BinaryIO) -> Iterator[bytes]:
    """The bytes of a file, piece by piece.

    Pieces grow with the amount read so far: for each piece the parser scans an incomplete comment
    or tag from its beginning, so pieces of one size would take quadratic time.
    """
    total = 0
    while piece := file.read(min(max(CHUNK, total // 4), LONGEST_CHUNK)):
        total += len(piece)
        yield piece


class XmlDocument:
    """A document of XML whose bytes come in pieces of any size."""

    def __init__(self, chunks: Iterable[bytes], reader: XmlReader) -> None:
        self._chunks, self._reader = chunks, reader
        self.read = 0

    @property
    def nodes(self) -> int:
        """The number of nodes so far."""
        return self._reader.nodes

    def parts(self) -> Iterator[Part]:
        """The documents to store first, in this order. Raises XmlFault if the text is not
        well-formed or is refused."""
        for chunk in self._chunks:
            self.read += len(chunk)
            yield from self._reader.feed(chunk)
        yield from self._reader.close()

    def whole(self) -> str:
        """The text that makes the document, once the parts have been taken."""
        return self._reader.whole


class QueryDocument:
    """A query that gives the document and fits a request."""

    nodes = read = 0

    def __init__(self, text: str) -> None:
        self._text = text

    def parts(self) -> Iterator[Part]:
        """No documents: the query makes the whole one."""
        return iter(())

    def whole(self) -> str:
        """The text of the query."""
        return self._text


class PrintedDocument:
    """A document whose events come one after another, as those of what the server has printed."""

    def __init__(self, steps: Iterable[Event], temporary: Temporary) -> None:
        self._steps = steps
        self.read = 0
        self._document = DocumentText(temporary)

    @property
    def nodes(self) -> int:
        """The number of nodes so far."""
        return self._document.nodes

    def parts(self) -> Iterator[Part]:
        """The documents to store first, in this order.

        Raises NotADocument if the events are not those of one document, and TooLarge if it has too
        many nodes or levels.
        """
        for part in constructor_parts(self._document, self._steps):
            self.read += len(part.text)
            yield part

    def whole(self) -> str:
        """The text that makes the document, once the parts have been taken."""
        return self._document.whole()


class ConstructorDocument(PrintedDocument):
    """A document of constructors, of any length; it is read whole before the first part is
    given."""

    def __init__(self, reader: ConstructorReader, temporary: Temporary) -> None:
        super().__init__(reader, temporary)
        self._reader = reader

    def parts(self) -> Iterator[Part]:
        """The documents to store first, in this order. Reads the whole text at once.

        Raises PlacedFault if the text is refused, or if the document has too many nodes or levels.
        """
        try:
            parts = list(constructor_parts(self._document, self._steps))
        except TooLarge as error:
            raise self._reader.fault(str(error)) from None
        return self._passed(parts)

    def _passed(self, parts: list[Part]) -> Iterator[Part]:
        """The parts; each stands for its share of the text, as far as `read` tells."""
        for part in parts:
            self.read += self._reader.length // len(parts)
            yield part


def constructor_parts(document: DocumentText, steps: Iterable[Event]) -> Iterator[Part]:
    """The parts of a document of printed nodes.

    Raises NotADocument if they are no document, TooLarge if it has too many nodes or levels.
    """
    rest = iter(steps)
    _expect(next(rest, None) == Open(NodeKind.DOCUMENT, ""))
    depth = 1
    for event in rest:
        _expect(depth > 0)
        depth += isinstance(event, Open) - isinstance(event, Close)
        if depth:
            document.event(event)
        yield from document.take_parts()
    _expect(depth == 0)


def _expect(holds: bool) -> None:
    if not holds:
        raise NotADocument(NOT_ONE)


def incoming(
    file: BinaryIO,
    source: str,
    temporary: Temporary,
    choices: XmlChoices = XmlChoices(),  # noqa: B008 (it is frozen)
    charset: str | None = None,
    by_name: bool = False,
) -> Incoming:
    """The document in a file. Raises PlacedFault if it is refused, as far as that is known yet.

    It is XML if it begins like XML, else a query. With `by_name` it is also a query if the ending
    of its name says so, or if it begins with a document constructor. `source` is its name in
    messages, and `charset` that of its transport.
    """
    first = b""
    while not first.strip() and (piece := file.read(CHUNK)):
        first += piece
    if _is_query(first, by_name and PurePath(source).suffix not in QUERY_ENDINGS):
        return _query(first + file.read(), source, temporary, choices.names)
    if file.seekable() and (start := file.tell() - len(first)) >= 0:
        if file.seek(0, SEEK_END) - start > PART_BYTES:
            file.seek(start)
            judge_xml(source, chunks_of(file), choices, charset)
        file.seek(start)
        first = b""
    chunks = (it for some in ([first], chunks_of(file)) for it in some)
    return XmlDocument(chunks, XmlReader(source, temporary, choices, charset))


def _is_query(first: bytes, constructors: bool) -> bool:
    """Whether a text with this beginning is a query. With `constructors` only the beginning of a
    document constructor counts."""
    text = first.removeprefix(_MARK).lstrip()
    if constructors:
        return bool(_CONSTRUCTOR.match(text))
    return bool(text) and not text.startswith(_XML)


def _query(data: bytes, source: str, temporary: Temporary, names: Names) -> Incoming:
    text = _decoded(data.removeprefix(_MARK), source)
    if len(data) > MAX_QUERY:
        return ConstructorDocument(ConstructorReader(text, source, names), temporary)
    if names is not Names.FLAT:
        return QueryDocument(text)
    try:
        return QueryDocument(flat_query(text))
    except PrefixFault as error:
        raise PlacedFault(source, *line_and_column(text, error.at), error.why) from None


def _decoded(data: bytes, source: str) -> str:
    try:
        return data.decode()
    except UnicodeDecodeError as error:
        before = data[: error.start].decode()
        place = line_and_column(before, len(before))
        raise PlacedFault(source, *place, "these bytes are not valid utf-8") from None
