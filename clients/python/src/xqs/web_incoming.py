"""The body of a PUT, as a document."""

from dataclasses import dataclass
from typing import BinaryIO

from xqs.client import Client
from xqs.constructor_reader import ConstructorReader
from xqs.incoming import (
    MAX_QUERY,
    ConstructorDocument,
    Incoming,
    QueryDocument,
    XmlDocument,
    chunks_of,
)
from xqs.parts import PART_BYTES
from xqs.prefixed import flat_query
from xqs.stores import store_at
from xqs.temporary import Temporary
from xqs.web_charset import decoded
from xqs.web_forms import XQUERY
from xqs.xml_in import XmlChoices, XmlReader
from xqs.xml_judge import judge_xml
from xqs.xml_names import Names


@dataclass(frozen=True)
class Put:
    """A body: its name in messages, its media type, its bytes, what happens to names with a colon,
    and the character set of the transport."""

    name: str
    kind: str
    body: BinaryIO
    names: Names
    charset: str | None

    def store(self, client: Client, address: str) -> bool:
        """Stores the document at any address. Returns whether it replaced another one.

        Raises XmlFault, PlacedFault, PrefixFault, HttpRefusal if the body is refused; then nothing
        has been sent.
        """
        temporary = Temporary()
        return store_at(client, address, self._document(temporary), temporary).replaced

    def _document(self, temporary: Temporary) -> Incoming:
        size = self.body.seek(0, 2)
        self.body.seek(0)
        if self.kind == XQUERY:
            return self._query(temporary)
        choices = XmlChoices(names=self.names)
        if size is None or size > PART_BYTES:
            judge_xml(self.name, chunks_of(self.body), choices, self.charset)
            self.body.seek(0)
        reader = XmlReader(self.name, temporary, choices, self.charset)
        return XmlDocument(chunks_of(self.body), reader)

    def _query(self, temporary: Temporary) -> Incoming:
        text = decoded(self.body.read(), self.charset)
        if len(text.encode()) > MAX_QUERY:
            reader = ConstructorReader(text, self.name, self.names)
            return ConstructorDocument(reader, temporary)
        return QueryDocument(flat_query(text) if self.names is Names.FLAT else text)
