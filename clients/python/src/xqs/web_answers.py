"""Answers: from the server's text to the form that the request prefers."""

import io
import tempfile
from collections.abc import Callable, Iterable, Sequence
from dataclasses import dataclass
from typing import BinaryIO, cast

from xqs.client import Client
from xqs.constructors import ConstructorWriter
from xqs.errors import Refused
from xqs.fetch import document_events
from xqs.prefixed import prefixed_events, told
from xqs.values import Event
from xqs.web_forms import (
    FORMS,
    JSON,
    OTHER_FORMS,
    PAGE,
    XML_FORMS,
    XQUERY,
    Judge,
    Spelled,
    as_results,
    chosen,
    spelled_items,
)
from xqs.web_tags import StateHash, state_of, tag
from xqs.web_view import as_json, as_page_json
from xqs.xml_out import KEEP, XmlWriter

IN_MEMORY = 1 << 20
"""Up to this number of bytes an answer stays in memory while it is sent, a longer one on the
disk."""


@dataclass(frozen=True)
class Wanted:
    """The wishes of a request: the header Accept, names as for `XmlWriter`, and whether each item
    is wrapped in an element."""

    accept: str | None = None
    names: str = KEEP
    is_wrapped: bool = False

    def check(self) -> None:
        """Raises HttpRefusal 406 if no form of an answer is accepted."""
        chosen(self.accept, XML_FORMS if self.is_wrapped else FORMS)

    def choose(self, is_whole: bool) -> str:
        """The form; `is_whole` says whether the value is by itself a text of XML.

        Raises HttpRefusal 406 if it has no accepted form.
        """
        if self.is_wrapped:
            return chosen(self.accept, XML_FORMS)
        return chosen(self.accept, FORMS if is_whole else OTHER_FORMS)

    def tag(self, state: str, form: str) -> str:
        """The entity tag of a state in a form."""
        names = self.names if self.names != KEEP else ""
        return tag(state, form, names, "wrapped" if self.is_wrapped else "")


@dataclass
class Body:
    """An answer: its media type, its entity tag, and its bytes. A long answer is on the disk, since
    it may have to wait for a slow client."""

    form: str
    tag: str
    bytes: BinaryIO


def new_file() -> BinaryIO:
    """A file in memory that moves to the disk when it grows."""
    return cast(BinaryIO, tempfile.SpooledTemporaryFile(max_size=IN_MEMORY))


def body_of(form: str, entity_tag: str, text: str) -> Body:
    """An answer from a text."""
    file = new_file()
    file.write(text.encode())
    return Body(form, entity_tag, file)


def answer_of(text: str, wanted: Wanted) -> Body:
    """The answer from a reply's text. Raises HttpRefusal 406."""
    state = state_of(text)
    form, spelled = _spelled(text, wanted)
    return body_of(form, wanted.tag(state, form), spelled)


def _spelled(text: str, wanted: Wanted) -> tuple[str, str]:
    """The form for a reply's text, and the text in that form."""
    form, items = wanted.choose(True), list[Spelled]()
    if form in XML_FORMS and not wanted.is_wrapped:
        items = list(spelled_items(text, wanted.names))
        if len(items) == 1 and items[0].is_whole:
            return form, items[0].xml
        form = wanted.choose(False)
    if form == XQUERY:
        return form, told(text, wanted.names)
    if form in (JSON, PAGE):
        return form, (as_page_json if form == PAGE else as_json)(text, wanted.names)
    items = items or list(spelled_items(text, wanted.names))
    return form, as_results(items) if wanted.is_wrapped else "\n".join(it.plain for it in items)


def document_in_parts(client: Client, address: str, wanted: Wanted) -> Body:
    """The answer from a document that is too long for one reply.

    Raises HttpRefusal 406; Refused with prof:REPLY for JSON, or if a copy is needed and nothing may
    be stored.
    """
    form, judge, state = wanted.choose(True), Judge(), StateHash()
    if form in (JSON, PAGE):
        raise Refused("prof:REPLY")
    file = new_file()
    out = io.TextIOWrapper(file, encoding="utf-8", newline="", write_through=True)
    hashed, writer = ConstructorWriter(state.write), _writer(form, wanted.names, out.write)
    try:
        _give(document_events(client, address), (judge.event, hashed.event, writer))
    except Refused as error:
        # Without stores there is no copy, so the document can't be read in parts.
        raise Refused("prof:REPLY") if error.code == "xqs:READONLY" else error from error
    finally:
        out.detach()
    if form in XML_FORMS and not judge.is_whole:
        form = wanted.choose(False)
    return Body(form, wanted.tag(state.state(), form), file)


def _writer(form: str, names: str, write: Callable[[str], object]) -> Callable[[Event], object]:
    """A writer that takes the events of a document, in a form."""
    if form != XQUERY:
        return XmlWriter(write, names).event
    writer = ConstructorWriter(write)
    return lambda event: writer.event(next(prefixed_events((event,), names)))


def _give(steps: Iterable[Event], takers: Sequence[Callable[[Event], object]]) -> None:
    """Passes each event to all of the writers."""
    for event in steps:
        for take in takers:
            take(event)
