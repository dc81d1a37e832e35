"""The forms of values in HTTP: XML, plain text, constructors, JSON."""

import io
import json
import re
from collections.abc import Iterable, Iterator, Sequence
from dataclasses import dataclass

from xqs.values import Atom, Close, Event, Leaf, NodeKind, Open, events
from xqs.web_status import HttpRefusal
from xqs.xml_out import XmlWriter, atom_text

XML, TEXT_XML, TEXT = "application/xml", "text/xml", "text/plain"
XQUERY, JSON = "application/xquery", "application/json"
PAGE = "application/vnd.xqs.page+json"
"""The form for the page; no other client has to ask for it."""
XML_FORMS = (XML, TEXT_XML)
FORMS = (*XML_FORMS, TEXT, XQUERY, JSON, PAGE)
"""The forms of a value that is a text of XML; the first one is the default."""
OTHER_FORMS = FORMS[len(XML_FORMS):]
"""The forms of any other value."""
LIST_FORMS = (*XML_FORMS, TEXT, XQUERY, JSON)
IN_UTF8 = (*XML_FORMS, TEXT, XQUERY)
"""The forms with a character set in their Content-Type."""
QUALITY = re.compile(r"0(\.\d{0,9})?|1(\.0{0,9})?")
_VERBATIM = (NodeKind.COMMENT, NodeKind.INSTRUCTION)
"""The kinds of nodes whose text XML can't escape, so that they can't have a carriage return."""
NAMESPACE = "http://basex.org/rest"
"""The namespace of BaseX's answers; the elements here have the names of those."""


def chosen(accept: str | None, offered: Sequence[str]) -> str:
    """The first of the media types that an Accept header prefers among those offered.

    Raises HttpRefusal 406 if it accepts none.
    """
    wishes = [_wish(part) for part in (accept or "*/*").split(",") if part.strip()]
    ranked = [(_quality(wishes, form), -at) for at, form in enumerate(offered)]
    quality, at = max(ranked)
    if quality <= 0:
        raise HttpRefusal(406, "xqs:ACCEPT", f"the available forms are {', '.join(offered)}")
    return offered[-at]


def _wish(part: str) -> tuple[str, float]:
    name, *parameters = (word.strip().lower() for word in part.split(";"))
    for parameter in parameters:
        if parameter.startswith("q="):
            return name, _quality_of(parameter[2:])
    return name, 1.0


def _quality_of(text: str) -> float:
    """A number from 0 to 1; 0 for any other text."""
    return float(text) if QUALITY.fullmatch(text) else 0.0


def _quality(wishes: list[tuple[str, float]], form: str) -> float:
    """The quality that the most specific matching range gives to a media type."""
    exact = [quality for name, quality in wishes if name == form]
    family = [quality for name, quality in wishes if name == form.split("/")[0] + "/*"]
    anything = [quality for name, quality in wishes if name == "*/*"]
    return max(exact or family or anything or [0.0])


@dataclass(frozen=True)
class Spelled:
    """An item: its type, its XML, a line of plain text for it, and whether its XML is by itself a
    text of XML, as that of one element is."""

    type: str
    xml: str
    plain: str
    is_whole: bool


class Judge:
    """Takes the events of one item, and finds out whether exactly that item is a text of XML."""

    def __init__(self) -> None:
        self._depth = self._elements = self._top = 0
        self._has_other = False

    def event(self, event: Event) -> bool:
        """Takes the next event. Returns whether the item ends with it."""
        match event:
            case Open(NodeKind.DOCUMENT, _):
                self._top = 1
            case Open():
                self._elements += self._depth == self._top
            case Leaf(kind, _, value):
                is_at_top = self._depth == self._top and kind is NodeKind.TEXT
                is_outside = self._depth == 0 or is_at_top
                has_return = kind in _VERBATIM and "\r" in value
                self._has_other |= is_outside or has_return
        self._depth += isinstance(event, Open) - isinstance(event, Close)
        return self._depth == 0

    @property
    def is_whole(self) -> bool:
        """Whether the item, which has ended, is by itself a text of XML."""
        return self._elements == 1 and not self._has_other


class _Speller:
    """Writes one item, as its events come."""

    def __init__(self, first: Event, names: str) -> None:
        self._first = first
        self._judge = Judge()
        self._out = io.StringIO()
        self._writer = XmlWriter(self._out.write, names)

    def event(self, event: Event) -> bool:
        """Takes the next event. Returns whether the item ends with it."""
        self._writer.event(event)
        return self._judge.event(event)

    def spelled(self) -> Spelled:
        """The item, once it has ended."""
        xml = plain = self._out.getvalue()
        match self._first:
            case Leaf(NodeKind.TEXT, _, value):
                plain = value
            case Atom(value):
                plain = atom_text(value)
        return Spelled(type_of(self._first), xml, plain, self._judge.is_whole)


def spelled_items(text: str, names: str) -> Iterator[Spelled]:
    """The printed items one by one; `names` as in `xml_out.XmlWriter`.

    Raises Misspelt if the text is no printed value.
    """
    speller: _Speller | None = None
    for event in events(text):
        speller = speller or _Speller(event, names)
        if speller.event(event):
            yield speller.spelled()
            speller = None


def as_results(items: Iterable[Spelled]) -> str:
    """Items as one document of XML, with an element for each."""
    results = "".join(
        f'<rest:result type="{item.type}">{item.xml}</rest:result>' for item in items)
    return f'<rest:results xmlns:rest="{NAMESPACE}">{results}</rest:results>'


def type_of(event: Event) -> str:
    """The type of the item that the event begins."""
    match event:
        case Open(kind, _) | Leaf(kind, _, _):
            return "document-node()" if kind.value == "document" else f"{kind.value}()"
        case Atom(atom):
            names = {"bool": "boolean", "int": "integer", "Decimal": "decimal", "str": "string"}
            return "xs:" + names.get(type(atom).__name__, "untypedAtomic")
    return ""


def list_as_xml(addresses: Sequence[str]) -> str:
    """The addresses as one document of XML."""
    resources = "".join(f'<rest:resource type="xml">{it}</rest:resource>' for it in addresses)
    head = f'<rest:database xmlns:rest="{NAMESPACE}" resources="{len(addresses)}">'
    return f"{head}{resources}</rest:database>"


def list_as_json(addresses: Sequence[str]) -> str:
    """The addresses as an array of JSON."""
    return json.dumps(list(addresses))


def list_as_text(addresses: Sequence[str]) -> str:
    """The addresses, one per line."""
    return "".join(f"{it}\n" for it in addresses)


def list_as_xquery(addresses: Sequence[str]) -> str:
    """The addresses as a sequence of strings."""
    return ", ".join(f'"{it}"' for it in addresses) or "()"


def spelled_list(addresses: Sequence[str], form: str) -> str:
    """The addresses in one of LIST_FORMS."""
    spell = {JSON: list_as_json, TEXT: list_as_text, XQUERY: list_as_xquery}
    return spell.get(form, list_as_xml)(addresses)
