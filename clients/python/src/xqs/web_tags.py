"""Entity tags of HTTP: which state of a document or answer was sent, and in which form."""

import base64
import hashlib
import re
from collections.abc import Mapping
from dataclasses import dataclass
from typing import BinaryIO, Protocol

from xqs.web_status import HttpRefusal

VERSION = b"1\n"
"""The version of the forms. It changes whenever the bytes of a form change for the same text of the
server."""
_TAG = re.compile(r'[ \t]*(W/)?"([\x21\x23-\x7e\x80-\uffff]*)"[ \t]*(?:,|$)')
ANY = "*"


class Headers(Protocol):
    """The headers of a request, some with the same name."""

    def getall(self, key: str, default: list[str], /) -> list[str]:
        """The values of all headers with this name, or the default if there are none."""


class StateHash:
    """Takes the server's text in pieces, and gives its state."""

    def __init__(self) -> None:
        self._hash = hashlib.blake2b(VERSION, digest_size=15)

    def write(self, text: str) -> None:
        """Takes the next piece."""
        self._hash.update(text.encode())

    def state(self) -> str:
        """The state: the beginning of its tags."""
        return base64.urlsafe_b64encode(self._hash.digest()).decode()


def state_of(text: str) -> str:
    """The state of a whole text of the server."""
    result = StateHash()
    result.write(text)
    return result.state()


def tag(state: str, *form: str) -> str:
    """The entity tag of a state in a form, which a media type and choices name.

    It is strong: state and form determine each byte.
    """
    return f'"{state}-{"-".join(word.replace("/", ".") for word in form if word)}"'


def tag_of_file(file: BinaryIO) -> str:
    """The entity tag of the bytes of a file."""
    file.seek(0)
    found = hashlib.blake2b(VERSION, digest_size=15)
    while piece := file.read(1 << 20):
        found.update(piece)
    return f'"{base64.urlsafe_b64encode(found.digest()).decode()}"'


def state_in(entity_tag: str) -> str:
    """The state with which a tag of this program begins."""
    return entity_tag.strip('"')[:20]


@dataclass(frozen=True)
class Conditions:
    """The conditions of a request on the current state: `match` from If-Match, `none_match` from
    If-None-Match. Each is a set of tags, weak ones with W/, or ANY; None if the header is
    absent."""

    match: frozenset[str] | None = None
    none_match: frozenset[str] | None = None

    @property
    def is_given(self) -> bool:
        """Whether there is any."""
        return self.match is not None or self.none_match is not None

    @property
    def wants_state(self) -> bool:
        """Whether they depend on more than whether there is a document."""
        return any(tags and tags != {ANY} for tags in (self.match, self.none_match))

    def check(self, entity_tag: str) -> None:
        """Refuses an answer whose tag is not wanted; raises NotModified if it is the one that the
        client has."""
        if self.match is not None and not self.match & {entity_tag, ANY}:
            raise failed("If-Match names another state")
        known = self.none_match or frozenset()
        if known & {entity_tag, f"W/{entity_tag}", ANY}:
            raise NotModified(entity_tag)

    def check_state(self, state: str | None) -> None:
        """Refuses a change of a document in that state; None is the state without a document.

        A tag of any form of the state matches it.
        """
        if self.match is not None and not _has(self.match, state, is_weak=False):
            raise failed("If-Match names another state of the document")
        if self.none_match is not None and _has(self.none_match, state, is_weak=True):
            raise failed("If-None-Match names the state of the document")


class NotModified(Exception):
    """The client has the answer already; `tag` is its tag."""

    def __init__(self, entity_tag: str) -> None:
        super().__init__(entity_tag)
        self.tag = entity_tag


def failed(why: str) -> HttpRefusal:
    """The refusal of a request whose condition fails."""
    return HttpRefusal(412, "xqs:CONDITION", f"{why}; nothing has changed")


def _has(tags: frozenset[str], state: str | None, is_weak: bool) -> bool:
    if state is None:
        return False
    strong = {state_in(it) for it in tags if not it.startswith("W/")}
    weak = {state_in(it.removeprefix("W/")) for it in tags if is_weak}
    return ANY in tags or state in strong | weak


def conditions_of(headers: Headers) -> Conditions:
    """The conditions of a request. Raises HttpRefusal if one of their headers is invalid."""
    return Conditions(_tags(headers, "If-Match"), _tags(headers, "If-None-Match"))


def _tags(headers: Headers, name: str) -> frozenset[str] | None:
    lines = headers.getall(name, [])
    if not lines:
        return None
    text = ",".join(lines).strip(" \t,")
    if text == ANY:
        return frozenset((ANY,))
    tags, at = set[str](), 0
    while at < len(text):
        found = _TAG.match(text, at)
        if not found:
            raise HttpRefusal(400, "xqs:REQUEST", f"{name} is * or tags in double quotes: {text}")
        tags.add(f'{found[1] or ""}"{found[2]}"')
        at = found.end()
    return frozenset(tags)


def etag(entity_tag: str) -> Mapping[str, str]:
    """The headers with a tag, and with the request headers that the answer depends on."""
    return {"ETag": entity_tag, "Vary": "Accept", "Cache-Control": "private, no-cache"}
