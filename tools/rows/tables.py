"""Tables of rows: requests to a server with the replies that they have, in tools/rows/*.toml.

A table has groups of rows. A group begins with a new server, which holds the documents that its
`stored` names, or serves a copy of the file that its `base` names, or goes on with the server of
the group before where it `follows`. A row is a query with its reply, `[QUERY, REPLY]`, or a table
with another request:

    { query = TEXT, reply = TEXT }
    { store = ADDRESS, query = TEXT, reply = TEXT }
    { put = NAME, reply = TEXT }                       a document of documents.toml is stored
    { drop = ADDRESS, reply = TEXT }
    { kind = "L", reply = TEXT }
    { kind = "S", body = HEX, reply = TEXT }

Where a group stands `once`, its refused rows are not asked again: they take long.

A text is a string, a list of texts, or a text whose parts are repeated: { times, before, middle,
after }. A reply that reads as a code has status 1, any other status 0; `wants` in place of
`reply` is for status 2.
"""

import functools
import pathlib
import re
import tomllib
from collections.abc import Iterator, Mapping
from dataclasses import dataclass
from typing import Any

from tools.common.harness import store

FOLDER = pathlib.Path(__file__).resolve().parent
DOCUMENTS = "documents.toml"
CODE = re.compile(r"[A-Z]{4}[0-9]{4}|prof:[A-Z0-9]+")
Given = str | list[Any] | Mapping[str, Any]


class Misread(Exception):
    """A table has another form than this module knows."""


@dataclass(frozen=True)
class Row:
    """A request, and the status and text of its reply."""

    kind: bytes
    body: bytes
    status: int
    text: bytes


@dataclass(frozen=True)
class Group:
    """Rows for one server, which may go on from the group before, or serve a copy of a file."""

    name: str
    rows: tuple[Row, ...]
    follows: bool = False
    base: pathlib.Path | None = None
    once: bool = False


def text_of(given: Given) -> bytes:
    """The bytes of a text."""
    if isinstance(given, str):
        return given.encode()
    if isinstance(given, list):
        return b"".join(map(text_of, given))
    times = int(given["times"])
    before, middle, after = (text_of(given.get(it, "")) for it in ("before", "middle", "after"))
    return before * times + middle + after * times


def store_body(address: str, query: bytes) -> bytes:
    """The body of a store; the address may be one that a server refuses."""
    return store(address.encode(), query)


def read(name: str) -> dict[str, Any]:
    """What a table holds."""
    with open(FOLDER / name, "rb") as file:
        return tomllib.load(file)


@functools.cache
def documents() -> dict[str, dict[str, Any]]:
    """The documents that rows name, each with its address."""
    return read(DOCUMENTS)


def request_of(given: Mapping[str, Any]) -> tuple[bytes, bytes]:
    """The kind and the body of a request."""
    if "put" in given:
        named = documents()[given["put"]]
        return b"S", store_body(named["address"], text_of(named["query"]))
    if "store" in given:
        return b"S", store_body(given["store"], text_of(given["query"]))
    if "drop" in given:
        return b"D", text_of(given["drop"])
    if "query" in given:
        return b"Q", text_of(given["query"])
    return given["kind"].encode(), bytes.fromhex(given.get("body", ""))


def reply_of(given: Mapping[str, Any]) -> tuple[int, bytes]:
    """The status and the text of a reply."""
    if "wants" in given:
        return 2, text_of(given["wants"])
    text = text_of(given["reply"])
    return (1 if CODE.fullmatch(text[:100].decode(errors="replace")) else 0), text


def row_of(given: Any) -> Row:
    """The row that a table has."""
    if isinstance(given, list) and len(given) == 2:
        given = {"query": given[0], "reply": given[1]}
    if not isinstance(given, dict):
        raise Misread(f"no row: {given!r}")
    return Row(*request_of(given), *reply_of(given))


def stores(names: list[str]) -> Iterator[Row]:
    """The rows that store these documents of documents.toml."""
    return (row_of({"put": name, "reply": "stored"}) for name in names)


def group_of(given: Mapping[str, Any]) -> Group:
    """The group that a table has."""
    rows = (*stores(given.get("stored", [])), *map(row_of, given["rows"]))
    base = FOLDER / given["base"] if "base" in given else None
    return Group(given["name"], rows, given.get("follows", False), base, given.get("once", False))


def groups(name: str) -> list[Group]:
    """The groups of a table, in order."""
    return [group_of(it) for it in read(name)["group"]]


def tables() -> list[str]:
    """The names of the tables that have groups."""
    names = sorted(path.name for path in FOLDER.glob("*.toml"))
    return [name for name in names if "group" in read(name)]


def runs(name: str) -> Iterator[list[Group]]:
    """The groups of a table as servers get them: each list is for one server."""
    begun: list[Group] = []
    for group in groups(name):
        if begun and not group.follows:
            yield begun
            begun = []
        begun.append(group)
    if begun:
        yield begun


def worked() -> list[Row]:
    """The worked rows of the protocol, in order on one server."""
    return [row for group in groups("worked.toml") for row in group.rows]
