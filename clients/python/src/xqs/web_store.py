"""Stores and drops under conditions, so that no update is lost.

The server has no conditional store, but a store evaluates a query, and changes nothing if the query
gives no document. So a document with a condition is first stored under a temporary address. Then
one request to the server checks the condition and gives the document, or nothing.
"""

from collections.abc import Callable, Iterator
from contextlib import contextmanager, suppress

from xqs.client import Client
from xqs.constructors import write_constructors
from xqs.errors import Refused, XqError
from xqs.fetch import document_events
from xqs.requests import store_of
from xqs.temporary import Temporary
from xqs.values import quoted
from xqs.web_tags import Conditions, StateHash, failed

ABSENT = "FODC0002"
NO_DOCUMENT = "prof:NOTDOC"
_NODES = """string-join(for $n in doc({})/descendant::node() return (
  count($n/ancestor::node()), name($n),
  if ($n/self::element())
  then for $a in $n/@* return ("@", name($a), string-length(string($a)), string($a))
  else (if ($n/self::text()) then "t" else if ($n/self::comment()) then "c" else "p",
        string-length(string($n)), string($n))), "|")"""
"""A text that two documents share exactly if they have the same nodes."""


def store_if(
    client: Client, address: str, conditions: Conditions, store: Callable[[str], object]
) -> bool:
    """Stores a document if the conditions hold. Returns whether it replaced another one.

    `store` is called with the address at which it must store the document. Raises HttpRefusal 412
    if a condition fails; then nothing has changed. One request checks the condition and stores the
    document, so it sees all that any client of the server has stored before.
    """
    with _temporary(client) as new, _unchanged(client, address, conditions) as condition:
        store(new)
        try:
            return client.store(address, f"if ({condition}) then doc({quoted(new)}) else ()")
        except Refused as error:
            if error.code != NO_DOCUMENT:
                raise
            raise failed("the document has changed meanwhile") from error


def drop_if(client: Client, address: str, conditions: Conditions) -> None:
    """Drops a document if the conditions hold. Raises HttpRefusal 412 if one fails.

    The last check of the document and the drop are two requests: a document that another client of
    the server stores between them is dropped.
    """
    with _unchanged(client, address, conditions) as condition:
        if client.query(condition) != [True]:
            raise failed("the document has changed meanwhile")
        client.drop(address)


@contextmanager
def _temporary(client: Client) -> Iterator[str]:
    """A context with a temporary address, where nothing is left at the end."""
    address = Temporary().next()
    try:
        yield address
    finally:
        with suppress(XqError):
            client.drop(address)


@contextmanager
def _unchanged(client: Client, address: str, conditions: Conditions) -> Iterator[str]:
    """A query that tells whether the document is as it was when the conditions were checked.

    Raises HttpRefusal 412 if they fail.
    """
    name = quoted(address)
    if not conditions.wants_state:
        is_there = bool(client.query(f"doc-available({name})")[0])
        conditions.check_state("" if is_there else None)
        yield f"doc-available({name}) = {'true' if is_there else 'false'}()"
        return
    with _temporary(client) as copy:
        state = _copied_state(client, address, copy)
        conditions.check_state(state)
        if state is None:
            yield f"not(doc-available({name}))"
        else:
            same = f"{_NODES.format(name)} = {_NODES.format(quoted(copy))}"
            yield f"if (doc-available({name})) then {same} else false()"


def _copied_state(client: Client, address: str, copy: str) -> str | None:
    """The state of a document, which is copied for that; None if there is no document."""
    try:
        client.request_later(store_of(copy, f"doc({quoted(address)})")).result()
    except Refused as error:
        if error.code != ABSENT:
            raise
        return None
    state = StateHash()
    write_constructors(document_events(client, copy), state.write)
    return state.state()
