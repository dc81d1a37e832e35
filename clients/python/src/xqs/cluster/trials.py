"""Stores whose query is first asked as a query, so that what enters the log ends, and soon.

All nodes carry out what the log holds. So a store whose query occupies a server, or takes more
memory than it has, would stop them all. A text of constructors alone takes time that grows only
with its length, and needs no trial.
"""

import re
from collections.abc import Awaitable, Callable

from xqs.mux_peer import Request
from xqs.protocol import MAX_REQUEST, Kind, Status
from xqs.tokens import NAME

_SPACE = r"[ \t\r\n]"
_PLAIN = re.compile(
    rf"""(?:{_SPACE}++|[{{}},]|"[^"]*+"|'[^']*+'|\(\)
    |(?:document|text|comment){_SPACE}*+(?={{)
    |(?:element|attribute|processing-instruction){_SPACE}++{NAME}{_SPACE}*+(?={{))*+""",
    re.VERBOSE)
_TAG = 4
_BY_ITS_PLACE = (b"XPST0003", b"prof:DEPTH")
"""Refusals that may come from the words around a query."""

Asking = Callable[[bytes], Awaitable[bytes]]
"""Gives the status and text of a server's reply to a kind and body."""


def query_of(request: Request) -> bytes | None:
    """The query of a store that needs a trial; None if it needs none."""
    body = request.payload[1:]
    if request.kind != Kind.STORE or not body:
        return None
    text = body[1 + body[0]:]
    return None if is_plain(text) else text


def is_plain(text: bytes) -> bool:
    """Whether a query's text has only constructors and strings."""
    try:
        return _PLAIN.fullmatch(text.decode()) is not None
    except UnicodeDecodeError:
        return False


async def refusal_of(query: bytes, ask: Asking) -> bytes | None:
    """The reply that refuses a store, since its query did not end; None if it did.

    A query that is refused for a fault of its own has ended too: at which place that happens is
    decided in the log.
    """
    reply = await ask(_counted(query))
    if reply[:1] == bytes([Status.REFUSED]) and reply[1:] in _BY_ITS_PLACE:
        reply = await ask(Kind.QUERY.value + query)
    if reply[0] == Status.WANTING or reply[1:].startswith(b"xqs:"):
        return reply
    return None


def _counted(query: bytes) -> bytes:
    """The request for the query's value, with a short reply if there is room for the words of
    that."""
    counted = b"count(( " + query + b" ))"
    text = counted if len(counted) + _TAG + 1 <= MAX_REQUEST else query
    return Kind.QUERY.value + text
