"""A client of xq_server.

    from xqs import connect, q
    with connect("./serve --file x.db") as server:
        server.store("books", 'document {element books {element book {attribute id {"7"}}}}')
        [book] = server.query(q("doc($a)//book[@id = $id]", a="books", id="7"))
"""

from xqs.bounds import NoBound
from xqs.client import Client, connect
from xqs.errors import (
    Changed,
    Closed,
    Lost,
    Misspelt,
    NoPlace,
    NotAnAddress,
    NotConnected,
    NoText,
    NotStarted,
    Refused,
    RefusedAsSlow,
    ReplyError,
    TimedOut,
    Unknown,
    Wanting,
    XqError,
)
from xqs.protocol import FrameFault
from xqs.queries import literal, q
from xqs.values import Item, Node, NodeKind, Untyped, items, quoted, values
from xqs.version import __version__

__all__ = [
    "Changed",
    "Client",
    "Closed",
    "FrameFault",
    "Item",
    "Lost",
    "Misspelt",
    "NoBound",
    "NoPlace",
    "NoText",
    "Node",
    "NodeKind",
    "NotAnAddress",
    "NotConnected",
    "NotStarted",
    "Refused",
    "RefusedAsSlow",
    "ReplyError",
    "TimedOut",
    "Unknown",
    "Untyped",
    "Wanting",
    "XqError",
    "__version__",
    "connect",
    "items",
    "literal",
    "q",
    "quoted",
    "values",
]
