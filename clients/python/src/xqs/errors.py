"""The errors of this package, and a sentence for each code of the server."""

SENTENCES = {
    # The text of a query, before it is evaluated.
    "XPST0003": "the text of the query does not parse",
    "XPST0008": "a variable is not bound",
    "XPST0017": "there is no such function with that number of arguments",
    "XQST0089": "'at' has the name of its own 'for' variable",
    "XQST0090": "a character reference names no character of XML",
    "XQST0094": "'group by' names a variable that this FLWOR does not bind",
    # Its evaluation.
    "XPDY0002": "there is no context item here",
    "XPDY0050": "the root of the tree is not a document",
    "XPTY0004": "a value of a wrong type, or a wrong number of items",
    "XPTY0018": "a path gives nodes and atomic values together",
    "XPTY0019": "the value before a / has items that are not nodes",
    "XPTY0020": "a step begins at an item that is not a node",
    "XQTY0024": "an attribute comes after other content",
    "XQDY0025": "an element has two attributes of one name",
    "XQDY0026": "a processing instruction holds ?>",
    "XQDY0041": "the name of a processing instruction is not a name",
    "XQDY0044": "an attribute is called xmlns",
    "XQDY0064": "a processing instruction is called xml",
    "XQDY0072": "a comment holds -- or ends in -",
    "XQDY0074": "the name of an element or an attribute is not a name",
    "FOAR0001": "a division by zero",
    "FOAR0002": "a number is out of range",
    "FOCA0001": "a number is too large for a decimal",
    "FOCA0003": "a number is too large for an integer",
    "FOCA0006": "a decimal has more than six digits after the point",
    "FODC0002": "there is no document at that address",
    "FODC0005": "the text is not an address",
    "FORG0001": "the text is no value of that type",
    "FORG0003": "zero-or-one() was given more than one item",
    "FORG0004": "one-or-more() was given no item",
    "FORG0005": "exactly-one() was not given exactly one item",
    "FORG0006": "the value has no boolean value, or can't be summed or compared",
    # The server's own.
    "prof:UTF8": "the query is not UTF-8",
    "prof:DEPTH": "the query nests deeper than 128",
    "prof:DIGITS": "a decimal literal has more than six digits after the point",
    "prof:DOUBLE": "the standard would compute with doubles here; cast by xs:integer or xs:decimal",
    "prof:PREFIX": "a name has a prefix; the server has no namespaces",
    "prof:TYPE": "there is no such type",
    "prof:RANGE": "a range has more than 1,000,000 items",
    "prof:LEVEL": "a node would be deeper than level 100",
    "prof:NODES": "a tree would have more than 1,000,000 nodes",
    "prof:REPLY": "the answer is over 16,777,216 bytes; ask for it in parts",
    "prof:FRAME": "the frame is no request",
    "prof:LONG": "the frame is over 1,048,832 bytes",
    "prof:ADDRESS": "the bytes are no address",
    "prof:ABSENT": "there is no document at that address",
    "prof:NOTDOC": "the query does not give exactly one document to store",
    # Codes of `xqs mux` itself; the last two come with status 2.
    "xqs:READONLY": "nothing can be stored or dropped here; the multiplexer runs with --read-only",
    "xqs:SECONDS": "the query took longer than the multiplexer allows (--seconds N, 0: any time)",
    "xqs:MEMORY": "the request took so much memory that the server ended (--memory SIZE allows "
    "more)",
    "xqs:LINE": "too many stores and drops wait for the server, or one has waited for too long; "
    "nothing has changed, the request may be sent again",
    "xqs:DIFFER": "servers gave different replies, so nothing is stored or dropped any more; the "
    "multiplexer's messages say where the replies are",
    # Status 2.
    "memory": "the server ran out of memory (--memory SIZE allows more); nothing has changed, the "
    "request may be sent again",
    "store": "the server's database failed; look at the disk, then send the request again, and "
    "restart the server if every request fails like this",
}
"""The meaning of each code of status 1 and each word of status 2."""


def sentence(code: str) -> str:
    """A code of the server in words."""
    return SENTENCES.get(code, "docs/LANGUAGE.md has the codes")


class XqError(Exception):
    """Base of all errors that this package defines."""


class ReplyError(XqError):
    """A reply whose status is not 0; the documents are as before."""

    def __init__(self, code: str, request: str = "") -> None:
        """`code` is the reply's text, `request` describes the request."""
        super().__init__(f"{code}: {sentence(code)}")
        self.code = code
        self.request = request


class Refused(ReplyError):
    """Status 1: the request is at fault."""


class Wanting(ReplyError):
    """Status 2: memory ran out or the store failed; the request may be sent again."""


class Closed(XqError):
    """The stream ended before the reply: the request may have been carried out, or not."""


class Unknown(Closed):
    """The outcome of a store or drop is unknown: ask for the document before you send it again."""


class Lost(Closed):
    """Documents in a server's memory are lost with it; the request was not carried out."""


class NotStarted(Closed):
    """A server that was started here ended before its first reply; nothing was carried out."""


class Changed(XqError):
    """A document changed while it was read in pieces, so the pieces are not from one state of
    it."""

    def __init__(self, address: str) -> None:
        super().__init__(f"the document at {address} was changed while it was read; read it again")


class TimedOut(XqError, TimeoutError):
    """A request took longer than allowed, or its caller stopped waiting."""


class RefusedAsSlow(Refused, TimedOut):
    """A multiplexer ended its server, which took too long for the request; nothing has changed."""


class NotConnected(XqError, OSError):
    """There is no server at the place, or it can't be started."""


class NotAnAddress(XqError, ValueError):
    """A text that is no address of a document."""


class NoPlace(XqError, ValueError):
    """A text that is no place of a server."""


class NoText(XqError, ValueError):
    """A text that has no UTF-8, as one with an unpaired surrogate."""


class Misspelt(XqError, ValueError):
    """A reply's text that is no printed value."""
