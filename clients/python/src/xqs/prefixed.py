"""Queries with prefixes over documents that were stored with flat names, and their results.

A document that was loaded with `--names flat` has `dc__title` for `dc:title`. Here a query may use
the usual names, and its results are shown with them:

    client.query('doc("a")//dc:title/@xlink:href', names="flat")

That combines these functions, which work for other transports too:

    text = client.query_text(flat_query("//dc:title"))
    prefixed_text(text)                             # element dc:title {..}, a query again
    [prefixed(it) for it in values(text)]           # nodes with dc:title, strings unchanged

Names are mapped token by token: names of elements, attributes and processing instructions, in steps
and in constructors; never strings, comments, variables, or names of functions, as `xs:integer(..)`.
Prefixes are compared as written, not URIs.
"""

from collections.abc import Iterable, Iterator
from dataclasses import replace

from xqs.constructors import write_constructors
from xqs.errors import XqError
from xqs.faults import line_and_column
from xqs.rewriting import Rewritten, rewrite
from xqs.tokens import Token, tokens
from xqs.values import Event, Item, Leaf, Node, Open, events
from xqs.xml_names import FLAT_COLON, NAMESPACE, NameFault, Names, incoming, outgoing
from xqs.xml_out import FLAT, is_flat

_WILDCARDS = {
    "p:*": 'names by prefix are *[starts-with(name(), "p__")]',
    "*:a": 'names under any prefix are *[name() = "a" or ends-with(name(), "__a")]',
}


class PrefixFault(XqError, ValueError):
    """A name in a query that has no flat name; `at` is its place in its `text`, from 0."""

    def __init__(self, text: str, at: int, why: str) -> None:
        line, column = line_and_column(text, at)
        super().__init__(f"{line}:{column}: {why}")
        self.text, self.at, self.why = text, at, why


def flat_query(text: str) -> str:
    """The query with flat names in place of names with a prefix, and of `xmlns`.

    Raises PrefixFault for a name that has no flat name, as `a__b:c`, and for `p:*` and `*:a`, which
    the language doesn't have. The server refuses a text that is no query.
    """
    return flattened(text).text


def flattened(text: str) -> Rewritten:
    """Like `flat_query`, and gives the places too."""
    return rewrite(text, (
        (it.at, it.at + len(it.text), _flat_name(text, it)) for it in _node_names(text)))


def _flat_name(text: str, token: Token) -> str:
    try:
        return incoming(Names.FLAT)(token.text)
    except NameFault as error:
        raise PrefixFault(text, token.at, str(error)) from None


def _node_names(text: str) -> Iterator[Token]:
    """The tokens that are names of nodes and have a prefix, or are `xmlns`."""
    found = [it for it in tokens(text) if it.kind != "comment"]
    _refuse_wildcard(text, found)
    end = Token("end", len(text), "")
    for before, token, after in zip([end, *found], found, [*found[1:], end], strict=False):
        is_mapped = token.kind == "name" and (":" in token.text or token.text == NAMESPACE)
        if is_mapped and before.text != "$" and after.text not in ("(", "::"):
            yield token


def _refuse_wildcard(text: str, found: list[Token]) -> None:
    """Refuses `p:*` and `*:a`, at whose colon the tokens end."""
    if len(found) < 2 or found[-1].text != ":":
        return
    before, colon = found[-2], found[-1].at
    if before.at + len(before.text) != colon:
        return
    after = next(tokens(text[colon + 1 :]), None)
    if before.kind == "name" and after and after.text == "*":
        raise PrefixFault(text, before.at, f"the language has no {before.text}:*; "
                          + _WILDCARDS["p:*"].replace("p__", f"{before.text}__"))
    if before.text == "*" and after and after.kind == "name" and after.at == 0:
        raise PrefixFault(text, before.at, f"the language has no *:{after.text}; "
                          + _WILDCARDS["*:a"].replace("a\"", f"{after.text}\""))


def prefixed(item: Item) -> Item:
    """An item of a result, with prefixes in place of flat names; an atomic value is unchanged."""
    if not isinstance(item, Node):
        return item
    return Node(
        item.kind, outgoing(item.name), item.value,
        {outgoing(name): value for name, value in item.attributes.items()},
        [it for it in map(prefixed, item.children) if isinstance(it, Node)],
    )


def prefixed_events(steps: Iterable[Event], names: str = FLAT) -> Iterator[Event]:
    """The events of a result, with prefixes in place of flat names; unchanged unless `names` is
    flat."""
    for event in steps:
        if names == FLAT and isinstance(event, Open | Leaf) and FLAT_COLON in event.name:
            yield replace(event, name=outgoing(event.name))
        else:
            yield event


def asked(text: str, names: str) -> str:
    """The query as the server takes it; `names` is `keep`, or `flat` for a query with prefixes."""
    return flat_query(text) if is_flat(names) else text


def told(printed: str, names: str) -> str:
    """A printed result to show; with prefixes if `names` is `flat`."""
    return prefixed_text(printed) if is_flat(names) else printed


def prefixed_text(printed: str) -> str:
    """A printed result with prefixes in place of flat names. Raises Misspelt if it is none."""
    if FLAT_COLON not in printed:
        return printed
    pieces: list[str] = []
    write_constructors(prefixed_events(events(printed)), pieces.append)
    return "".join(pieces)
