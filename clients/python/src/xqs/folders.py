"""Folders of documents: addresses by prefix or by pattern, and queries over a folder.

The server's `collection()` has all documents. With this module a query can ask for those of a
folder:

    from xqs.folders import in_folders

    text = in_folders(client, 'collection("books")//title')      # of the folder in the text
    text = in_folders(client, "count(collection())", "books")    # of this folder
    client.query(text)

A folder has the document at its own address and those below it: `books` has `books/a.xml`, but not
`books2/a.xml`. The addresses are listed at once. A document that is dropped before the query runs
is left out.
"""

from collections.abc import Callable, Iterable, Iterator, Sequence
from dataclasses import dataclass
from fnmatch import fnmatchcase

from xqs.client import Client
from xqs.errors import XqError
from xqs.faults import line_and_column
from xqs.protocol import MAX_REQUEST
from xqs.rewriting import Rewritten, rewrite
from xqs.temporary import is_temporary
from xqs.tokens import Token, tokens
from xqs.values import quoted

_NAMES = ("collection", "fn:collection")
_NO_CALL = ("$", "::", "@", "=>")
_PATTERN = frozenset("*?[")
_ROOM = MAX_REQUEST - 20_000
"""About how many bytes the addresses of a query's folders may take."""


class FolderFault(XqError, ValueError):
    """A query that the documents of a folder can't be put into; `at` is the place in its text, from
    0."""

    def __init__(self, text: str, at: int, why: str) -> None:
        line, column = line_and_column(text, at)
        super().__init__(f"{line}:{column}: {why}")
        self.text, self.at, self.why = text, at, why


def is_pattern(word: str) -> bool:
    """Whether a word is a pattern for several addresses: `*` for any characters, slashes too, `?`
    for one, `[ab]` for one of these. No address has these characters."""
    return not _PATTERN.isdisjoint(word)


def matching(addresses: Iterable[str], pattern: str) -> list[str]:
    """The addresses that match a pattern. Temporary ones match only if the pattern begins as they
    do."""
    return _lasting((it for it in addresses if fnmatchcase(it, pattern)), pattern)


def named_by(addresses: Iterable[str], word: str) -> list[str]:
    """The addresses that a word of a list names: those that match the pattern, or have the
    prefix."""
    if is_pattern(word):
        return matching(addresses, word)
    return [it for it in addresses if it.startswith(word)]


def below(addresses: Iterable[str], folder: str) -> list[str]:
    """The addresses of a folder: its own, and those below it. An empty name gives all but temporary
    ones."""
    start = folder if not folder or folder.endswith("/") else folder + "/"
    return _lasting((it for it in addresses if it == folder or it.startswith(start)), folder)


def _lasting(addresses: Iterable[str], asked: str) -> list[str]:
    return [it for it in addresses if is_temporary(asked) or not is_temporary(it)]


def collection(addresses: Sequence[str]) -> str:
    """An expression for the documents at those of the addresses that still have one."""
    if not addresses:
        return "()"
    start = _common_start(addresses)
    names = ", ".join(quoted(it[len(start):]) for it in addresses)
    found = f"(({names}) ! concat({quoted(start)}, .))" if start else f"({names})"
    return f"({found}[doc-available(.)] ! doc(.))"


def _common_start(addresses: Sequence[str]) -> str:
    first, last = min(addresses), max(addresses)
    return first[: first.rfind("/", 0, _common_length(first, last)) + 1]


def _common_length(one: str, other: str) -> int:
    pairs = zip(one, other, strict=False)
    return next((at for at, (a, b) in enumerate(pairs) if a != b), min(len(one), len(other)))


def in_folders(client: Client, text: str, folder: str | None = None) -> str:
    """The query with the documents of folders in place of each `collection("NAME")`, and of
    `folder`, if it is given, in place of each `collection()`.

    Raises FolderFault if a name is no string literal, if a folder has too many documents for a
    query, or if `folder` is given but the query has no `collection()`.
    """
    return with_folders(text, folder, client.list).text


def may_ask_for_folders(text: str, folder: str | None = None) -> bool:
    """Whether the query may need addresses; a quick look at its text."""
    return folder is not None or "collection" in text


@dataclass(frozen=True)
class _Call:
    """A call of `collection`: its first token, its end, and the folder that it names."""

    token: Token
    end: int
    folder: str | None


def with_folders(text: str, folder: str | None, addresses: Callable[[], list[str]]) -> Rewritten:
    """Like `in_folders`, and gives the places too. `addresses` is called only if they are
    needed."""
    if not may_ask_for_folders(text, folder):
        return Rewritten(text)
    calls = [it for it in _calls(text) if it.folder is not None or folder is not None]
    if folder is not None and not any(it.folder is None for it in calls):
        raise FolderFault(text, 0, "nothing in the query asks for the folder: it has no "
                          "collection()")
    if not calls:
        return Rewritten(text)
    named = [folder or "" if it.folder is None else it.folder for it in calls]
    variables = {it: _variable(text, number) for number, it in enumerate(dict.fromkeys(named))}
    known = addresses()
    bindings = ", ".join(f"{it} := {collection(below(known, of))}" for of, it in variables.items())
    if len(bindings) + len(text.encode()) > _ROOM:
        raise FolderFault(text, calls[0].token.at, f"the {len(below(known, named[0])):,} addresses "
                          "of the folder don't fit a query; ask for a smaller one")
    head = (0, 0, f"let {bindings} return (")
    changes = [(it.token.at, it.end, variables[of]) for it, of in zip(calls, named, strict=True)]
    return rewrite(text, [head, *changes, (len(text), len(text), "\n)")])


def _variable(text: str, number: int) -> str:
    name = f"$xqs-folder-{number + 1}"
    while name in text:
        name += "-"
    return name


def _calls(text: str) -> Iterator[_Call]:
    found = [it for it in tokens(text) if it.kind != "comment"]
    for at, token in enumerate(found):
        after = found[at + 1 : at + 4]
        is_call = token.text in _NAMES and bool(after) and after[0].text == "("
        if token.kind == "name" and is_call and (not at or found[at - 1].text not in _NO_CALL):
            yield _call(text, token, after[1:])


def _call(text: str, token: Token, after: Sequence[Token]) -> _Call:
    if after and after[0].text == ")":
        return _Call(token, after[0].at + 1, None)
    if len(after) == 2 and after[0].kind == "string" and after[1].text == ")":
        return _Call(token, after[1].at + 1, after[0].text[1:-1])
    raise FolderFault(text, token.at, "collection takes the name of a folder that is written out, "
                      'as collection("books"), or nothing')
