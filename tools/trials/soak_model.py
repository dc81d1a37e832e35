"""Random requests over generated documents, and what a server has to answer them.

A document is a list of rows, each with a number and a text, so that this module can say what a
query gives without an evaluator of its own. Nothing here knows how a server answers.
"""

import random
import string
from collections.abc import Callable
from dataclasses import dataclass

ADDRESSES = tuple(f"{name}{number}" for name in ("a", "b/c", "D.") for number in range(6))
SIZES = (0, 1, 2, 5, 20, 20, 100, 400)
LARGE, LARGE_ONCE_IN, MOST_ROWS = 3000, 200, 4000
NUMBERS = 50

Row = tuple[int, str]
Document = tuple[Row, ...]
Documents = dict[str, Document]
Reply = tuple[int, str]


@dataclass(frozen=True)
class Request:
    """The kind and body of a frame, its reply, and the documents after it."""

    kind: bytes
    body: bytes
    reply: Reply
    after: Documents


def printed_row(row: Row) -> str:
    """A row as it is printed, which is a query too."""
    number, text = row
    return f'element row {{attribute n {{"{number}"}}, text {{"{text}"}}}}'


def printed(document: Document) -> str:
    """A document as it is printed, which is a query too."""
    rows = ", ".join(printed_row(row) for row in document)
    return f"document {{element rows {{{rows}}}}}"


def listed(items: list[str]) -> str:
    """A value of these printed items."""
    return ", ".join(items) or "()"


def a_document(chance: random.Random) -> Document:
    """A document of random rows."""
    count = LARGE if chance.randrange(LARGE_ONCE_IN) == 0 else chance.choice(SIZES)
    letters = string.ascii_letters
    return tuple(
        (chance.randrange(NUMBERS), "".join(chance.choices(letters, k=chance.randint(1, 6))))
        for _ in range(count))


def in_order(document: Document) -> str:
    """The numbers of the rows by their texts."""
    return listed([f'"{number}"' for number, _ in sorted(document, key=lambda row: row[1])])


def in_groups(document: Document) -> str:
    """How many rows there are of each number, by its digits."""
    numbers = sorted({str(number) for number, _ in document})
    return listed([str(sum(str(it[0]) == number for it in document)) for number in numbers])


# What is asked of one document, and what its rows give.
QUESTIONS: tuple[tuple[str, Callable[[Document], str]], ...] = (
    ("{0}", printed),
    ("count({0}//row)", lambda rows: str(len(rows))),
    ("count({0}//node())", lambda rows: str(1 + 2 * len(rows))),
    ('{0}//row[@n = "7"]', lambda rows: listed([printed_row(it) for it in rows if it[0] == 7])),
    ("{0}/rows/row[last()]/@n", lambda rows: listed(
        [f'attribute n {{"{number}"}}' for number, _ in rows[-1:]])),
    ("sum(for $r in {0}//row return xs:integer($r/@n))",
     lambda rows: str(sum(number for number, _ in rows))),
    ("for $r in {0}//row order by string($r) return string($r/@n)", in_order),
    ("for $r in {0}//row group by $n := string($r/@n) order by $n return count($r)", in_groups),
    ('string-join(for $r in {0}//row return string($r), "-")',
     lambda rows: '"' + "-".join(text for _, text in rows) + '"'),
    ("count({0}//row/following-sibling::row[1])", lambda rows: str(max(len(rows) - 1, 0))),
    ("element copy {{{0}//row[position() <= 3]}}", lambda rows: (
        f"element copy {{{', '.join(map(printed_row, rows[:3]))}}}")),
)
REFUSED: tuple[tuple[bytes, str], ...] = (
    (b"1 div 0", "FOAR0001"), (b"(", "XPST0003"), (b"1 + $q", "XPST0008"),
    (b"\xff", "prof:UTF8"), (b"count(1, 2)", "XPST0017"), (b"1 to 1000001", "prof:RANGE"),
    (b"(" * 200 + b"1" + b")" * 200, "prof:DEPTH"), (b'"a" + 1', "XPTY0004"),
)
BAD_FRAMES: tuple[tuple[bytes, bytes, str], ...] = (
    (b"X", b"", "prof:FRAME"), (b"L", b"x", "prof:FRAME"), (b"S", b"", "prof:FRAME"),
    (b"S", b"\x01 document {}", "prof:ADDRESS"), (b"D", b"a b", "prof:ADDRESS"),
    (b"S", b"\x01a1", "prof:NOTDOC"), (b"D", b"none", "prof:ABSENT"),
)


class Generator:
    """Random requests, each over the documents that those before it leave."""

    def __init__(self, chance: random.Random) -> None:
        self.chance = chance

    def request(self, documents: Documents) -> Request:
        """A random request."""
        kinds = (self.question, self.store, self.drop, self.copy, self.joined, self.all, self.bad)
        made = self.chance.choices(kinds, weights=(45, 20, 8, 5, 5, 12, 5))[0]
        return made(documents)

    def address(self) -> str:
        """A random address."""
        return self.chance.choice(ADDRESSES)

    def question(self, documents: Documents) -> Request:
        """A query of one document, which may not be there."""
        address = self.address()
        query, answer = self.chance.choice(QUESTIONS)
        body = query.format(f'doc("{address}")').encode()
        found = documents.get(address)
        reply = (1, "FODC0002") if found is None else (0, answer(found))
        return Request(b"Q", body, reply, documents)

    def stored(
        self, documents: Documents, address: str, query: str, document: Document | None
    ) -> Request:
        """A store of a query that gives this document, or none."""
        body = bytes([len(address)]) + address.encode() + query.encode()
        if document is None:
            return Request(b"S", body, (1, "FODC0002"), documents)
        text = "replaced" if address in documents else "stored"
        return Request(b"S", body, (0, text), {**documents, address: document})

    def store(self, documents: Documents) -> Request:
        """A store of a new document."""
        document = a_document(self.chance)
        return self.stored(documents, self.address(), printed(document), document)

    def copy(self, documents: Documents) -> Request:
        """A store of a document that is there under another address, or is not."""
        source = self.address()
        return self.stored(
            documents, self.address(), f'doc("{source}")', documents.get(source))

    def joined(self, documents: Documents) -> Request:
        """A store of the rows of two documents, but for those of one number."""
        first, second = self.address(), self.address()
        number = self.chance.randrange(NUMBERS)
        query = (f'document {{element rows {{(doc("{first}")//row, doc("{second}")//row)'
                 f'[@n != "{number}"]}}}}')
        ours, theirs = documents.get(first), documents.get(second)
        if ours is None or theirs is None:
            return self.stored(documents, self.address(), query, None)
        if len(ours) + len(theirs) > MOST_ROWS:
            return self.drop(documents)
        rows = tuple(row for row in ours + theirs if row[0] != number)
        return self.stored(documents, self.address(), query, rows)

    def drop(self, documents: Documents) -> Request:
        """A drop."""
        address = self.address()
        rest = {name: rows for name, rows in documents.items() if name != address}
        reply = (0, "dropped") if address in documents else (1, "prof:ABSENT")
        return Request(b"D", address.encode(), reply, rest)

    def all(self, documents: Documents) -> Request:
        """A question about all documents."""
        if self.chance.random() < 0.5:
            return listing(documents)
        count = sum(len(rows) for rows in documents.values())
        reply = f"{len(documents)}, {count}"
        query = b"count(collection()), count(collection()//row)"
        return Request(b"Q", query, (0, reply), documents)

    def bad(self, documents: Documents) -> Request:
        """A request that is refused."""
        if self.chance.random() < 0.3:
            kind, body, code = self.chance.choice(BAD_FRAMES)
            return Request(kind, body, (1, code), documents)
        query, code = self.chance.choice(REFUSED)
        return Request(b"Q", query, (1, code), documents)


def listing(documents: Documents) -> Request:
    """A list of all addresses."""
    names = sorted(documents, key=str.encode)
    return Request(b"L", b"", (0, listed([f'"{name}"' for name in names])), documents)
