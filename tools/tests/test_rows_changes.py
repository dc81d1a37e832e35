"""What many changes leave: documents stored over one another, and many beside one another.

What the tables of a file hold is read by stock SQLite, and compared with what a new file holds in
which the last document alone was stored.
"""

import unittest
from collections.abc import Iterator, Sequence

from tools.rows import edits, runs, tables
from tools.rows.edits import Case, Kept
from tools.rows.tables import Group, Row
from tools.tests.test_rows import command
from tools.tests.test_rows_files import OverFile, shown

ROWS = ("SELECT address || ' ' || pre || ' ' || size || ' ' || level || ' ' || kind || ' ' || name "
        "|| ' ' || value FROM node2 INNER JOIN label ON label = id WHERE address <> 'a' "
        "ORDER BY address, pre")
FRONT = Row(b"Q", b'count(doc("m")/node()[1])', 0, b"")
# An opening keeps rows document after document. This one leaves no room for another in a megabyte:
# its two rows take 24 bytes each, the empty name 64, and the text the rest but for less than 100.
FULL = Row(b"S", tables.store_body(
    "a", b'document {text {string-join(for $n in 1 to 10484 return "%s", "")}}' % (b"x" * 100)),
    0, b"")
A_MEGABYTE = ("--kept", "1")
ROUND = ("first", "path", "tuple", "number", "content", "node", "function", "static")
DOCUMENTS, STEPS = 300, 1_500
COUNTED = 60
# A document by the numbers of its nodes, and the one that replaces it: runs of numbers, each up to,
# and without, the second. Those of more than 1,000 rows are read in two parts.
Runs = Sequence[tuple[int, int]]
EDITS: tuple[tuple[str, Runs, Runs], ...] = (
    ("the same", [(0, 40)], [(0, 40)]),
    ("one text", [(0, 40)], [(0, 20), (90, 91), (21, 40)]),
    ("a node at the front", [(0, 40)], [(90, 91), (0, 40)]),
    ("a node taken out", [(0, 40)], [(0, 20), (21, 40)]),
    ("everything", [(0, 40)], [(50, 90)]),
    ("the root alone", [(0, 40)], []),
    ("all but the root", [], [(0, 40)]),
    ("a text of the second part", [(0, 1_010)], [(0, 1_004), (90, 91), (1_005, 1_010)]),
    ("a part less", [(0, 1_010)], [(0, 2)]),
    ("a part more", [(0, 400)], [(1, 1_010)]),
)


def stored(query: str, address: str = "m") -> Row:
    """The store of a document, whichever its reply is."""
    return Row(b"S", tables.store_body(address, query.encode()), 0, b"")


def target_of(number: int) -> str:
    """The target of a processing instruction."""
    return "odd" if number % 2 else "even"


def instructions(runs: Runs) -> str:
    """A document of processing instructions: each has its number as its text."""
    nodes = (f'processing-instruction {target_of(number)} {{"{number}"}}'
             for low, high in runs for number in range(low, high))
    return f"document {{{', '.join(nodes)}}}"


class ChangeTest(OverFile):
    """Documents in the place of others, on a file."""

    def run_rows(self, rows: Sequence[Row], *words: str) -> None:
        """Sends these to a server over the file, with these words; none is refused."""
        data = b"".join(runs.request(1, row) for row in rows)
        ended = runs.served([*self.over_file(), *words], data)
        self.assertEqual((ended.status, ended.line), (0, ""))
        self.assertEqual([it.status for it in runs.replies(ended.output)], [0] * len(rows))

    def left(self) -> str:
        """What the tables of the file hold."""
        return shown(self.path, ROWS)

    def left_fresh(self, query: str) -> str:
        """What they hold once this document alone was stored."""
        self.clear()
        self.run_rows([stored(query)])
        return self.left()

    def put_all(self, case: Case, queries: Sequence[str]) -> None:
        """Stores the documents in turn, so that what the case says is kept of each."""
        self.clear()
        if case.kept is Kept.WHOLE:
            self.run_rows([stored(query) for query in queries])
            return
        self.run_rows([FULL])
        front = [FRONT] if case.kept is Kept.FRONT else []
        for before, query in zip([None, *queries], queries, strict=False):
            self.run_rows([*(front if before else []), stored(query)], *A_MEGABYTE)

    def test_edits_leave_what_the_last_document_leaves(self) -> None:
        for case in edits.cases():
            queries = list(edits.documents(case))
            with self.subTest(case=case):
                self.put_all(case, queries)
                left = self.left()
                self.assertEqual(left, self.left_fresh(queries[-1]))

    def test_each_edit_leaves_what_a_fresh_store_leaves(self) -> None:
        for name, first, second in EDITS:
            with self.subTest(name):
                self.clear()
                self.run_rows([stored(instructions(first)), stored(instructions(second))])
                left = self.left()
                self.assertEqual(left, self.left_fresh(instructions(second)))

    def test_each_number_of_rows_is_stored_whole(self) -> None:
        for count in range(26):
            wanted = "".join(f"m {number + 1} 0 1 5 {target_of(number)} {number}|"
                             for number in range(count))
            with self.subTest(count=count):
                left = self.left_fresh(instructions([(0, count)]))
                self.assertEqual(left, f"m 0 {count} 0 0  |{wanted}")


class Model:
    """Three hundred documents, each with the step as its text at which it was stored last."""

    def __init__(self) -> None:
        self.versions: dict[str, int] = {}

    def row(self, step: int) -> Row:
        """The request of a step, and its reply."""
        address = f"d{step % DOCUMENTS * 37 % DOCUMENTS + 1_000}"
        if step % 7 in (0, 3, 4):
            text = b"replaced" if address in self.versions else b"stored"
            self.versions[address] = step
            return Row(b"S", stored(f'document {{element a {{"{step}"}}}}', address).body, 0, text)
        if step % 7 in (1, 5):
            query = f'string(doc("{address}"))'.encode()
            version = self.versions.get(address)
            return (Row(b"Q", query, 1, b"FODC0002") if version is None
                    else Row(b"Q", query, 0, f'"{version}"'.encode()))
        was = self.versions.pop(address, None)
        body = address.encode()
        return (Row(b"D", body, 1, b"prof:ABSENT") if was is None
                else Row(b"D", body, 0, b"dropped"))

    def listed(self) -> Row:
        """The list of the addresses."""
        text = ", ".join(f'"{address}"' for address in sorted(self.versions))
        return Row(b"L", b"", 0, text.encode() or b"()")

    def rows(self) -> Iterator[Row]:
        """All steps, and the list after each hundredth."""
        for step in range(STEPS):
            yield self.row(step)
            if step % 100 == 99:
                yield self.listed()


class Counted:
    """Documents of 900 elements with three names, more than a megabyte keeps: how many of each name
    a document has changes as it is stored again."""

    names = ("a", "b", "c")

    def __init__(self) -> None:
        self.counts: dict[str, tuple[int, int, int]] = {}

    def put(self, number: int, turn: int) -> Row:
        """Stores a document, another one in each turn."""
        address, few = f"d{number:03}", 100 + (number * 7 + turn * 31) % 200
        text = b"replaced" if address in self.counts else b"stored"
        self.counts[address] = counts = (few, 300, 500 - few)
        parts = ", ".join(f"for $i in 1 to {count} return element {name} {{$i}}"
                          for name, count in zip(self.names, counts))
        return Row(b"S", stored(f"document {{element r {{{parts}}}}}", address).body, 0, text)

    def drop(self, number: int) -> Row:
        """Drops a document."""
        del self.counts[f"d{number:03}"]
        return Row(b"D", b"d%03d" % number, 0, b"dropped")

    def asked(self, among: Sequence[int]) -> Iterator[Row]:
        """Counts by each name, over all and over some of the documents."""
        for place, name in enumerate((*self.names, "absent")):
            counts = {address: (*found, 0)[place] for address, found in self.counts.items()}
            yield Row(b"Q", f"count(collection()//{name})".encode(), 0,
                      str(sum(counts.values())).encode())
            for address in (f"d{number:03}" for number in among):
                yield Row(b"Q", f'count(doc("{address}")//{name})'.encode(), 0,
                          str(counts[address]).encode())

    def rows(self) -> Iterator[Row]:
        """Stores and counts, turn by turn: what was counted is stored again, and one is dropped."""
        yield from (self.put(number, 0) for number in range(COUNTED))
        for turn in range(1, 4):
            yield from self.asked((turn, 20, COUNTED - 1))
            yield from self.asked((turn, 20, COUNTED - 1))
            yield from (self.put(number, turn) for number in (turn, 20, COUNTED - 1))
            yield self.drop(turn + 30)
            yield self.put(COUNTED + turn, turn)
            yield from self.asked((turn, 20, COUNTED + turn))


def wide_and_deep(children: int, depth: int) -> list[int]:
    """A root with so many children, and so many nested nodes in each tenth of them.

    A tree is the numbers of the parents of its elements, in document order.
    """
    parents = [-1]
    for child in range(children):
        parents.append(0)
        parents.extend(range(len(parents) - 1, len(parents) - 1 + (0 if child % 10 else depth)))
    return parents


def shelves(count: int, books: int) -> list[int]:
    """A root with so many shelves, in each so many books with a title and a text in it."""
    parents = [-1]
    for _shelf in range(count):
        shelf = len(parents)
        parents.append(0)
        for _book in range(books):
            parents += [shelf, len(parents), len(parents) + 1]
    return parents


def numbered(parents: Sequence[int]) -> str:
    """A query for a document with this tree: each element has its number, and its parent's."""
    parts = [[f'attribute n {{"{own}"}}, attribute p {{"{parent}"}}']
             for own, parent in enumerate(parents)]
    for own in range(len(parents) - 1, 0, -1):
        parts[parents[own]].insert(1, f"element a {{{', '.join(parts[own])}}}")
    return f"document {{element a {{{', '.join(parts[0])}}}}}"


TREES = {
    "wide": wide_and_deep(700, 0), "deep": wide_and_deep(60, 97), "root": wide_and_deep(0, 0),
    "63": wide_and_deep(63, 0), "64": wide_and_deep(64, 0), "65": wide_and_deep(65, 62),
    "shelves": shelves(12, 50),
}
"""Trees, some of them around the length of a block of what tells parents."""
PARENTS = ("every $e in doc(\"t\")/a//a satisfies $e/@p = $e/../@n",
           "every $e in doc(\"t\")/a//a satisfies $e/@p = $e/ancestor::a[1]/@n",
           "every $e in doc(\"t\")//a satisfies count($e/..) = 1")
"""What holds of each of the trees."""


@unittest.skipUnless(command(), "there is no program: set XQS_SERVER")
class ManyTest(unittest.TestCase):
    """Many requests on one server."""

    def check(self, rows: Sequence[Row], words: Sequence[str] = ()) -> None:
        """Checks the replies of a server to these."""
        group = Group("rows", tuple(rows))
        self.assertEqual([*runs.wrong([*command(), *words], [group])], [])

    def test_many_documents_are_those_of_the_model(self) -> None:
        self.check([*Model().rows()])

    def test_counts_by_name_are_those_of_the_model_whatever_is_forgotten(self) -> None:
        for words in (A_MEGABYTE, ()):
            with self.subTest(words):
                self.check([*Counted().rows()], words)

    def test_fifty_rounds(self) -> None:
        rows = [row for group in tables.groups("worked.toml") if group.name in ROUND
                for row in group.rows]
        self.check([*rows, Row(b"D", b"b", 0, b"dropped")] * 50)

    def test_the_parent_of_each_node_is_told(self) -> None:
        for name, parents in TREES.items():
            asked = [Row(b"Q", query.encode(), 0, b"true()") for query in PARENTS]
            # The root's parent is the document.
            count = Row(b"Q", b'count(doc("t")//a/..)', 0, str(len(set(parents))).encode())
            with self.subTest(name):
                self.check([Row(b"S", stored(numbered(parents), "t").body, 0, b"stored"), count,
                            *asked, count])


if __name__ == "__main__":
    unittest.main()
