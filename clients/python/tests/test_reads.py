"""A read writes nothing: documents too long for a reply are read in pieces, found by sizes."""

import threading
import unittest
from collections.abc import Callable, Iterator
from contextlib import contextmanager
from unittest import mock

from tests.serving import RunningMux
from tests.support import FolderTest, ServerTest, file_server
from tests.test_random import Documents, plain
from xqs import Changed, Client, Refused, connect, fetch, ranges
from xqs.backup import digest_of
from xqs.changes import COUNTS, Changes
from xqs.constructors import write_constructors
from xqs.fetch import document_events, write_text
from xqs.protocol import Kind
from xqs.ranges import Piece, Pieces, first_look
from xqs.requests import Request
from xqs.stores import store_xml


@contextmanager
def small(piece: int = 300, most: int = 900) -> Iterator[None]:
    """A context in which a reply is too long above `most` characters, and pieces are smaller."""
    query_text = Client.query_text

    def short(self: Client, query: str, **more: float) -> str:
        text = query_text(self, query, **more)  # type: ignore[arg-type]
        if len(text) > most:
            raise Refused("prof:REPLY", query)
        return text

    with mock.patch.multiple(ranges, PIECE=piece, FEW_NODES=5, FEW_CHARACTERS=100, WHOLE=400,
                             AT_ONCE=20), mock.patch.object(Client, "query_text", short):
        yield


@contextmanager
def asked(client: Client) -> Iterator[list[Request]]:
    """The requests that a client sends meanwhile."""
    seen: list[Request] = []
    send = client._link.send

    def noted(request: Request, *more: float | None) -> object:
        seen.append(request)
        return send(request, *more)

    with mock.patch.object(client._link, "send", noted):
        yield seen


def text_of(client: Client, address: str) -> str:
    """A document, as it is read in pieces."""
    written: list[str] = []
    write_text(client, address, written.append)
    return "".join(written)


def text_by_events(client: Client, address: str) -> str:
    """A document, as its events give it."""
    written: list[str] = []
    write_constructors(document_events(client, address), written.append)
    return "".join(written)


class Alone(ServerTest):
    def test_documents_by_chance_in_small_pieces(self) -> None:
        for seed in range(60):
            self.server.store("x", f"document {{{plain(Documents(seed).element(4))}}}")
            whole = self.server.query_text('doc("x")')
            with self.subTest(seed), asked(self.server) as seen, small():
                self.assertEqual(text_of(self.server, "x"), whole)
                self.assertEqual(text_by_events(self.server, "x"), whole)
            self.assertEqual({it.kind for it in seen}, {Kind.QUERY})
            self.server.drop("x")

    def test_no_reply_is_refused_over_a_reply(self) -> None:
        rows = b"".join(b"<r n='%d'><a>%s</a><b/></r>" % (it, b"x" * (it % 2_800))
                        for it in range(12_000))
        long = b"long " * 1_000_000
        store_xml(self.server, "x", [b"<t><u>", rows, b"</u><v>", long, b"</v></t>"])
        refused: list[str] = []
        query_text = self.server.query_text

        def noted(query: str, **more: str) -> str:
            try:
                return query_text(query, **more)  # type: ignore[arg-type]
            except Refused:
                refused.append(query)
                raise

        with asked(self.server) as seen, mock.patch.object(self.server, "query_text", noted):
            digest = digest_of(self.server, "x")
        self.assertEqual(refused, [])
        self.assertEqual({it.kind for it in seen}, {Kind.QUERY})
        self.assertLess(len(seen), 80)
        self.server.store("y", 'doc("x")')
        self.assertEqual(digest_of(self.server, "y"), digest)

    def test_comments_and_attributes_over_a_piece(self) -> None:
        with small():
            for text in ('document {comment {"' + "c" * 2_000 + '"}}',
                         'document {element a {attribute b {"' + "é" * 2_000 + '"}}}',
                         'document {element a {processing-instruction p {"' + "q" * 950 + '"}}}',
                         "document {}"):
                self.server.store("x", text)
                self.assertEqual(text_of(self.server, "x"), text)

    def test_one_look_is_enough_for_what_is_short(self) -> None:
        self.server.store("x", "document {element a {}}")
        with asked(self.server) as seen:
            self.assertEqual(first_look(self.server, "x"), "document {element a {}}")
        self.assertEqual(len(seen), 1)

    def test_what_another_thread_stores_meanwhile_is_told(self) -> None:
        def store() -> None:
            self.server.store("x", "document {element b {}}")

        self.server.store("x", "document {element a {" + "element b {}, " * 50 + "()}}")
        with small(), self.assertRaises(Changed):
            for number, _ in enumerate(document_events(self.server, "x")):
                if number == 3:
                    thread = threading.Thread(target=store)
                    thread.start()
                    thread.join()


class Shared(FolderTest):
    """Reads at a multiplexer, where other clients' requests may come between."""

    servers = 1

    def setUp(self) -> None:
        super().setUp()
        self.mux = self.enterContext(RunningMux(servers=self.servers))
        self.client = self.enterContext(connect(self.mux.place))
        self.other = self.enterContext(connect(self.mux.place))
        self.old = "document {element a {" + ", ".join(["element b {}"] * 200) + "}}"
        self.new = "document {element c {" + ", ".join(["element d {}"] * 200) + "}}"
        self.client.store("x", self.old)

    @contextmanager
    def changing(self, change: Callable[[], object], most: int) -> Iterator[list[int]]:
        """A context in which a change is made during a read, in each of its first tries."""
        reads = [0]
        pieces = Pieces.__iter__

        def changed(read: Pieces) -> Iterator[Piece]:
            reads[0] += 1
            for number, piece in enumerate(pieces(read)):
                yield piece
                if number == 2 and reads[0] <= most:
                    change()

        with small(), mock.patch.object(Pieces, "__iter__", changed):
            yield reads

    def test_nothing_is_stored(self) -> None:
        with asked(self.client) as seen, small():
            self.assertEqual(text_of(self.client, "x"), self.old)
        self.assertEqual({it.kind for it in seen}, {Kind.QUERY})

    def test_what_was_changed_is_read_once_more(self) -> None:
        with self.changing(lambda: self.other.store("x", self.new), 1) as reads, \
                asked(self.client) as seen:
            self.assertEqual(text_of(self.client, "x"), self.new)
        self.assertEqual(reads, [2])
        self.assertEqual({it.kind for it in seen}, {Kind.QUERY})

    def test_other_documents_may_be_changed(self) -> None:
        with self.changing(lambda: self.other.store("y", self.new), 9) as reads:
            self.assertEqual(text_of(self.client, "x"), self.old)
        self.assertEqual(reads, [1])

    def test_what_is_changed_again_and_again_is_copied(self) -> None:
        numbers = iter(range(99))
        texts = [self.old.replace("{element b", f'{{attribute n {{"{it}"}}, element b', 1)
                 for it in range(9)]
        with self.changing(lambda: self.other.store("x", texts[next(numbers)]), fetch.TRIES + 1):
            read = text_of(self.client, "x")
        self.assertIn(read, texts)
        self.assertEqual(self.client.list(), ["x"])

    def test_what_is_dropped_meanwhile_is_not_there(self) -> None:
        with self.changing(lambda: self.other.drop("x"), 1), self.assertRaises(Refused) as caught:
            text_of(self.client, "x")
        self.assertEqual(caught.exception.code, "FODC0002")

    def test_a_killed_server_is_no_change_that_is_missed(self) -> None:
        before = self.client.state_of("x")
        self.mux.kill_server() if self.servers == 1 else None
        self.assertEqual(self.client.query('count(doc("x")//b)'), [200])
        if self.servers == 1:
            self.assertNotEqual(self.client.state_of("x"), before)

    def test_a_store_of_another_client_is_seen(self) -> None:
        before = self.client.state_of("x")
        self.assertIsNotNone(before)
        self.assertEqual(self.client.state_of("x"), before)
        self.other.store("x", self.new)
        after = self.client.state_of("x")
        self.assertNotEqual(after, before)
        self.other.drop("x")
        self.assertNotEqual(self.client.state_of("x"), after)


class SharedByMany(Shared):
    servers = 3


class Elsewhere(FolderTest):
    def test_where_nothing_is_told_a_copy_is_read(self) -> None:
        with RunningMux() as mux, connect(mux.place) as client:
            text = "document {element a {" + ", ".join(["element b {}"] * 200) + "}}"
            client.store("x", text)
            (mux.folder / "xq.sock.control").unlink()
            self.assertIsNone(client.state_of("x"))
            with asked(client) as seen, small():
                self.assertEqual(text_of(client, "x"), text)
            self.assertEqual([it.kind for it in seen if it.changes], [Kind.STORE, Kind.DROP])

    def test_a_server_of_ones_own_on_a_file(self) -> None:
        with connect(file_server(self.folder / "x.db")) as client:
            before = client.state_of("x")
            client.store("x", "document {}")
            self.assertNotEqual(client.state_of("x"), before)
            self.assertTrue(client.has_server)


class Counts(unittest.TestCase):
    def test_each_change_gives_another_token(self) -> None:
        changes = Changes()
        seen = {changes.token(b"a")}
        for _ in range(50):
            changes.note(b"a")
            seen.add(changes.token(b"a"))
        changes.begin_anew()
        seen.add(changes.token(b"a"))
        self.assertEqual(len(seen), 52)
        self.assertNotEqual(Changes().token(b"a"), Changes().token(b"a"))

    def test_other_addresses_mostly_keep_theirs(self) -> None:
        changes = Changes()
        before = [changes.token(b"%d" % it) for it in range(1_000)]
        changes.note(b"a")
        after = [changes.token(b"%d" % it) for it in range(1_000)]
        self.assertLess(sum(a != b for a, b in zip(before, after, strict=True)), 5)
        self.assertGreater(COUNTS, 1_000)


class Ranges(unittest.TestCase):
    def test_ranges_are_of_a_pieces_size(self) -> None:
        with mock.patch.object(ranges, "PIECE", 10):
            found = list(ranges.ranges(5, [(1, 4), (1, 4), (2, 4), (1, 50), (1, 1), (1, 9)]))
        self.assertEqual([(it.first, it.last, it.nodes, it.characters) for it in found],
                         [(5, 6, 2, 8), (7, 7, 2, 4), (8, 8, 1, 50), (9, 10, 2, 10)])
        self.assertEqual(list(ranges.ranges(1, [])), [])


if __name__ == "__main__":
    unittest.main()
