"""The library in idiomatic Python: iteration, trees, `repr`, errors, reconnecting."""

import asyncio
import importlib.util
import re
import socket
import threading
import unittest
import xml.etree.ElementTree as ElementTree
from collections.abc import Callable, Iterator
from contextlib import contextmanager
from decimal import Decimal

import xqs
from tests.serving import RunningMux
from tests.support import LIBRARY, FolderTest, ServerTest, server_command
from xqs import (
    Client,
    Closed,
    Lost,
    Node,
    NodeKind,
    NoPlace,
    NotAnAddress,
    NotConnected,
    NoText,
    TimedOut,
    Unknown,
    Untyped,
    XqError,
    aio,
    connect,
    protocol,
    values,
)
from xqs.bounds import Bounds
from xqs.trees import NoTree

ARTICLE = ('document {comment {"c"}, processing-instruction p {"q r"}, '
           'element a {attribute x {"1"}, text {"t"}, element b {}, text {"u"}, comment {"d"}, '
           'text {"v"}}, comment {"e"}, comment {"f"}}')
has_lxml = importlib.util.find_spec("lxml") is not None


class Results(ServerTest):
    def test_items_one_by_one(self) -> None:
        found = self.server.iterate('1, 2.5, "a", element b {attribute c {"d"}, "e"}, true()')
        self.assertEqual(next(found), 1)
        self.assertEqual(list(found)[:2], [Decimal("2.5"), "a"])
        self.assertEqual([it * 2 for it in self.server.query("1 to 3") if isinstance(it, int)],
                         [2, 4, 6])
        with self.assertRaises(XqError):
            list(self.server.iterate("1 +"))

    def test_items_one_by_one_of_asyncio(self) -> None:
        async def ask() -> None:
            async with await aio.connect(server_command()) as client:
                self.assertEqual([it async for it in client.iterate("1 to 3")], [1, 2, 3])

        asyncio.run(ask())

    def test_what_is_shown(self) -> None:
        self.assertRegex(repr(self.server), r"\A<xqs.Client to .+>\Z")
        client = connect(server_command())
        client.close()
        self.assertIn("ended", repr(client))
        self.assertEqual(repr(Untyped("a")), "Untyped('a')")
        self.assertIn("Node(", repr(values("element a {}")[0]))
        self.assertEqual(repr(Bounds(1, 2)), "Bounds(seconds=1, memory=2)")
        self.assertRegex(xqs.__version__, r"\A\d+\.\d+\.\d+\Z")

        async def ask() -> None:
            async with await aio.connect(server_command()) as other:
                self.assertRegex(repr(other), r"\A<xqs.aio.AsyncClient to .+>\Z")

        asyncio.run(ask())

    def test_trees_that_were_stored(self) -> None:
        self.server.store("a", ARTICLE)
        [document] = self.server.query('doc("a")')
        assert isinstance(document, Node)
        tree = ElementTree.fromstring('<a x="1">t<b/>u</a>')
        self.server.store("b", str(Node(NodeKind.DOCUMENT, children=[Node.of(tree)])))
        self.assertEqual(self.server.query_text('doc("b")'), (
            'document {element a {attribute x {"1"}, text {"t"}, element b {}, text {"u"}}}'))


class Trees(unittest.TestCase):
    def node(self, text: str) -> Node:
        """The node that a constructor makes."""
        [node] = values(text)
        assert isinstance(node, Node)
        return node

    def test_elementtree(self) -> None:
        element = self.node(ARTICLE.replace('comment {"c"}, processing-instruction p {"q r"}, ', "")
                            .replace(', comment {"e"}, comment {"f"}', "")).element()
        self.assertEqual(ElementTree.tostring(element, encoding="unicode"),
                         '<a x="1">t<b />u<!--d-->v</a>')
        again = Node.of(element)
        self.assertEqual(str(again), str(self.node(ARTICLE).children[2]))
        self.assertEqual(str(Node.of(ElementTree.ElementTree(element))), f"document {{{again}}}")
        instruction = Node(NodeKind.ELEMENT, "a", children=[
            Node(NodeKind.INSTRUCTION, "p", "q r"), Node(NodeKind.INSTRUCTION, "s")])
        self.assertEqual(Node.of(instruction.element()), instruction)

    def test_what_has_no_tree(self) -> None:
        for text in ('text {"a"}', ARTICLE, "document {}", 'document {text {"a"}}',
                     "document {element a {}, element b {}}", 'attribute a {"b"}'):
            with self.subTest(text), self.assertRaises(NoTree):
                self.node(text).element()
        for wrong in (1, "a", ElementTree.fromstring("<p:a xmlns:p='u'/>"),
                      ElementTree.fromstring("<a xmlns:p='u' p:b='c'/>"),
                      ElementTree.ElementTree()):
            with self.subTest(str(wrong)), self.assertRaises(NoTree):
                Node.of(wrong)

    @unittest.skipUnless(has_lxml, "it wants python3-lxml")
    def test_lxml(self) -> None:
        from lxml import etree

        node = self.node(ARTICLE)
        tree = node.lxml()
        self.assertEqual(etree.tostring(tree, encoding="unicode"), (
            '<!--c--><?p q r?><a x="1">t<b/>u<!--d-->v</a><!--e--><!--f-->'))
        self.assertEqual(Node.of(tree), node)
        self.assertEqual(Node.of(tree.getroot()), node.children[2])
        with self.assertRaises(NoTree):
            Node.of(etree.fromstring('<a xmlns="u"/>'))


class Errors(unittest.TestCase):
    def test_all_are_below_one(self) -> None:
        client = connect(server_command())
        self.addCleanup(client.close)
        cases: list[tuple[Callable[[], object], type[Exception], type[Exception]]] = [
            (lambda: connect("tcp:example.org:80"), NoPlace, ValueError),
            (lambda: connect("tcp:x"), NoPlace, ValueError),
            (lambda: connect(""), NoPlace, ValueError),
            (lambda: connect("unix:"), NoPlace, ValueError),
            (lambda: connect("a 'b"), NoPlace, ValueError),
            (lambda: connect("a\0b"), NoPlace, ValueError),
            (lambda: connect("unix:/nowhere/at/all"), NotConnected, OSError),
            (lambda: connect("/nowhere/at/all"), NotConnected, OSError),
            (lambda: connect("tcp:1"), NotConnected, OSError),
            (lambda: client.store("a b", "document {}"), NotAnAddress, ValueError),
            (lambda: client.drop(""), NotAnAddress, ValueError),
            (lambda: client.query("\ud800"), NoText, ValueError),
            (lambda: client.query(" " * 1_048_828), xqs.FrameFault, ValueError),
            (lambda: values("element"), xqs.Misspelt, ValueError),
            (lambda: connect(server_command(), timeout=-1), xqs.NoBound, ValueError),
        ]
        for number, (action, kind, also) in enumerate(cases):
            with self.subTest(number), self.assertRaises(kind) as caught:
                action()
            self.assertIsInstance(caught.exception, XqError)
            self.assertIsInstance(caught.exception, also)
        self.assertTrue(issubclass(TimedOut, TimeoutError))

    def test_each_public_error_is_below_it(self) -> None:
        for name in xqs.__all__:
            it = getattr(xqs, name)
            if isinstance(it, type) and issubclass(it, BaseException):
                self.assertTrue(issubclass(it, XqError), name)


def answered(connection: socket.socket, answers: list[bytes | None]) -> None:
    """Answers the requests of a connection; ends it at None."""
    splitter = protocol.Splitter(protocol.MAX_REQUEST)
    while answers and (piece := connection.recv(1 << 16)):
        for message in splitter.feed(piece):
            answer = answers.pop(0)
            if answer is None:
                return
            tag = protocol.tag_of(message)
            connection.sendall(protocol.reply(tag, protocol.Status.DONE, answer))


class Reconnecting(FolderTest):
    @contextmanager
    def serving(self, *connections: list[bytes | None]) -> Iterator[str]:
        """A socket whose connections give these answers, one connection after another."""
        path = str(self.folder / "s")
        with socket.socket(socket.AF_UNIX) as listening:
            listening.bind(path)
            listening.listen()

            def serve() -> None:
                for answers in connections:
                    connection, _ = listening.accept()
                    with connection:
                        answered(connection, answers)

            thread = threading.Thread(target=serve, daemon=True)
            thread.start()
            yield f"unix:{path}"
            thread.join(30)

    def test_a_read_is_asked_again(self) -> None:
        with self.serving([b"1", None], [b"2", b"3"]) as place, connect(place) as client:
            self.assertEqual(client.query_text("a"), "1")
            self.assertEqual(client.query_text("b"), "2")
            self.assertEqual(client.query_text("c"), "3")

    def test_a_change_is_not(self) -> None:
        with self.serving([None], [b"1"]) as place, connect(place) as client:
            with self.assertRaisesRegex(Unknown, "may have been carried out"):
                client.store("a", "document {}")
            self.assertEqual(client.query_text("b"), "1")

    def test_a_read_is_asked_twice_at_most(self) -> None:
        with self.serving([None], [None], [b"1"]) as place, connect(place) as client:
            with self.assertRaisesRegex(Closed, "twice"):
                client.query("a")
            self.assertEqual(client.query_text("b"), "1")

    def test_documents_that_are_gone_are_told(self) -> None:
        with self.serving([b"stored", None], [b"()", b"1"]) as place, connect(place) as client:
            client.store("kept", "document {}")
            with self.assertRaisesRegex(Lost, "that were stored here: kept"):
                client.query("a")
            self.assertEqual(client.query_text("b"), "1")

    def test_a_server_that_comes_back_later(self) -> None:
        place = f"unix:{self.folder}/s"
        with RunningMux(place=place) as mux:
            client = connect(place)
            client.store("a", LIBRARY)
            client.drop("a")
            self.assertEqual(mux.terminate(), 0)
        with self.assertRaises(Closed):
            client.query("1")
        with RunningMux(place=place):
            self.assertEqual(client.query("1 + 1"), [2])
            self.assertIsInstance(client, Client)
            client.close()

    def test_asyncio(self) -> None:
        async def ask(place: str) -> None:
            async with await aio.connect(place) as client:
                self.assertEqual(await client.query_text("a"), "1")
                self.assertEqual(await client.query_text("b"), "2")
                with self.assertRaises(Unknown):
                    await client.store("c", "document {}")
                self.assertEqual(await client.query_text("d"), "4")

        with self.serving([b"1", None], [b"2", None], [b"4"]) as place:
            asyncio.run(ask(place))

    def test_a_server_that_ends_as_it_starts(self) -> None:
        with connect(["sh", "-c", "exit 3"]) as client:
            with self.assertRaisesRegex(xqs.NotStarted, "as it started: exit status 3"):
                client.query("1")


class Version(unittest.TestCase):
    def test_the_project_has_the_same(self) -> None:
        from tests.support import TOP

        text = (TOP / "clients" / "python" / "pyproject.toml").read_text()
        self.assertTrue(re.search(r'attr = "xqs.version.__version__"', text))


if __name__ == "__main__":
    unittest.main()
