"""The library over a server: results, refusals, requests ahead, ends."""

import asyncio
import socket
import subprocess
import sys
import threading
import unittest
from decimal import Decimal
from pathlib import Path

from tests.support import LIBRARY, FolderTest, ServerTest, server_command
from xqs import Closed, FrameFault, Item, Refused, Untyped, Wanting, aio, connect, q
from xqs.endpoints import Command, LoopbackPort, UnixSocket, endpoint


class Library(ServerTest):
    def test_store_query_list_drop(self) -> None:
        self.assertFalse(self.server.store("b", LIBRARY))
        self.assertTrue(self.server.store("b", LIBRARY))
        self.assertEqual(self.server.list(), ["b"])
        self.assertEqual(self.server.query_text('doc("b")'), LIBRARY)
        self.server.drop("b")
        self.assertEqual(self.server.list(), [])

    def test_results_are_values(self) -> None:
        items = self.server.query('1, 2.5, "a", true(), xs:untypedAtomic("u")')
        self.assertEqual(items, [1, Decimal("2.5"), "a", True, Untyped("u")])

    def test_refusal_has_its_code_in_words(self) -> None:
        with self.assertRaises(Refused) as caught:
            self.server.query('doc("zz")')
        self.assertEqual(caught.exception.code, "FODC0002")
        self.assertIn("no document at that address", str(caught.exception))
        with self.assertRaises(Refused) as caught:
            self.server.drop("zz")
        self.assertEqual(caught.exception.request, "drop zz")

    def test_what_cannot_be_sent_is_refused_here(self) -> None:
        with self.assertRaises(ValueError):
            self.server.store("a b", LIBRARY)
        with self.assertRaises(FrameFault):
            self.server.query(" " * 1_048_828)
        self.assertEqual(self.server.query(" " * 1_048_826 + "1"), [1])

    def test_values_of_ones_own_come_back_as_they_are(self) -> None:
        hostile = '") or doc("b")//* (: & &amp; \r\n\t " \' é日\U0001f600 :)'
        self.assertEqual(self.server.query(q("$a", a=hostile)), [hostile])
        given: list[Item] = [-(2**63), 2**63 - 1, Decimal("-0.5"), Decimal("9" * 19 + ".999999"),
                             False, Untyped("&")]
        self.assertEqual(self.server.query(q("$a", a=given)), given)
        self.server.store("b", LIBRARY)
        [book] = self.server.query(q("doc($a)//book[@id = $id]", a="b", id="2"))
        self.assertEqual(self.server.query(q("$n/text()/string()", n=book)), ["B"])

    def test_five_thousand_requests_ahead(self) -> None:
        futures = [self.server.query_text_later(str(number)) for number in range(5_000)]
        self.assertEqual([it.result() for it in futures], [str(it) for it in range(5_000)])

    def test_long_replies_to_requests_ahead(self) -> None:
        text = "a" * 900_000
        futures = [self.server.query_text_later(f'"{text}"') for _ in range(30)]
        self.assertTrue(all(len(it.result()) == 900_002 for it in futures))

    def test_several_threads(self) -> None:
        wrong: list[int] = []

        def ask(number: int) -> None:
            wrong.extend(it for it in range(200) if self.server.query(f"{number} * {it}")
                         != [number * it])

        threads = [threading.Thread(target=ask, args=(it,)) for it in range(8)]
        for it in threads:
            it.start()
        for it in threads:
            it.join()
        self.assertEqual(wrong, [])


class Ends(FolderTest):
    def test_close_gives_the_exit_status(self) -> None:
        client = connect(server_command())
        future = client.query_text_later("1")
        self.assertEqual(client.close(), 0)
        self.assertEqual(future.result(), "1")
        with self.assertRaises(Closed):
            client.query("1")

    def test_killed_server_closes_what_waits(self) -> None:
        client = connect(server_command())
        client.query("1")
        future = client.query_text_later('count(for $a in 1 to 1000000 return string($a))')
        client.kill()
        with self.assertRaises(Closed):
            future.result()
        with self.assertRaises(Closed):
            client.query("1")

    def test_stream_that_is_no_servers(self) -> None:
        for bytes_ in (b"HTTP/1.1 400 Bad Request\r\n\r\n", b"\0\0\0\5\0\0\0\x63\0"):
            client = connect(["printf", "".join(f"\\{it:03o}" for it in bytes_)])
            with self.assertRaises(Closed):
                client.query("1")
            client.close()

    def test_wanting_is_told_apart_from_a_refusal(self) -> None:
        wanting = Path(__file__).with_name("wanting_server.py")
        with connect([sys.executable, wanting]) as client:
            with self.assertRaises(Wanting) as caught:
                client.store("a", "document {}")
            self.assertEqual(caught.exception.code, "store")
            self.assertNotIsInstance(caught.exception, Refused)

    def test_unix_socket(self) -> None:
        path = str(self.folder / "xq.sock")
        with socket.socket(socket.AF_UNIX) as listening:
            listening.bind(path)
            listening.listen()
            thread = threading.Thread(target=serve_one, args=(listening,))
            thread.start()
            with connect(f"unix:{path}") as client:
                self.assertEqual(client.query("1 + 1"), [2])
            thread.join()

    def test_loopback_port(self) -> None:
        with socket.create_server(("127.0.0.1", 0)) as listening:
            thread = threading.Thread(target=serve_one, args=(listening,))
            thread.start()
            with connect(f"tcp:{listening.getsockname()[1]}") as client:
                self.assertEqual(client.query("1 + 1"), [2])
            thread.join()


def serve_one(listening: socket.socket) -> None:
    """Passes one connection to a server, and waits for its end."""
    connection, _ = listening.accept()
    with connection:
        subprocess.run(server_command(), stdin=connection.fileno(),
                       stdout=connection.fileno(), check=False)


class Asyncio(FolderTest):
    def test_many_tasks(self) -> None:
        async def ask() -> None:
            async with await aio.connect(server_command()) as client:
                self.assertFalse(await client.store("b", LIBRARY))
                self.assertEqual(await client.list(), ["b"])
                answers = await asyncio.gather(*(client.query(str(it)) for it in range(2_000)))
                self.assertEqual(answers, [[it] for it in range(2_000)])
                with self.assertRaises(Refused):
                    await client.query("a b")
                await client.drop("b")

        asyncio.run(ask())

    def test_ends(self) -> None:
        async def ask() -> None:
            client = await aio.connect(server_command())
            assert client.process is not None
            await client.query("1")
            client.process.kill()
            with self.assertRaises(Closed):
                await client.query("1")
                await client.query("1")
            await client.close()
            client = await aio.connect(server_command())
            self.assertEqual(await client.close(), 0)

        asyncio.run(ask())


class Endpoints(unittest.TestCase):
    def test_places(self) -> None:
        self.assertEqual(endpoint("unix:/a b"), UnixSocket("/a b"))
        self.assertEqual(endpoint("tcp:7000"), LoopbackPort("127.0.0.1", 7000))
        self.assertEqual(endpoint("tcp:[::1]:7000"), LoopbackPort("::1", 7000))
        self.assertEqual(endpoint("./serve --file 'a b'"), Command(("./serve", "--file", "a b")))
        self.assertEqual(str(endpoint(["./serve", "a b"])), "./serve 'a b'")

    def test_what_is_no_place(self) -> None:
        for where in ("tcp:example.org:80", "tcp:0.0.0.0:80", "tcp:x", "tcp:70000", "unix:", ""):
            with self.subTest(where), self.assertRaises(ValueError):
                endpoint(where)
