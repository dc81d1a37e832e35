"""Bounds of time and memory: a request that takes too long is ended, its caller is free at once,
and a message names what is lost."""

import argparse
import asyncio
import contextlib
import io
import os
import time
import unittest
from collections.abc import Iterator
from unittest import mock

from tests.serving import RunningMux
from tests.support import LIBRARY, FolderTest, file_server, server_command
from xqs import Closed, Lost, Refused, TimedOut, Wanting, XqError, aio, connect
from xqs.bounds import Bounds, NoBound, add_options, bounds_of, half_of_memory, memory_of
from xqs.cli import main

ENDLESS = "every $x in 1 to 1000000, $y in 1 to 1000000 satisfies $x > 0"
GREEDY = "count(for $x in 1 to 1000000, $y in 1 to 20 return element a {$x})"
SLACK = 10.0
"""How many seconds more than it should something may take on a busy machine."""


class BoundTest(FolderTest):
    @contextlib.contextmanager
    def within(self, seconds: float) -> Iterator[None]:
        """Fails if the body takes much longer."""
        begin = time.monotonic()
        yield
        self.assertLess(time.monotonic() - begin, seconds + SLACK)

    @property
    def on_file(self) -> list[str]:
        """A server on a file of this test."""
        return file_server(self.folder / "x.db")


class Overdue(BoundTest):
    def test_a_request_over_its_time_on_a_file(self) -> None:
        with connect(self.on_file, timeout=0.5) as client, self.within(2):
            client.store("a", LIBRARY)
            slow = client.query_text_later(ENDLESS)
            store = client.store_later("b", "document {}")
            query = client.query_text_later("1 + 1")
            with self.assertRaises(TimedOut) as caught:
                slow.result()
            self.assertIn("over 0.5 seconds", str(caught.exception))
            self.assertIn("--seconds", str(caught.exception))
            self.assertIn("started again", str(caught.exception))
            self.assertEqual((store.result(), query.result()), ("stored", "2"))
            self.assertEqual(client.list(), ["a", "b"])

    def test_a_request_over_its_time_in_memory(self) -> None:
        with connect(server_command(), timeout=0.5) as client, self.within(2):
            client.store("a", "document {}")
            slow, behind = client.query_text_later(ENDLESS), client.query_text_later("1")
            with self.assertRaisesRegex(TimedOut, "in memory and are lost: 1 of them: a"):
                slow.result()
            with self.assertRaisesRegex(Lost, "lost: 1 of them: a"):
                behind.result()
            self.assertEqual(client.list(), [])

    def test_where_nothing_is_stored_nothing_is_lost(self) -> None:
        with connect(server_command(), timeout=0.5) as client, self.within(2):
            slow, behind = client.query_text_later(ENDLESS), client.query_text_later("1")
            with self.assertRaises(TimedOut):
                slow.result()
            self.assertEqual(behind.result(), "1")

    def test_a_store_over_its_time_may_have_been_carried_out(self) -> None:
        with connect(self.on_file, timeout=0.5) as client:
            with self.assertRaisesRegex(TimedOut, "may have been carried out"):
                client.store("a", f"document {{if ({ENDLESS}) then () else ()}}")
            self.assertEqual(client.list(), [])

    def test_each_request_has_its_time(self) -> None:
        with connect(server_command(), timeout=3) as client:
            slow = "count(for $x in 1 to 300, $y in 1 to 1000 return $x)"
            for future in [client.query_text_later(slow) for _ in range(30)]:
                self.assertEqual(future.result(), "300000")

    def test_what_takes_long_to_start_is_waited_for(self) -> None:
        script = self.folder / "serve"
        script.write_text(f"#!/bin/sh\nsleep 1.5\nexec {' '.join(server_command())}\n")
        script.chmod(0o755)
        with connect(script, timeout=0.5) as client:
            self.assertEqual(client.query("1"), [1])


class Timeouts(BoundTest):
    def test_each_call_has_its_own(self) -> None:
        with connect(self.on_file) as client, self.within(3):
            client.store("a", LIBRARY)
            with self.assertRaisesRegex(TimedOut, "within 0.3 seconds"):
                client.query(ENDLESS, timeout=0.3)
            self.assertEqual(client.list(timeout=20), ["a"])
            self.assertTrue(client.store("a", LIBRARY, timeout=20))
            client.drop("a", timeout=20)
            self.assertEqual(client.query_text("1", timeout=0), "1")

    def test_documents_in_memory_outlast_a_timeout(self) -> None:
        client = connect(server_command())
        client.store("a", LIBRARY)
        slow = "count(for $x in 1 to 3000, $y in 1 to 1000 return $x)"
        with self.assertRaises(TimedOut):
            client.query(slow, timeout=0.01)
        self.assertTrue(client.is_losing)
        self.assertEqual(client.list(), ["a"])
        client.close()

    def test_a_long_request_behind_another_is_given_up_in_time(self) -> None:
        client = connect(server_command())
        client.store("a", "document {}")
        client.query_text_later(ENDLESS)
        with self.within(1):
            with self.assertRaises(TimedOut):
                client.query(f'"{"x" * 1_000_000}"', timeout=0.5)
            with self.assertRaises(TimedOut):
                client.query("1", timeout=0.5)
        client.kill()

    def test_a_future_in_a_with(self) -> None:
        for command in (self.on_file, server_command()):
            with self.within(0.5), self.assertRaises(TimeoutError), connect(command) as client:
                client.query_text_later(ENDLESS).result(timeout=0.5)

    def test_a_cancelled_future_frees_the_others(self) -> None:
        with connect(self.on_file) as client, self.within(1):
            first, second = client.query_text_later(ENDLESS), client.query_text_later("2")
            third = client.query_text_later(ENDLESS)
            self.assertTrue(first.cancel() and third.cancel())
            self.assertEqual(second.result(), "2")
            self.assertEqual(client.query("3"), [3])

    def test_asyncio(self) -> None:
        async def ask() -> None:
            async with asyncio.timeout(0.5):
                async with await aio.connect(self.on_file) as client:
                    await client.query(ENDLESS)

        with self.within(0.5), self.assertRaises(TimeoutError):
            asyncio.run(ask())

    def test_asyncio_goes_on(self) -> None:
        async def ask() -> None:
            async with await aio.connect(self.on_file, timeout=1) as client:
                await client.store("a", LIBRARY)
                with self.assertRaises(TimeoutError):
                    async with asyncio.timeout(0.3):
                        await client.query(ENDLESS)
                self.assertEqual(await client.list(), ["a"])
                with self.assertRaisesRegex(TimedOut, "within 0.3 seconds"):
                    await client.query(ENDLESS, timeout=0.3)
                slow, behind = (asyncio.create_task(client.query(it)) for it in (ENDLESS, "1"))
                with self.assertRaisesRegex(TimedOut, "took over 1 seconds"):
                    await slow
                self.assertEqual(await behind, [1])
                cancelled = [asyncio.create_task(client.query(it)) for it in ("7", ENDLESS)]
                await asyncio.sleep(0)
                cancelled[1].cancel()
                self.assertEqual(await client.query("8"), [8])

        with self.within(5):
            asyncio.run(ask())

    def test_asyncio_in_memory(self) -> None:
        async def ask() -> None:
            async with await aio.connect(server_command(), timeout=0.5) as client:
                await client.store("a", LIBRARY)
                with self.assertRaisesRegex(TimedOut, "lost: 1 of them: a"):
                    await client.query(ENDLESS)
                self.assertEqual(await client.list(), [])

        asyncio.run(ask())


class Sockets(BoundTest):
    def test_a_multiplexer_ends_what_is_too_long(self) -> None:
        with RunningMux("--seconds", "1") as mux, connect(mux.place) as client, self.within(2):
            with self.assertRaises(Refused) as caught:
                client.query(ENDLESS)
            self.assertIsInstance(caught.exception, TimedOut)
            self.assertEqual(client.query("1"), [1])

    def test_a_client_of_a_socket_is_free_in_time(self) -> None:
        with RunningMux("--seconds", "3") as mux, connect(mux.place, timeout=0.5) as client:
            with self.within(1), self.assertRaises(TimedOut):
                client.query(ENDLESS)
            with self.within(2):
                self.assertEqual(client.query("1", timeout=30), [1])

    def test_a_client_that_goes_ends_its_query(self) -> None:
        with RunningMux() as mux, connect(mux.place) as stays:
            stays.store("a", LIBRARY)
            goes = connect(mux.place)
            goes.query_text_later(ENDLESS)
            time.sleep(0.5)
            with self.within(2):
                goes.kill()
                self.assertEqual(stays.list(), ["a"])
            self.assertIn("the client of its query has gone", mux.said())

    def test_what_is_given_up_frees_the_connection(self) -> None:
        with RunningMux() as mux, connect(mux.place) as client, self.within(4):
            client.query_text_later(ENDLESS).cancel()
            self.assertEqual(client.query("1"), [1])
            with self.assertRaises(TimedOut):
                client.query(ENDLESS, timeout=0.3)
            self.assertEqual(client.query("2"), [2])


class Memory(BoundTest):
    def test_what_wants_more_is_refused_and_nothing_is_lost(self) -> None:
        with connect(server_command(), memory=400 << 20) as client:
            client.store("a", LIBRARY)
            with self.assertRaises(Wanting) as caught:
                client.query(GREEDY)
            self.assertEqual(caught.exception.code, "memory")
            self.assertEqual(client.query_text('doc("a")'), LIBRARY)

    def test_a_multiplexer_has_the_bound_too(self) -> None:
        with RunningMux("--memory", "400M") as mux, connect(mux.place) as client:
            with self.assertRaises(Wanting):
                client.query(GREEDY)
            self.assertEqual(client.query("1"), [1])

    def test_half_is_the_bound_where_none_is_named(self) -> None:
        half = half_of_memory()
        self.assertLessEqual(half, os.sysconf("SC_PHYS_PAGES") * os.sysconf("SC_PAGE_SIZE") // 2)
        with connect(["sh", "-c", f'ulimit -S -v >{self.folder}/limit; exec "$0" "$@"',
                      *server_command()]) as client:
            client.query("1")
        self.assertEqual(int((self.folder / "limit").read_text()), half // 1024)


class Options(BoundTest):
    def test_words(self) -> None:
        def parsed(*words: str) -> Bounds:
            parser = argparse.ArgumentParser()
            add_options(parser)
            return bounds_of(parser.parse_args(words))

        self.assertEqual(parsed(), Bounds(60, half_of_memory()))
        self.assertEqual(parsed("--seconds", "0", "--memory", "0"), Bounds(None, None))
        self.assertEqual(parsed("--seconds", "1.5", "--memory", "2G"), Bounds(1.5, 2 << 30))
        self.assertEqual([memory_of(it) for it in ("1", "1k", "1.5 M", "2GiB", "3gb")],
                         [1, 1024, 3 << 19, 2 << 30, 3 << 30])
        for wrong in (("--seconds", "x"), ("--seconds", "-1"), ("--seconds", "nan"),
                      ("--memory", "-1"), ("--memory", "much")):
            with self.subTest(wrong), self.assertRaises(SystemExit), \
                    contextlib.redirect_stderr(io.StringIO()):
                parsed(*wrong)

    def test_numbers_that_are_no_bounds(self) -> None:
        for seconds, memory in ((-1.0, None), (float("nan"), None), (None, -5)):
            with self.subTest(f"{seconds} {memory}"), self.assertRaises(NoBound):
                Bounds(seconds, memory)
        with self.assertRaises(XqError):
            connect(server_command(), timeout=-1)

    def test_commands_take_them(self) -> None:
        said = io.StringIO()
        words = ["--server", " ".join(server_command()), "--seconds", "0.5"]
        with contextlib.redirect_stderr(said), self.within(1):
            self.assertEqual(main(["query", ENDLESS, *words]), 1)
            self.assertEqual(main(["shell", "-c", ENDLESS, *words]), 1)
        self.assertEqual(said.getvalue().count("took over 0.5 seconds"), 2)
        said = io.StringIO()
        with contextlib.redirect_stderr(said):
            self.assertEqual(main(["query", GREEDY, *words[:2], "--memory", "300M"]), 1)
        self.assertIn("memory", said.getvalue())


class Kept(BoundTest):
    def test_a_group_of_a_container_bounds_the_half(self) -> None:
        group = self.folder / "memory.max"
        group.write_text("1000000\n")
        with mock.patch("xqs.bounds._GROUPS", (self.folder / "none", group)):
            self.assertEqual(half_of_memory(), 500_000)
        group.write_text("max\n")
        with mock.patch("xqs.bounds._GROUPS", (group,)):
            self.assertGreater(half_of_memory(), 500_000)

    def test_a_server_that_ends_by_itself_is_told(self) -> None:
        with connect(server_command()) as client:
            client.store("a", "document {}")
            client.kill()
            with self.assertRaises(Closed):
                client.query("1")


if __name__ == "__main__":
    unittest.main()
