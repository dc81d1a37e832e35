"""A fault of one server or node must not stop the log for all."""

import asyncio
import random
import shutil
import time
from contextlib import suppress
from unittest import mock

from tests.local_nodes import COUNT_UP, LocalNode, NodesTest, planted
from xqs.cluster import trials
from xqs.errors import Refused, Wanting, XqError
from xqs.mux_peer import Request
from xqs.protocol import MAX_REQUEST

ENDLESS = "every $x in 1 to 1000000, $y in 1 to 1000000 satisfies $x > 0"
GREEDY = "count(for $x in 1 to 1000000, $y in 1 to 1000 return ($x, $y))"
SLOW_DOCUMENT = f"document {{element a {{text {{string({ENDLESS})}}}}}}"


def value(number: int) -> str:
    """A document that holds a number."""
    return f'document {{element c {{text {{"{number}"}}}}}}'


class Plain(NodesTest):
    """Which stores need no trial."""

    def test_constructors_alone_need_none(self) -> None:
        for text in ('document {}', 'document{element a {attribute b {"1 + 1"}, text {"x"}, ()}}',
                     "document {comment {'a''b'}, processing-instruction p {\"\"}}"):
            self.assertTrue(trials.is_plain(text.encode()), text)

    def test_all_else_needs_one(self) -> None:
        for text in ('doc("a")', 'document {element a {1 to 2}}', 'document {element a {f("x")}}',
                     'document {for $x in "a" return text {$x}}', SLOW_DOCUMENT,
                     'document {element {"a"} {}}', '"a" = "b"'):
            self.assertFalse(trials.is_plain(text.encode()), text)
        self.assertFalse(trials.is_plain(b'document {text {"\xff"}}'))

    def test_a_drop_and_a_frame_without_a_query_need_none(self) -> None:
        for payload in (b"Da", b"S", b"L"):
            self.assertIsNone(trials.query_of(Request(None, 1, payload)))
        self.assertEqual(trials.query_of(Request(None, 1, b"S\1a1 to 2")), b"1 to 2")

    async def test_a_query_that_is_too_long_for_more_words_is_asked_as_it_is(self) -> None:
        asked: list[bytes] = []

        async def ask(payload: bytes) -> bytes:
            asked.append(payload)
            return b"\0" + b"1"

        long = b"1" * (MAX_REQUEST - 8)
        self.assertIsNone(await trials.refusal_of(long, ask))
        self.assertIsNone(await trials.refusal_of(b"1 to 2", ask))
        self.assertTrue(asked == [b"Q" + long, b"Qcount(( 1 to 2 ))"])


class Poison(NodesTest):
    """A store that occupies a server, or needs more memory than it has."""

    async def test_a_store_that_never_ends_is_refused_and_not_logged(self) -> None:
        first = await self.begun("a", seconds=1.0, servers=2)
        second = await self.begun("b", seconds=1.0)
        client, other = await self.client(first), await self.client(second)
        await client.store("c", value(1))
        before = len(self.log.kept)
        with self.assertRaises(Refused) as raised:
            await asyncio.wait_for(client.store("x", SLOW_DOCUMENT), 25)
        self.assertEqual(raised.exception.code, "xqs:SECONDS")
        entries = b"".join(self.log.kept[before:])
        self.assertNotIn(ENDLESS.encode(), entries)
        await asyncio.wait_for(other.store("d", value(2)), 20)
        await asyncio.wait_for(client.store("e", value(3)), 20)
        self.assertEqual(await self.documents(first), await self.documents(second))

    async def test_a_store_that_wants_too_much_memory_is_answered_as_by_one_server(self) -> None:
        node = await self.begun("a", memory=200 << 20, seconds=20.0)
        client = await self.client(node)
        with self.assertRaises(Wanting) as raised:
            await client.store("x", f"document {{text {{string({GREEDY})}}}}")
        self.assertEqual(raised.exception.code, "memory")
        await client.store("d", value(2))
        self.assertEqual(await client.list(), ["d"])
        self.assertFalse(node.has_said("steps aside"), node.said)

    async def test_a_store_with_a_fault_is_refused_as_by_a_server(self) -> None:
        client = await self.client(await self.begun("a"))
        for text, code in (("1 + ", "XPST0003"), ("(1 to 3)", "prof:NOTDOC"),
                           ('doc("none")', "FODC0002"), ("1 div 0", "FOAR0001")):
            with self.assertRaises(Refused) as raised:
                await client.store("c", text)
            self.assertEqual(raised.exception.code, code)

    async def test_a_trial_sees_the_client_s_own_writes_before_it(self) -> None:
        node = await self.begun("a", seconds=1.0)
        client = await self.client(node)
        guarded = (f'document {{if (doc-available("on")) then text {{string({ENDLESS})}} else ()}}')
        results = await asyncio.wait_for(asyncio.gather(
            client.store("on", value(1)), client.store("x", guarded), return_exceptions=True), 25)
        self.assertFalse(results[0])
        self.assertIsInstance(results[1], Refused)

    async def test_one_server_that_an_entry_holds_steps_aside_and_the_others_go_on(self) -> None:
        sound = await self.begun("b", seconds=0.5)
        node = await self.begun("a", command=planted("hold=x"), seconds=0.5)
        client, other = await self.client(node), await self.client(sound)
        await client.store("c", value(1))
        await other.store("x", value(2))
        await self.until(lambda: node.has_said("a steps aside, and no longer follows the log, at "
                                               "place 1"), 60)
        self.assertTrue(node.has_said("the entry of place 2 occupied its server for over 2.5"))
        await other.store("later", value(3))
        self.assertEqual(await client.query('string(doc("c")), count(collection())'), ["1", 1])
        with self.assertRaises(Wanting):
            await client.store("d", value(4))

    async def test_it_comes_back_from_a_snapshot_of_another_by_itself(self) -> None:
        sound = await self.begun("b")
        node = await self.begun("a", command=planted("want=x"))
        client, other = await self.client(node), await self.client(sound)
        await client.store("c", value(1))
        await other.store("x", value(2))
        await self.until(lambda: node.has_said("a steps aside"))
        await other.store("later", value(3))
        # (for each store to this address the server runs out of memory, from a snapshot too)
        await other.drop("x")
        await sound.node.take_snapshot()
        newest = max((self.folder / "snapshots-b").glob("*.snapshot"))
        shutil.copy(newest, self.folder / "snapshots-a")
        await self.until(lambda: node.has_said("a follows the log again"))
        await asyncio.wait_for(client.store("d", value(4)), 20)
        self.assertEqual(await self.documents(node), await self.documents(sound))

    async def test_a_place_that_is_skipped_is_skipped_by_all(self) -> None:
        """The nodes that had carried it out go back."""
        sound, node = await self.begun("b"), await self.begun("a", command=planted("want=x"))
        client, other = await self.client(node), await self.client(sound)
        await client.store("c", value(1))
        await sound.node.take_snapshot()
        await other.store("x", value(2))
        await other.store("later", value(3))
        await self.until(lambda: node.has_said("xqs node --skip 2"))
        with self.assertRaises(XqError):
            await node.node.skip(3)
        self.assertEqual(await node.node.skip(2), "all nodes skip place 2")
        await asyncio.wait_for(client.store("d", value(4)), 20)
        maps = [await self.documents(it) for it in (node, sound)]
        self.assertEqual(maps[0], maps[1])
        self.assertEqual(sorted(maps[0]), ["c", "d", "later"])
        self.assertTrue(sound.has_said("place 2 is skipped by all nodes, and was carried out here"))
        fresh = await self.begun("c")
        self.assertEqual(await self.documents(fresh), maps[0])
        totals = {it.node.followers[0].state.total for it in (node, sound, fresh)}
        self.assertEqual(len(totals), 1)


class Names(NodesTest):
    """Two nodes of one name."""

    async def test_the_second_is_refused_and_the_first_goes_on(self) -> None:
        first = await self.begun("a")
        with mock.patch("xqs.cluster.node.CLAIM", 5.0):
            second = self.made("a", snapshots=None)
            await second.start()
        self.assertTrue(second.node.failed.is_set())
        self.assertEqual(second.node.status, 1)
        self.assertTrue(second.has_said("another node of the name a follows this log"))
        await second.kill()
        await (await self.client(first)).store("c", value(1))
        self.assertFalse(first.node.failed.is_set())

    async def test_one_that_is_begun_again_is_not(self) -> None:
        for _ in range(3):
            node = await self.begun("a")
            await (await self.client(node)).store("c", value(1))
            await node.kill()
        with mock.patch("xqs.cluster.node.CLAIM", 0.5):
            node = await self.begun("a")
        self.assertFalse(node.node.failed.is_set())


class Backward(NodesTest):
    """No read sees an earlier state than a read before it."""

    async def test_reads_of_several_servers_go_forward_only(self) -> None:
        """A context with one slow server, snapshots and kills."""
        with mock.patch("xqs.cluster.upkeep.MEMORY_FRAMES", 400):
            node = await self.begun("a", servers=2, every=30)
            over = asyncio.Event()
            work = [asyncio.create_task(self.count_up(node, over)) for _ in range(3)]
            trouble = asyncio.create_task(self.trouble(node, over))
            seen = await self.read_on(node, 6.0)
            over.set()
            await asyncio.gather(trouble, *work)
        back = [pair for pair in zip(seen, seen[1:], strict=False) if pair[1] < pair[0]]
        self.assertEqual(back, [], f"of {len(seen)} reads")
        self.assertGreater(len(seen), 20)

    async def read_on(self, node: LocalNode, seconds: float) -> list[int]:
        """What successive reads see, each sent once the one before it was answered, by two clients
        in alternation."""
        clients = [await self.client(node), await self.client(node)]
        seen: list[int] = []
        until = time.monotonic() + seconds
        while time.monotonic() < until:
            with suppress(Wanting):
                found = await clients[len(seen) % 2].query(
                    'for $n in collection()/n return xs:integer(string($n))')
                seen.append(int(str(found[0])) if found else 0)
        return seen

    @staticmethod
    async def trouble(node: LocalNode, over: asyncio.Event) -> None:
        """Snapshots, and now and then a server that is killed."""
        chance = random.Random(5)
        while not over.is_set():
            await asyncio.sleep(chance.uniform(0.1, 0.4))
            with suppress(XqError, OSError):
                await node.node.take_snapshot()
            if chance.random() < 0.3:
                chance.choice(node.node.followers).backend.kill()

    @staticmethod
    async def count_up(node: LocalNode, over: asyncio.Event) -> None:
        """Increments a document until the test ends."""
        while not over.is_set():
            client = await node.connect()
            with suppress(XqError, OSError):
                while not over.is_set():
                    await client.store("total", COUNT_UP)
            await client.close()

    async def test_a_read_behind_an_entry_in_a_server_s_line_counts_it(self) -> None:
        node = await self.begun("a", servers=2)
        client = await self.client(node)
        await client.store("c", value(1))
        first, second = node.node.followers
        await self.until(lambda: first.state.place == second.state.place == 1)
        first.line = 2
        reads = node.node.reads
        self.assertEqual(reads.floor, 1)
        reads.note_given(first.replica)
        self.assertEqual(reads.floor, 2)
        first.halted = "planted"
        self.assertEqual(reads.floor, 1, "what a halted server did not carry out does not count")
        first.halted = ""
        first.line = first.promised = 1


class Held(NodesTest):
    """A query that never ends."""

    async def test_it_is_refused_after_its_seconds_and_writes_are_answered(self) -> None:
        node = await self.begun("a", seconds=1.0)
        client, other = await self.client(node), await self.client(node)
        await client.store("c", value(1))
        held = asyncio.create_task(client.query(ENDLESS))
        await asyncio.sleep(0.2)
        begin = time.monotonic()
        await asyncio.wait_for(other.store("d", value(2)), 25)
        with self.assertRaises(Refused) as raised:
            await held
        self.assertEqual(raised.exception.code, "xqs:SECONDS")
        self.assertLess(time.monotonic() - begin, 20)
        self.assertEqual(await other.list(), ["c", "d"])

    async def test_it_holds_nobody_where_there_are_two_servers(self) -> None:
        node = await self.begun("a", seconds=3.0, servers=2)
        client, other = await self.client(node), await self.client(node)
        held = asyncio.create_task(client.query(ENDLESS))
        await asyncio.sleep(0.2)
        for number in range(5):
            await asyncio.wait_for(other.store("c", value(number)), 2.5)
        with self.assertRaises(Refused):
            await held

    async def test_it_is_ended_soon_where_its_client_has_gone(self) -> None:
        with mock.patch("xqs.cluster.follower.GONE", 0.3):
            node = await self.begun("a", seconds=600.0)
            gone, client = await node.connect(), await self.client(node)
            held = asyncio.create_task(gone.query(ENDLESS))
            await asyncio.sleep(0.2)
            held.cancel()
            await gone.close()
            await asyncio.wait_for(client.store("c", value(1)), 20)
            await asyncio.gather(held, return_exceptions=True)

    async def test_a_node_ends_within_five_seconds_all_the_same(self) -> None:
        for servers in (1, 2):
            node = await self.begun(f"a{servers}", seconds=60.0, servers=servers)
            clients = [await self.client(node) for _ in range(3)]
            held = [asyncio.create_task(it.query(ENDLESS)) for it in clients]
            await asyncio.sleep(0.3)
            begin = time.monotonic()
            await node.stop()
            self.assertLess(time.monotonic() - begin, 6.0)
            await asyncio.gather(*held, return_exceptions=True)


if __name__ == "__main__":
    import unittest

    unittest.main()
