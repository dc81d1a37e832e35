"""Nodes over a log in memory with planted faults of an engine: what clients see of them."""

import asyncio
import os
import random
import shutil
import signal
from collections import Counter
from contextlib import suppress
from pathlib import Path
from unittest import mock

from tests.histories import History, faults
from tests.local_nodes import COUNT_UP, LocalNode, NodesTest, planted
from xqs.cluster import control, snapshots
from xqs.cluster.follower import Follower
from xqs.cluster.main import _actions
from xqs.errors import Refused, Unknown, Wanting, XqError

ENDLESS = "every $x in 1 to 1000000, $y in 1 to 1000000 satisfies $x > 0"
BUSY = "count(for $x in 1 to 3000, $y in 1 to 1000 return $x)"
"""A query that takes a while and ends."""


def value(number: int) -> str:
    """A document that holds a number."""
    return f'document {{element c {{text {{"{number}"}}}}}}'


class Frames(NodesTest):
    """To a client a node looks like a server."""

    async def test_what_is_sent_ahead_takes_effect_in_its_order(self) -> None:
        client = await self.client(await self.begun("a"))
        asked = []
        for number in range(20):
            asked += [client.store("c", value(number)), client.query_text('string(doc("c"))'),
                      client.list()]
        answers = await asyncio.gather(*asked)
        self.assertEqual(answers[1::3], [f'"{number}"' for number in range(20)])
        self.assertEqual((answers[0], answers[3], answers[2]), (False, True, ["c"]))

    async def test_refusals_come_as_of_a_server(self) -> None:
        client = await self.client(await self.begun("a"))
        for call, code in (
            (client.store("c", "1"), "prof:NOTDOC"), (client.drop("c"), "prof:ABSENT"),
            (client.query("1 +"), "XPST0003"),
        ):
            with self.assertRaises(Refused) as raised:
                await call
            self.assertEqual(raised.exception.code, code)

    async def test_nodes_answer_alike(self) -> None:
        first, second = await self.begun("a"), await self.begun("b", servers=2)
        writer = await self.client(first)
        for number in range(10):
            await writer.store(f"c{number}", value(number))
        await writer.drop("c3")
        self.assertEqual(await self.documents(first), await self.documents(second))
        self.assertEqual(len(await self.documents(second)), 9)

    async def test_frames_in_flight_share_a_message(self) -> None:
        client = await self.client(await self.begun("a"))
        before = len(self.log.kept)
        await asyncio.gather(*(client.store(f"c{number}", value(number)) for number in range(60)))
        self.assertLess(len(self.log.kept) - before, 40)

    async def test_a_message_waits_for_more_where_many_store(self) -> None:
        client = await self.client(await self.begun("a"))

        async def work(name: str) -> None:
            for number in range(8):
                await client.store(name, value(number))

        before = len(self.log.kept)
        await asyncio.gather(*(work(f"c{number}") for number in range(16)))
        self.assertLess(len(self.log.kept) - before, 32)

    async def test_a_fresh_read_misses_nothing(self) -> None:
        first = await self.begun("a")
        second = await self.begun("b", is_fresh=True, servers=2)
        writer, reader = await self.client(first), await self.client(second)
        for number in range(30):
            await writer.store("c", value(number))
            self.assertEqual(await reader.query('string(doc("c"))'), [str(number)])


class Reading(NodesTest):
    """Which server a read goes to, and what it sees there."""

    @staticmethod
    def at(node: LocalNode, text: str) -> Follower:
        """The server that works on a query with this text."""
        [found] = [it for it in node.node.followers
                   if any(text.encode() in asked.payload for asked in it.backend.in_flight)]
        return found

    async def test_reads_sent_ahead_do_not_go_back_where_a_server_ends(self) -> None:
        node = await self.begun("a", servers=3)
        ahead, writer = await self.client(node), await self.client(node)
        await writer.store("c", value(1))
        number = 'xs:integer(string(doc("c")))'
        with mock.patch("xqs.mux_backend.BLAMELESS", 60.0):
            slow = asyncio.create_task(ahead.query(f"{BUSY} - 3000000 + {number}"))
            await asyncio.sleep(0.05)
            fast = asyncio.create_task(ahead.query(number))
            await asyncio.sleep(0.25)
            await writer.store("c", value(2))
            self.at(node, BUSY).backend.kill()
            first, second = await slow, await fast
        self.assertLessEqual(first, second)

    async def test_no_client_has_all_servers_while_others_are_connected(self) -> None:
        node = await self.begun("a", servers=2)
        greedy, other = await node.connect(), await self.client(node)
        held = [asyncio.create_task(greedy.query(ENDLESS)) for _ in range(2)]
        await asyncio.sleep(0.2)
        async with asyncio.timeout(10):
            for number in range(5):
                self.assertEqual(await other.query(str(number)), [number])
        for task in held:
            task.cancel()
        await greedy.close()

    async def test_a_write_behind_a_read_of_its_client_is_not_seen_by_it(self) -> None:
        node = await self.begun("a", servers=2)
        ahead = await self.client(node)
        await ahead.store("c", value(1))
        with mock.patch("xqs.mux_backend.BLAMELESS", 60.0):
            read = asyncio.create_task(
                ahead.query(f'{BUSY} - 3000000 + xs:integer(string(doc("c")))'))
            await asyncio.sleep(0.05)
            stored = asyncio.create_task(ahead.store("c", value(2)))
            await asyncio.sleep(0.2)
            self.at(node, BUSY).backend.kill()
            self.assertEqual((await read, await stored), ([1], True))

    async def test_a_stopped_server_is_started_again(self) -> None:
        node = await self.begun("a")
        client = await self.client(node)
        await client.store("c", value(1))
        os.killpg(node.node.followers[0].backend.process.pid, signal.SIGSTOP)
        async with asyncio.timeout(20):
            self.assertEqual(await client.query('string(doc("c"))'), ["1"])
        self.assertTrue(node.has_said("its process was stopped"))


class Losses(NodesTest):
    """What happens to messages, and to the log."""

    async def test_each_entry_is_carried_out_once_whatever_becomes_of_messages(self) -> None:
        chance = random.Random(59)
        nodes = [await self.begun(name) for name in ("a", "b")]
        plans = ["keep"] * 12 + ["lose", "keep unconfirmed"]
        for node in nodes:
            node.link.plan = lambda message: chance.choice(plans)

        async def work(node: LocalNode) -> None:
            client = await self.client(node)
            for _ in range(10):
                await asyncio.gather(*(client.store("total", COUNT_UP) for _ in range(4)))

        await asyncio.gather(*(work(node) for node in nodes for _ in range(3)))
        for node in nodes:
            node.link.plan = lambda message: "keep"
        maps = [await self.documents(node) for node in nodes]
        self.assertEqual(maps[0], maps[1])
        self.assertIn('"240"', maps[0]["total"])

    async def test_a_node_ends_in_order_amid_faults(self) -> None:
        chance = random.Random(64)
        nodes = [await self.begun("a", servers=2, every=50), await self.begun("b", every=50)]
        counts = Counter[str]()
        work = [asyncio.create_task(self.count_up(node, counts)) for node in nodes * 3]
        for _ in range(6):
            await asyncio.sleep(chance.uniform(0.05, 0.3))
            self.plant(chance.choice(nodes), chance)
        await nodes[0].stop()
        counts["over"] = 1
        await asyncio.gather(*work)
        total = int((await self.documents(nodes[1]))["total"].split('"')[1])
        self.assertLessEqual(counts["acknowledged"], total)
        self.assertLessEqual(total, counts["acknowledged"] + counts["unknown"])

    @staticmethod
    def plant(node: LocalNode, chance: random.Random) -> None:
        """Ends a server of the node, or its connection to the log."""
        if chance.random() < 0.5:
            chance.choice(node.node.followers).backend.kill()
        else:
            node.link.drop("planted")

    async def count_up(self, node: LocalNode, counts: Counter[str]) -> None:
        """Increments the shared document until the test ends, by one client after another."""
        while not counts["over"] and not node.is_over:
            client = await node.connect()
            with suppress(XqError, OSError):
                while not counts["over"]:
                    counts["unknown"] += 1
                    await client.store("total", COUNT_UP)
                    counts["unknown"] -= 1
                    counts["acknowledged"] += 1
            await client.close()

    async def test_reads_go_on_without_the_log_and_writes_are_unknown(self) -> None:
        node = await self.begun("a", seconds=0.5)
        client = await self.client(node)
        await client.store("c", value(1))
        node.link.go_down()
        await self.gone(await self.client(node), "d")
        self.assertEqual(await client.query('string(doc("c"))'), ["1"])
        node.link.come_up()
        await client.store("e", value(2))
        self.assertEqual(await client.list(), ["c", "e"], "what was given up is not carried out")

    async def test_a_write_that_waits_for_the_log_is_answered_when_it_is_back(self) -> None:
        node = await self.begun("a", seconds=20)
        client = await self.client(node)
        node.link.go_down()
        stored = asyncio.create_task(client.store("c", value(1)))
        await asyncio.sleep(0.3)
        self.assertFalse(stored.done())
        node.link.come_up()
        self.assertFalse(await stored)

    async def test_a_foreign_message_is_left_out_by_all(self) -> None:
        first, second = await self.begun("a"), await self.begun("b")
        self.log.append(b"hello")
        await (await self.client(first)).store("c", value(1))
        self.assertEqual(await self.documents(first), await self.documents(second))
        self.assertTrue(second.has_said("it is left out"))


class Beginnings(NodesTest):
    """Where a node begins."""

    async def filled(self, name: str = "a", count: int = 12) -> LocalNode:
        """A node with some documents."""
        node = await self.begun(name)
        client = await self.client(node)
        for number in range(count):
            await client.store(f"c{number}", value(number))
            await client.store("total", COUNT_UP)
        return node

    def copied(self, name: str, other: str) -> Path:
        """The folder of a node's snapshots, with those of another node."""
        folder = self.folder / f"snapshots-{name}"
        shutil.copytree(self.folder / f"snapshots-{other}", folder, dirs_exist_ok=True)
        return folder

    async def test_from_a_snapshot_of_another(self) -> None:
        node = await self.filled()
        self.assertIn("13 documents of place 24", await node.node.take_snapshot())
        await (await self.client(node)).store("later", value(1))
        self.copied("b", "a")
        self.log.trim(20)
        other = await self.begun("b")
        self.assertTrue(other.has_said("13 documents of place 24"))
        self.assertEqual(await self.documents(node), await self.documents(other))

    async def test_from_the_newest_that_is_whole(self) -> None:
        node = await self.filled()
        await node.node.take_snapshot()
        await (await self.client(node)).store("later", value(1))
        await node.node.take_snapshot()
        folder = self.copied("b", "a")
        newest = max(folder.iterdir())
        newest.write_bytes(newest.read_bytes()[:-9])
        other = await self.begun("b")
        self.assertTrue(other.has_said(f"{newest} is left out"))
        self.assertEqual(await self.documents(node), await self.documents(other))

    async def test_a_log_that_begins_too_late_is_refused_in_words(self) -> None:
        await self.filled()
        self.log.trim(9)
        node = self.made("b")
        await node.start()
        self.assertTrue(node.node.failed.is_set())
        self.assertEqual(node.node.status, 1)
        self.assertTrue(node.has_said("the log log begins at offset 9, and the documents are of "
                                      "place 0 (offset -1)"), node.said)

    async def test_a_log_that_was_made_anew_is_refused_in_words(self) -> None:
        node = await self.filled()
        await node.node.take_snapshot()
        await node.stop()
        self.log.kept.clear()
        again = self.made("a")
        await again.start()
        self.assertTrue(again.node.failed.is_set())
        self.assertTrue(again.has_said("it is not the log that they followed"), again.said)

    async def test_a_file_that_ended_in_order_goes_on_and_another_begins_anew(self) -> None:
        path = self.folder / "x.db"
        other = await self.filled("b")
        node = await self.begun("a", file=path, snapshots=None)
        await node.stop()
        await (await self.client(other)).store("total", COUNT_UP)
        taken: list[int] = []
        real = Follower._take

        async def noted(follower: Follower, offset: int, message: bytes) -> None:
            if follower.name == "a":
                taken.append(offset)
            await real(follower, offset, message)

        with mock.patch.object(Follower, "_take", noted):
            node = await self.begun("a", file=path, snapshots=None)
            self.assertGreater(min(taken), 20)
            await node.kill()
            await node.node.followers[0].backend.ended.wait()
            taken.clear()
            node = await self.begun("a", file=path, snapshots=None)
            self.assertEqual(min(taken), 0)
        self.assertEqual(await self.documents(node), await self.documents(other))

    async def test_a_server_that_was_killed_is_begun_again(self) -> None:
        node = await self.filled()
        client = await self.client(node)
        for _ in range(3):
            node.node.followers[0].backend.kill()
            await client.store("total", COUNT_UP)
        self.assertEqual(await client.query('string(doc("total"))'), ["15"])

    async def test_a_server_in_memory_is_renewed_with_its_documents(self) -> None:
        node = await self.filled()
        before = await self.documents(node)
        old = node.node.followers[0].backend
        with mock.patch("xqs.cluster.upkeep.MEMORY_FRAMES", old.frames):
            await self.until(lambda: node.node.followers[0].backend is not old)
        self.assertEqual(await self.documents(node), before)
        self.assertIsNone(node.node.followers[0].halted or None)

    async def test_servers_are_renewed_while_stores_come(self) -> None:
        with mock.patch("xqs.cluster.upkeep.MEMORY_FRAMES", 40), \
                mock.patch("xqs.cluster.upkeep.FILE_FRAMES", 40), \
                mock.patch("xqs.cluster.watches.LOOK", 0.01):
            nodes = [await self.begun("a"), await self.begun("b", file=self.folder / "x.db")]
            first = [node.node.followers[0].backend for node in nodes]
            clients = [await self.client(node) for node in nodes]
            for _ in range(30):
                await asyncio.gather(*(it.store("total", COUNT_UP) for it in clients * 4))
            maps = [await self.documents(node) for node in nodes]
        self.assertEqual(maps[0], maps[1])
        self.assertIn('"240"', maps[0]["total"])
        for node, backend in zip(nodes, first, strict=True):
            self.assertIsNot(node.node.followers[0].backend, backend)
            self.assertFalse(node.has_said("is started again"), node.said)

    async def test_snapshots_are_taken_by_themselves(self) -> None:
        node = await self.begun("a", every=5)
        client = await self.client(node)
        folder = self.folder / "snapshots-a"
        for number in range(6):
            await client.store(f"c{number}", value(number))
        await self.until(lambda: any(folder.glob("*.snapshot")))

    async def test_a_snapshot_within_an_entry_is_found_by_the_checker(self) -> None:
        """Without the lock a snapshot has later documents than its offset says."""
        node, history = await self.filled(count=1), History()
        history.counted = 1
        client = await self.client(node)
        follower = node.node.followers[0]
        real = snapshots.backup.back_up
        loop = asyncio.get_running_loop()

        def slow(*words: object, **others: object) -> int:
            asyncio.run_coroutine_threadsafe(client.store("total", COUNT_UP), loop).result(20)
            return real(*words, **others)  # type: ignore

        history.counted += 1
        with mock.patch.object(follower, "between", NoLock()), \
                mock.patch.object(snapshots.backup, "back_up", slow):
            await node.node.take_snapshot()
        self.copied("b", "a")
        other = await self.begun("b")
        maps = [{address.encode(): text.encode() for address, text in documents.items()}
                for documents in (await self.documents(node), await self.documents(other))]
        found = faults(history, maps, b"total")
        self.assertEqual(len(found), 1)
        self.assertIn("node 1 has another b'total'", found[0])


class NoLock:
    """Lets everybody in."""

    async def __aenter__(self) -> None: ...

    async def __aexit__(self, *_: object) -> None: ...


class Stops(NodesTest):
    """When a node must not go on."""

    async def test_want_of_memory_ends_the_following_and_reads_go_on(self) -> None:
        sound, node = await self.begun("b"), await self.begun("a", command=planted("want=x"))
        client, other = await self.client(node), await self.client(sound)
        await client.store("c", value(1))
        await node.node.take_snapshot()
        await self.gone(await self.client(node), "x")
        await other.store("later", value(2))
        self.assertTrue(node.has_said("the next entry was answered with memory"))
        self.assertEqual(await client.query('string(doc("c")), count(collection())'), ["1", 1])
        for call in (client.store("d", value(3)), client.drop("c")):
            with self.assertRaises(Wanting):
                await call
        await node.stop()
        again = await self.begun("a")
        self.assertEqual(await self.documents(again), await self.documents(sound))
        self.assertEqual(sorted(await self.documents(again)), ["c", "later", "x"])

    async def test_an_entry_at_which_servers_end_is_left_after_some_tries(self) -> None:
        node = await self.begun("a", command=planted("end=x"))
        client = await self.client(node)
        await client.store("c", value(1))
        await self.gone(await self.client(node), "x")
        self.assertTrue(node.has_said("servers in turn ended at the next entry"))
        self.assertEqual(await client.list(), ["c"])

    async def test_one_whose_replies_differ_stops_and_the_others_go_on(self) -> None:
        with mock.patch("xqs.cluster.agreement.EVERY", 10):
            nodes = [await self.begun("a"), await self.begun("b"),
                     await self.begun("c", command=planted("change=c4"), program="commit 2")]
            client = await self.client(nodes[0])
            for number in range(40):
                await client.store(f"c{number}", value(number))
            await self.until(nodes[2].node.failed.is_set)
            self.assertEqual(nodes[2].node.status, 1)
            said = "\n".join(nodes[2].said)
            self.assertRegex(said, r"stops: at place 10 node c \(program commit 2\) has the sum "
                             r"[0-9a-f]{16}, and node [ab] \(program commit 1\) has the sum")
            self.assertFalse(nodes[0].node.failed.is_set() or nodes[1].node.failed.is_set())
            self.assertEqual(await self.documents(nodes[0]), await self.documents(nodes[1]))

    async def counted(self, nodes: list[LocalNode], count: int) -> None:
        """Stores this number of documents through the first node."""
        client = await self.client(nodes[0])
        for number in range(count):
            await client.store(f"c{number}", value(number))

    async def test_one_wrong_node_of_three_servers_stops_no_right_one(self) -> None:
        with mock.patch("xqs.cluster.agreement.EVERY", 10):
            nodes = [await self.begun("a"), await self.begun("b"),
                     await self.begun("c", command=planted("change=c4"), servers=3)]
            await self.counted(nodes, 40)
            await self.until(nodes[2].node.failed.is_set)
            self.assertFalse(nodes[0].node.failed.is_set() or nodes[1].node.failed.is_set())
            self.assertEqual(await self.documents(nodes[0]), await self.documents(nodes[1]))

    async def test_of_two_that_differ_both_are_shown_and_read_and_a_third_settles_it(self) -> None:
        with mock.patch("xqs.cluster.agreement.EVERY", 10):
            nodes = [await self.begun("a"), await self.begun("b", command=planted("change=c4"))]
            client = await self.client(nodes[0])
            for number in range(25):
                with suppress(Wanting, Unknown):
                    client = await self.client(nodes[0])
                    await client.store(f"c{number}", value(number))
            for node in nodes:
                await self.until(lambda: bool(node.node.followers[0].halted))
                said = "\n".join(node.said)
                self.assertIn("node a (program commit 1) has the sum", said)
                self.assertIn("node b (program commit 1) has the sum", said)
                self.assertFalse(node.node.failed.is_set())
                self.assertEqual(await (await self.client(node)).query('string(doc("c3"))'), ["3"])
            third = await self.begun("c")
            await self.until(lambda: nodes[0].has_said("most nodes have its sum at place 10"))
            await self.until(nodes[1].node.failed.is_set)
            self.assertTrue(nodes[1].has_said("b differs from others, and stops"))
            await (await self.client(nodes[0])).store("later", value(1))
            self.assertEqual(await self.documents(nodes[0]), await self.documents(third))

    async def test_another_program_with_the_same_sums_is_a_warning(self) -> None:
        with mock.patch("xqs.cluster.agreement.EVERY", 10):
            nodes = [await self.begun("a"), await self.begun("b", program="commit 2")]
            await self.counted(nodes, 25)
            await self.until(lambda: nodes[0].has_said("node b runs the program commit 2, and this "
                                                       "one commit 1: their sums are equal"))
            self.assertEqual(await self.documents(nodes[0]), await self.documents(nodes[1]))
            self.assertFalse(any(it.node.failed.is_set() for it in nodes))

    async def test_all_end_at_one_place_and_another_program_goes_on(self) -> None:
        nodes = [await self.begun("a"), await self.begun("b")]
        client = await self.client(nodes[0])
        await client.store("c", value(1))
        socket = control.control_path(self.folder)
        actions = _actions(nodes[0].node)
        server = await asyncio.start_unix_server(
            lambda *it: control.serve(actions, *it), str(socket))
        for request, words in (("snapshot", "1 documents of place 1"), ("x", "there is no 'x'"),
                               ("end", "all nodes take a snapshot and end")):
            _, said = await asyncio.to_thread(control.ask, self.folder, request)
            self.assertIn(words, said)
        server.close()
        for node in nodes:
            await self.until(node.node.failed.is_set)
            self.assertEqual(node.node.status, 0)
            await node.stop()
        places = [node.node.followers[0].state.offset for node in nodes]
        self.assertEqual(places[0], places[1])
        later = await self.begun("a", program="commit 2")
        self.assertTrue(later.has_said("the program commit 2 goes on at place 1"))
        await (await self.client(later)).store("d", value(1))
        late = self.made("c", program="commit 2")
        await late.start()
        self.assertTrue(late.has_said("all nodes ended here that ran the program commit 1"))

    async def test_a_query_that_never_ends_holds_one_of_several_servers(self) -> None:
        node = await self.begun("a", servers=2)
        endless, client = await node.connect(), await self.client(node)
        held = asyncio.create_task(endless.query(ENDLESS))
        await asyncio.sleep(0.2)
        for number in range(5):
            await client.store("c", value(number))
            self.assertEqual(await client.query('string(doc("c"))'), [str(number)])
            self.assertIn(f"of place {number + 1}", await node.node.take_snapshot())
        held.cancel()
        with suppress(XqError, asyncio.CancelledError):
            await held

    async def test_a_write_of_a_client_that_has_gone_is_carried_out(self) -> None:
        node = await self.begun("a")
        client = await node.connect()
        stored = asyncio.create_task(client.store("c", value(1)))
        await asyncio.sleep(0)
        await client.close()
        await stored
        self.assertEqual(list(await self.documents(node)), ["c"])


if __name__ == "__main__":
    import unittest

    unittest.main()
