"""`xqs node` over three brokers of RabbitMQ: a trial with faults, and each fault by itself.

`XQS_TRIAL_SECONDS` is the length of the trial; before a release it should be 600.
"""

import asyncio
import os
import random
import shlex
import shutil
import signal
import struct
import subprocess
import sys
import tempfile
import threading
import time
import unittest
from collections.abc import Awaitable, Callable, Iterator
from contextlib import suppress
from pathlib import Path
from typing import Any, TypeAlias, cast

try:
    import aio_pika
except ImportError as error:
    raise unittest.SkipTest("aio_pika is not installed") from error

from brokers import Brokers, missing
from clusters import BEGINNING, SHARED, RunningNode, Watcher, Writer, all_taken, value
from tests.histories import History, faults
from tests.local_nodes import planted
from tests.serving import SOURCES, Connection, RunningMux, store_body
from tests.support import TOP
from xqs import connect
from xqs.cluster.addresses import log_address
from xqs.cluster.snapshots import judge
from xqs.cluster.steps import NAMES, STATUS
from xqs.errors import Closed, Wanting

SECONDS = float(os.environ.get("XQS_TRIAL_SECONDS", "60"))
SEED = int(os.environ.get("XQS_SEED", "59"))
STOPPED = 8.0
"""How many seconds a broker is stopped."""
FILE_STEPS = ("file ended", "file noted")
SNAPSHOT_STEPS = ("snapshot begun", "snapshot written", "snapshot named")
MESSAGE_STEPS = ("received", "decoded", "sent", "replied", "noted", "answered", "taken",
                 "acknowledged", "published", "confirmed")

Fault: TypeAlias = tuple[Callable[[int], Awaitable[None]], int]
"""A fault of a broker or a node, and the number of that one."""

if why := missing():
    raise unittest.SkipTest(why)

brokers = cast(Brokers, None)
"""The brokers of all tests here, once they run."""


def setUpModule() -> None:
    """Starts the brokers for all tests."""
    global brokers
    brokers = Brokers()
    unittest.addModuleCleanup(brokers.close)
    brokers.start_all()


class ClusterTest(unittest.IsolatedAsyncioTestCase):
    """Tests with a log of their own, and nodes that end with them."""

    async def asyncSetUp(self) -> None:
        asyncio.get_running_loop().set_debug(False)
        self.folder = Path(tempfile.mkdtemp(prefix="xqs-cluster-"))
        self.addCleanup(shutil.rmtree, self.folder, True)
        self.log = f"log-{self.id().rpartition('.')[2]}-{time.time():.0f}"
        self.history = History()

    def made(self, name: str, *options: str, **others: object) -> RunningNode:
        """A node that has not begun."""
        node = RunningNode(name, brokers, self.log, self.folder, "--seconds", "20",
                           "--servers", "1", *options, **others)  # type: ignore[arg-type]
        self.addCleanup(self.ended, node)
        return node

    def begun(self, name: str, *options: str, **others: object) -> RunningNode:
        """A node that has begun."""
        node = self.made(name, *options, **others)
        node.begin()
        return node

    def ended(self, node: RunningNode) -> None:
        """Ends a node, and checks the messages of all its runs."""
        if node.lives:
            node.end()
        result = self._outcome.result  # type: ignore[attr-defined]
        is_failed = any(it is self for it, _ in [*result.errors, *result.failures])
        for said in sorted(self.folder.glob(f"{node.name}-*.said")):
            text = said.read_text()
            if is_failed:
                print(f"--- {said.name}\n{text}")
            self.assertNotIn("Traceback", text, text)
            self.assertNotIn("exception", text, text)

    async def check(self, nodes: list[RunningNode], writers: list[Writer]) -> str:
        """Checks all that was seen against the documents of all nodes. Returns the text to
        print."""
        self.assertEqual([it.faults for it in writers], [[] for _ in writers])
        await all_taken(nodes)
        maps = [await node.documents() for node in nodes]
        self.assertEqual(faults(self.history, maps, SHARED.encode()), [])
        for node in nodes:
            await node.snapshot()
        states = [judge(max(it.snapshots.glob("*.snapshot"))).state for it in nodes]
        totals = {it.place: it.total for it in states}
        self.assertEqual(len({(it.place, it.total) for it in states}), len(totals), states)
        history = self.history
        acknowledged = sum(it.is_acknowledged for _, it in history.writes) + history.counted
        unknown = sum(not it.is_acknowledged for _, it in history.writes) + history.doubtful
        fresh = sum(it.is_fresh for it in history.reads)
        return (f"place {max(totals):,}, {acknowledged:,} writes acknowledged, {unknown} unknown, "
                f"{len(history.reads):,} reads, {fresh:,} of them fresh, {len(maps[0])} documents")


class Trial(ClusterTest):
    """Writers and readers at three nodes, and one fault after another."""

    async def test_a_trial_with_faults(self) -> None:
        self.chance = random.Random(SEED)
        self.nodes = [
            self.begun("n1", "--every", "500"),
            self.begun("n2", "--every", "500", "--fresh", "--file", str(self.folder / "x.db"),
                       first=1),
            self.begun("n3", "--every", "500", "--servers", "2", first=2)]
        writers = [Writer(node, number, self.history) for node in self.nodes for number in range(4)]
        for writer in writers:
            writer.others = writers
        until = time.monotonic() + SECONDS
        watchers = [Watcher(node) for node in self.nodes]
        work = [asyncio.create_task(it.work(until, it.name.startswith("n2"))) for it in writers]
        work += [asyncio.create_task(it.work(until)) for it in watchers]
        done = await self.trouble(until)
        await asyncio.gather(*work)
        self.assertEqual([it.faults for it in watchers], [[] for _ in watchers])
        print(f"{SECONDS:g} s, seed {SEED}: {await self.check(self.nodes, writers)}; "
              f"{sum(it.count for it in watchers):,} reads in turn; {done}")

    async def trouble(self, until: float) -> str:
        """One fault after another: each broker killed and stopped in turn, with nodes and their
        servers between; then random ones. Returns the number of each."""
        plan: list[Fault] = [
            (self.kill_broker, 0), (self.kill_node, 0), (self.stop_broker, 1),
            (self.kill_server, 1), (self.kill_broker, 2), (self.end_node, 1),
            (self.stop_broker, 0), (self.kill_node, 2), (self.kill_broker, 1),
            (self.kill_server, 2), (self.stop_broker, 2), (self.kill_node, 1)]
        counts: dict[str, int] = {}
        for kind, number in self.endless(plan):
            await asyncio.sleep(self.chance.uniform(0.2, 1.5))
            if time.monotonic() > until - STOPPED - 4:
                break
            await kind(number)
            name = f"{kind.__name__.replace('_', ' ')} {number}"
            counts[name] = counts.get(name, 0) + 1
        await self.all_brokers()
        return ", ".join(f"{name}: {count}" for name, count in sorted(counts.items()))

    def endless(self, plan: list[Fault]) -> Iterator[Fault]:
        """The plan, and then random faults."""
        yield from plan
        while True:
            kind, _ = self.chance.choice(plan)
            yield kind, self.chance.randrange(3)

    async def all_brokers(self) -> None:
        """Waits until all brokers take connections: two of three must run at any time."""
        for name in brokers.names:
            await asyncio.to_thread(brokers.wait_for, name)

    async def kill_broker(self, number: int) -> None:
        await self.all_brokers()
        name = brokers.names[number]
        brokers.kill(name)
        await asyncio.sleep(self.chance.uniform(0.5, 3.0))
        brokers.start(name)

    async def stop_broker(self, number: int) -> None:
        await self.all_brokers()
        name = brokers.names[number]
        brokers.signal(name, signal.SIGSTOP)
        await asyncio.sleep(STOPPED)
        brokers.signal(name, signal.SIGCONT)

    async def kill_node(self, number: int) -> None:
        self.nodes[number].kill()
        await asyncio.sleep(self.chance.uniform(0.0, 1.0))
        self.nodes[number].begin(is_awaited=False)
        await self.nodes[number].wait()

    async def end_node(self, number: int) -> None:
        process = self.nodes[number].process
        process.send_signal(signal.SIGTERM)
        self.assertEqual(await asyncio.to_thread(process.wait, BEGINNING), 0)
        self.nodes[number].begin(is_awaited=False)
        await self.nodes[number].wait()

    async def kill_server(self, number: int) -> None:
        for server in self.nodes[number].server_ids()[:1]:
            with suppress(ProcessLookupError):
                os.kill(server, signal.SIGKILL)


class Steps(ClusterTest):
    """A node that is killed between any two steps of its work."""

    async def each(self, steps: tuple[str, ...], *options: str) -> None:
        """Kills a node at each step, begins it again, and checks the documents of it and another
        node."""
        nodes = [self.begun("n1"), self.made("n2", *options)]
        writers = [Writer(node, number, self.history) for node in nodes for number in range(2)]
        for number, step in enumerate(steps):
            with self.subTest(step=step):
                # (it takes some messages of its own as it begins)
                count = (3 if step in SNAPSHOT_STEPS else 12) + number % 4
                nodes[1].begin(f"{step}:{count}")
                until = time.monotonic() + 60
                work = [asyncio.create_task(it.work(until)) for it in writers]
                await self.pass_step(nodes[1], step)
                nodes[1].begin(is_awaited=False)
                await nodes[1].wait()
                await asyncio.sleep(0.5)
                for writer in work:
                    writer.cancel()
                await asyncio.gather(*work, return_exceptions=True)
                await self.check(nodes, writers)
                nodes[1].terminate()

    async def test_all_steps_are_tried(self) -> None:
        self.assertEqual(set(NAMES), {*MESSAGE_STEPS, *SNAPSHOT_STEPS, *FILE_STEPS})

    async def pass_step(self, node: RunningNode, step: str) -> None:
        """Makes the node come to the step at which it ends."""
        servers = node.server_ids()
        await asyncio.sleep(0.7)
        for _ in range(9 if step in SNAPSHOT_STEPS else 0):
            with suppress(Exception):
                await node.snapshot()
        if step in FILE_STEPS:
            node.process.send_signal(signal.SIGTERM)
        self.assertEqual(await asyncio.to_thread(node.process.wait, 60), STATUS)
        for server in servers:
            with suppress(ProcessLookupError):
                os.kill(server, signal.SIGKILL)

    async def test_in_memory(self) -> None:
        await self.each(MESSAGE_STEPS + SNAPSHOT_STEPS)

    async def test_on_a_file(self) -> None:
        options = ("--file", str(self.folder / "x.db"))
        await self.each(("sent", "replied", "noted", "taken"), *options)
        # (the count is that of the first time, at the end)

    async def test_at_the_end_of_a_file(self) -> None:
        node = self.made("n2", "--file", str(self.folder / "x.db"))
        for number, step in enumerate(FILE_STEPS):
            node.begin(f"{step}:1")
            async with await node.connect() as client:
                await client.store(f"c{number}", value(number))
            await self.pass_step(node, step)
        node.begin()
        self.assertEqual(len(await node.documents()), 2)


class Logs(ClusterTest):
    """Logs that can't be followed, and those that can't be reached."""

    async def test_a_log_that_was_trimmed_is_refused_in_words(self) -> None:
        # Small segments, and few of them.
        await self.declare({"x-queue-type": "stream", "x-max-length-bytes": 1_000_000,
                            "x-stream-max-segment-size-bytes": 500_000})
        node = self.begun("n1", "--every", "1000000")
        async with await node.connect() as client:
            text = f'document {{text {{"{"x" * 200_000}"}}}}'
            for number in range(40):
                await client.store(f"c{number % 4}", text)
        self.assertIn("4 documents of place 40", await node.snapshot())
        late = self.made("n2")
        late.begin(is_awaited=False)
        self.assertEqual(await asyncio.to_thread(late.process.wait, 60), 1)
        self.assertRegex(late.said(), r"the log .* begins at offset \d+, and the documents are of "
                         r"place 0 \(offset -1\): the entries between are no longer there")
        for path in node.snapshots.glob("*.snapshot"):
            shutil.copy(path, late.snapshots)
        late.begin()
        self.assertEqual(await late.documents(), await node.documents())

    async def test_an_account_with_the_permissions_of_the_page_is_enough(self) -> None:
        page = (TOP / "docs" / "CLUSTER.md").read_text()
        [line] = [it for it in page.splitlines() if "set_permissions" in it]
        words = shlex.split(line.replace("docs", self.log))[1:]
        brokers.control("a", "add_user", "xqs", "a-word")
        self.addCleanup(brokers.control, "a", "delete_user", "xqs")
        brokers.control("a", *words)
        early = self.made("n0", account="xqs:a-word")
        early.begin(is_awaited=False)
        await asyncio.to_thread(early.wait_for, "ACCESS_REFUSED", 90)
        await self.declare({"x-queue-type": "stream"})
        node = self.begun("n1", account="xqs:a-word")
        async with await node.connect() as client:
            self.assertFalse(await client.store("c", value(1)))
        self.assertNotIn("a-word", node.said())
        other = self.made("n2", account="xqs:another")
        other.begin(is_awaited=False)
        await asyncio.to_thread(other.wait_for, "no log at 127.0.0.1")
        self.assertNotIn("another", other.said())

    async def test_that_account_may_not_delete_or_purge_the_log(self) -> None:
        await self.declare({"x-queue-type": "stream"})
        brokers.control("a", "add_user", "xqs2", "a-word")
        self.addCleanup(brokers.control, "a", "delete_user", "xqs2")
        brokers.control("a", "set_permissions", "xqs2", "^$", f"^({self.log}|amq\\.default)$",
                        f"^{self.log}$")
        where = log_address(brokers.address(self.log, account="xqs2:a-word"))
        for what in ("delete", "purge"):
            connection = await aio_pika.connect(where.brokers[0])
            async with connection:
                channel = await connection.channel()
                queue = await channel.get_queue(self.log)
                with self.assertRaises(Exception, msg=what):
                    await getattr(queue, what)()

    async def test_copies_are_counted_and_a_broker_without_one_is_left(self) -> None:
        await self.declare({"x-queue-type": "stream", "x-initial-cluster-size": 1})
        words = [sys.executable, "-m", "xqs", "node", "--copies", "--log",
                 brokers.address(self.log)]
        done = await asyncio.to_thread(subprocess.run, words, cwd=SOURCES, capture_output=True,
                                       text=True, timeout=120)
        self.assertEqual(done.returncode, 1, done.stderr)
        self.assertEqual(done.stdout.count("has no copy"), 2, done.stdout)
        self.assertIn(f"rabbitmq-streams add_replica {self.log}", done.stderr)
        node = self.begun("n1", first=1)
        self.assertIn("this broker has no copy of the log that runs", node.said())
        await asyncio.to_thread(node.wait_for, "2 of 3 brokers have no copy of the log", 90)
        async with await node.connect() as client:
            await client.store("c", value(1))

    async def declare(self, arguments: dict[str, Any]) -> None:
        """Makes a queue with the log's name."""
        where = log_address(brokers.address(self.log))
        connection = await aio_pika.connect(where.brokers[0])
        async with connection:
            channel = await connection.channel()
            await channel.declare_queue(where.name, durable=True, arguments=arguments)

    async def test_a_queue_that_is_no_stream_is_refused_in_words(self) -> None:
        await self.declare({})
        node = self.made("n1")
        node.begin(is_awaited=False)
        self.assertEqual(await asyncio.to_thread(node.process.wait, 90), 1)
        self.assertIn("is that of a queue, not a stream: name another log", node.said())

    async def test_without_two_brokers_reads_go_on_and_writes_are_unknown(self) -> None:
        node = self.made("n1")
        node.begin()
        async with await node.connect() as client:
            await client.store("c", value(1))
            for name in brokers.names[:2]:
                brokers.signal(name, signal.SIGSTOP)
            try:
                async with await node.connect() as other:
                    begin = time.monotonic()
                    with self.assertRaises(Closed):
                        await other.store("d", value(2))
                    self.assertLess(time.monotonic() - begin, 30)
                self.assertEqual(await client.query('string(doc("c"))'), ["1"])
            finally:
                for name in brokers.names[:2]:
                    brokers.signal(name, signal.SIGCONT)
        await self.stores_again(node)

    async def stores_again(self, node: RunningNode) -> None:
        """Stores by new clients until one is answered."""
        async with asyncio.timeout(90):
            while True:
                with suppress(Closed):
                    async with await node.connect() as client:
                        await client.store("e", value(3))
                        return


class Servers(ClusterTest):
    """Servers that a node must not go on with."""

    async def test_one_that_wants_memory_halts_and_goes_on_from_a_snapshot(self) -> None:
        sound = self.begun("n1")
        wanting = self.begun("n2", command=planted("want=x"))
        async with await sound.connect() as client, await wanting.connect() as other:
            await other.store("c", value(1))
            await wanting.snapshot()
            await client.store("x", value(2))
            await client.store("later", value(3))
            await asyncio.to_thread(wanting.wait_for, "answered with memory")
            self.assertEqual(await other.list(), ["c"])
            with self.assertRaises(Wanting):
                await other.store("d", value(4))
        self.assertEqual(wanting.terminate(), 0)
        again = RunningNode("n2", brokers, self.log, self.folder)
        again.lives = 1
        self.addCleanup(self.ended, again)
        again.begin()
        self.assertEqual(await again.documents(), await sound.documents())

    async def test_one_that_wants_the_store_has_no_documents(self) -> None:
        wanting = [sys.executable, str(Path(__file__).parents[1] / "tests" / "wanting_server.py")]
        node = self.begun("n1", command=wanting)
        async with await node.connect() as client:
            await client.store("good", value(1))
            with self.assertRaises(Closed):
                await client.store("x", value(2))
        async with await node.connect() as client:
            self.assertEqual(await client.list(), [])
        self.assertIn("answered with store", node.said())

    async def test_another_program_stops_and_says_both(self) -> None:
        nodes = [self.begun("n1"), self.begun("n2"),
                 self.begun("n3", "--program", "another", command=planted("change=c7"))]
        clients = [await node.connect() for node in nodes[:2]]
        for begin in range(0, 1200, 60):
            await asyncio.gather(*(clients[number % 2].store(f"c{number}", value(number))
                                   for number in range(begin, begin + 60)))
        for client in clients:
            await client.close()
        self.assertEqual(await asyncio.to_thread(nodes[2].process.wait, 60), 1)
        self.assertRegex(nodes[2].said(), r"n3 differs from others, and stops: at place "
                         r"1000 node n3 \(program another\) has the sum [0-9a-f]{16}, and node "
                         r"n[12] \(program .+\) has the sum [0-9a-f]{16}")
        await all_taken(nodes[:2])
        maps = [await node.documents() for node in nodes[:2]]
        self.assertEqual(maps[0], maps[1])

    async def test_all_nodes_end_at_one_place(self) -> None:
        nodes = [self.begun("n1"), self.begun("n2", "--file", str(self.folder / "x.db"))]
        async with await nodes[0].connect() as client:
            await client.store("c", value(1))
        self.assertIn("all nodes take a snapshot and end", await nodes[1].snapshot("end"))
        for node in nodes:
            self.assertEqual(await asyncio.to_thread(node.process.wait, 60), 0)
        names = [max(it.snapshots.glob("*.snapshot")).name for it in nodes]
        self.assertEqual(names[0], names[1])
        for node in nodes:
            node.begin()
        self.assertEqual(await nodes[0].documents(), await nodes[1].documents())


class Clients(ClusterTest):
    """Many clients at once, and rude ones."""

    async def test_a_hundred_clients_beside_one_that_never_reads(self) -> None:
        node = self.begun("n1", "--servers", "2")
        silent = Connection(node.place)
        silent.socket.settimeout(0.5)
        query = b'string-join((1 to 100000) ! "0123456789")'
        with self.assertRaises(TimeoutError):
            while True:
                silent.send(b"Q", query)
        failures: list[str] = []
        threads = [threading.Thread(target=self.work, args=(node, number, failures))
                   for number in range(100)]
        for thread in threads:
            thread.start()
        for thread in threads:
            await asyncio.to_thread(thread.join)
        silent.socket.close()
        self.assertEqual(failures, [])
        self.assertEqual(len(await node.documents()), 100)

    def work(self, node: RunningNode, number: int, failures: list[str]) -> None:
        """Stores and reads by one connection."""
        try:
            with Connection(node.place) as client:
                for turn in range(5):
                    body = store_body(b"c%d" % number, value(turn).encode())
                    told = client.ask(b"S", body)
                    read = client.ask(b"Q", b'string(doc("c%d"))' % number)
                    if told is None or told[0] or read != (0, b'"%d"' % turn):
                        failures.append(f"{number}: {told}, {read}")
        except (OSError, AssertionError, struct.error) as error:
            failures.append(f"{number}: {error!r}")

    async def test_clients_for_threads_and_the_multiplexer_work_over_a_node(self) -> None:
        node = self.begun("n1")
        if shutil.which("socat"):
            through = ["socat", "STDIO", f"UNIX-CONNECT:{node.place.removeprefix('unix:')}"]
            with RunningMux(on_file=False, command=through) as mux, mux.connect() as client:
                self.assertEqual(client.ask(b"Q", b"1 + 1"), (0, b"2"))

        def work() -> list[str]:
            with connect(node.place) as client:
                client.store("a", value(1))
                futures = [client.store_later(f"b{number}", value(number)) for number in range(99)]
                for future in futures:
                    future.result()
                return client.list()

        self.assertEqual(len(await asyncio.to_thread(work)), 100)


if __name__ == "__main__":
    unittest.main()
