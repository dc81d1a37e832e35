"""A node follows the log again after any fault of what it waits for, and reports it."""

import asyncio
import hashlib
import json
import subprocess
import sys
import unittest
from pathlib import Path
from unittest import mock

from tests.local_nodes import COUNT_UP, NodesTest
from tests.serving import SOURCES
from xqs.cluster import aside, identity, snapshots
from xqs.cluster.batches import Batch, decode, encode
from xqs.cluster.limits import NoAnswer, Pauses, within
from xqs.cluster.log import Away
from xqs.cluster.main import _on_fault


def value(number: int) -> str:
    """A document that holds a number."""
    return f'document {{element c {{text {{"{number}"}}}}}}'


class Limits(unittest.IsolatedAsyncioTestCase):
    """No wait lasts forever."""

    async def test_work_that_does_not_end_when_it_is_cancelled_is_left(self) -> None:
        ended = asyncio.Event()

        async def deaf() -> None:
            while not ended.is_set():
                try:
                    await ended.wait()
                except asyncio.CancelledError:
                    continue

        begin = asyncio.get_running_loop().time()
        with self.assertRaises(NoAnswer) as raised:
            await within(0.05, deaf())
        self.assertLess(asyncio.get_running_loop().time() - begin, 5)
        self.assertIn("no answer for 0.05 seconds", str(raised.exception))
        ended.set()
        await asyncio.sleep(0)

    async def test_work_that_is_cancelled_by_its_package_is_away(self) -> None:

        async def dropped() -> None:
            raise asyncio.CancelledError

        with self.assertRaises(Away):
            await within(5, dropped())

    async def test_errors_and_values_pass(self) -> None:

        async def given() -> int:
            return 7

        async def failing() -> None:
            raise ValueError("x")

        self.assertEqual(await within(5, given()), 7)
        with self.assertRaises(ValueError):
            await within(5, failing())

    async def test_pauses_double_up_to_the_longest(self) -> None:
        slept: list[float] = []

        async def sleep(seconds: float) -> None:
            slept.append(seconds)

        pauses = Pauses(0.2, 1.0)
        with mock.patch("asyncio.sleep", sleep):
            for _ in range(5):
                await pauses.pause()
            pauses.begin_anew()
            await pauses.pause()
        self.assertEqual(slept, [0.2, 0.4, 0.8, 1.0, 1.0, 0.2])


DEAF = """
import asyncio, sys
from xqs.cluster import ending
from xqs.errors import XqError
ending.LEFT = 0.2

async def deaf():
    while True:
        try:
            await asyncio.sleep(60)
        except asyncio.CancelledError:
            pass

async def work():
    if sys.argv[1] == "deaf":
        asyncio.ensure_future(deaf())
        await asyncio.sleep(0)
    print("done")
    if sys.argv[2] == "fails":
        raise XqError("it failed")
    return 7

sys.exit(ending.run(work(), "node"))
"""


class Ends(unittest.TestCase):
    """A process ends whatever tasks its package leaves."""

    def test_tasks_that_do_not_end_hold_nobody_up(self) -> None:
        for kind in ("deaf", "none"):
            for how, status in (("works", 7), ("fails", 1)):
                done = subprocess.run(
                    [sys.executable, "-c", DEAF, kind, how], capture_output=True, text=True,
                    timeout=60, cwd=SOURCES, check=False)
                self.assertEqual((done.returncode, done.stdout), (status, "done\n"), done.stderr)
                self.assertEqual("it failed" in done.stderr, how == "fails")


class Faults(unittest.TestCase):
    """What is shown of errors that nobody waits for."""

    @staticmethod
    def raised(module: str, error: Exception) -> Exception:
        """An error that comes from code of a module."""
        names = {"__name__": module, "error": error}
        try:
            exec("raise error", names)
        except Exception as found:
            return found
        raise AssertionError

    def test_lost_connections_of_the_package_are_not_shown_and_all_else_is(self) -> None:
        lost = ConnectionResetError(104, "Connection reset by peer")
        for module, error, is_shown in (
            ("aiormq.connection", lost, False), ("aio_pika", TimeoutError(), False),
            ("aiormq.connection", ValueError("x"), True), ("xqs.cluster.node", OSError(5), True),
            ("aiormqs", OSError(5), True),
        ):
            loop = mock.Mock()
            _on_fault(loop, {"message": "Future exception was never retrieved",
                             "exception": self.raised(module, error)})
            self.assertEqual(loop.default_exception_handler.called, is_shown, (module, error))


class Silence(NodesTest):
    """A log that brings nothing, and reports nothing."""

    async def test_a_dead_feed_is_begun_anew_each_time_and_says_so(self) -> None:
        with mock.patch("xqs.cluster.feed.SILENT", 0.3), \
                mock.patch("xqs.cluster.watches.IDLE", 0.1), \
                mock.patch("xqs.cluster.watches.LOOK", 0.05):
            node = await self.begun("a", seconds=30)
            client = await self.client(node)
            await client.store("c", value(1))
            for turn in range(3):
                # (each time long enough for the watch to act more than once)
                begun = len(node.link.drops)
                node.link.is_stuck = True
                stored = asyncio.create_task(client.store("c", value(turn)))
                await self.until(lambda: len(node.link.drops) >= begun + 2)
                self.assertFalse(stored.done())
                node.link.is_stuck = False
                await asyncio.wait_for(stored, 20)
                self.assertEqual(await client.query('string(doc("c"))'), [str(turn)])
        self.assertTrue(node.has_said("a: nothing came for 0.3 seconds: the log is followed anew "
                                      "from place "), node.said)
        self.assertTrue(node.has_said("a: follows the log again, after"), node.said)

    async def test_a_connection_that_is_up_and_fails_is_given_up(self) -> None:
        node = await self.begun("a")
        client = await self.client(node)
        await client.store("c", value(1))
        for error in (NoAnswer("no answer for 5 seconds"), Away("it takes no channel")):
            node.link.drops.clear()
            node.link.fails_with = error
            node.link.drop("planted")
            await asyncio.wait_for(client.store("c", value(2)), 20)
            self.assertEqual(node.link.drops, [str(error)])
            self.assertEqual(await client.query('string(doc("c"))'), ["2"])

    async def test_each_of_several_servers_follows_again(self) -> None:
        with mock.patch("xqs.cluster.feed.SILENT", 0.3), \
                mock.patch("xqs.cluster.watches.IDLE", 0.1), \
                mock.patch("xqs.cluster.watches.LOOK", 0.05):
            node = await self.begun("a", servers=2)
            client = await self.client(node)
            node.link.is_stuck = True
            await self.until(lambda: len(node.link.drops) >= 2)
            node.link.is_stuck = False
            await client.store("c", value(1))
            await self.until(lambda: all(it.state.place == 1 for it in node.node.followers))

    async def test_a_message_that_the_log_refuses_is_sent_again(self) -> None:
        node = await self.begun("a")
        client = await self.client(node)
        plans = ["refuse", "refuse", "keep"]
        node.link.plan = lambda message: plans.pop(0) if plans else "keep"
        await asyncio.wait_for(client.store("c", value(1)), 20)
        self.assertEqual(await client.list(), ["c"])

    async def test_a_log_whose_first_message_does_not_come_is_asked_anew(self) -> None:
        with mock.patch("xqs.cluster.feed.AT_ONCE", 0.2):
            node = await self.begun("a")
            client = await self.client(node)
            await client.store("c", value(1))
            node.link.is_stuck = True
            node.link.drop("planted")
            await self.until(lambda: node.has_said("the message that was taken last did not come")
                             or node.has_said("the connection ended"))
            node.link.is_stuck = False
            node.link.drop("planted")
            await asyncio.wait_for(client.store("c", value(2)), 20)


class Gaps(NodesTest):
    """A log that no longer has the next message."""

    async def test_a_gap_that_cannot_be_judged_now_is_judged_again(self) -> None:
        node = await self.begun("a")
        for number in range(12):
            await (await self.client(node)).store(f"c{number}", value(number))
        self.log.trim(9)
        late = self.made("b")
        real, failures = late.link.first_message, [Away("it is down"), Away("it is down")]

        async def first_message() -> tuple[int, bytes]:
            if failures:
                raise failures.pop()
            return await real()

        with mock.patch.object(late.link, "first_message", first_message):
            await late.start()
        self.assertEqual(failures, [])
        self.assertTrue(late.has_said("b: it is down: the log is followed anew from place 0"))
        self.assertTrue(late.has_said("the log log begins at offset 9"), late.said)


class Aside(NodesTest):
    """A server that stepped aside still hears the log."""

    async def test_what_is_ahead_is_found_also_where_the_feed_dies_without_a_word(self) -> None:
        link = self.log.link()
        with mock.patch("xqs.cluster.aside.SILENT", 0.1), \
                mock.patch("xqs.cluster.aside.AGAIN", 0.05):
            link.is_stuck = True
            waiting = asyncio.create_task(aside.entry_ahead(
                link, -1, lambda entry: aside.skipped_place(entry) == 7))
            await asyncio.sleep(0.3)
            self.log.append(encode(Batch("a/1", 1, (b"N", aside.skip_entry(8)))))
            self.log.append(encode(Batch("a/1", 3, (aside.skip_entry(7),))))
            link.is_stuck = False
            await asyncio.wait_for(waiting, 20)

    def test_an_entry_that_skips_nothing_is_none(self) -> None:
        for entry in (b"K", b"Kx", b"K-1", b"S7", b"K" + b"9" * 30):
            self.assertIsNone(aside.skipped_place(entry), entry)
        self.assertEqual(aside.skipped_place(aside.skip_entry(12032)), 12032)


class Identity(NodesTest):
    """A log has an identity, and one created anew is refused."""

    async def counted(self, name: str, count: int) -> None:
        """A node that begins, counts up to a number, takes a snapshot and ends."""
        node = await self.begun(name)
        client = await self.client(node)
        for _ in range(count):
            await client.store("total", COUNT_UP)
        await node.node.take_snapshot()
        await node.stop()

    async def test_the_first_entry_names_the_log_for_all_nodes(self) -> None:
        nodes = [await self.begun("a"), await self.begun("b")]
        for node in nodes:
            await (await self.client(node)).store("c", value(1))
            await self.documents(node)
        first = identity.of_batch(decode(self.log.kept[0]))
        self.assertRegex(first, r"^[0-9a-f]{16}$")
        self.assertEqual({it.node.followers[0].state.identity for it in nodes}, {first})

    async def test_a_log_made_anew_is_refused_by_name_however_long(self) -> None:
        await self.counted("a", 5)
        before = identity.of_batch(decode(self.log.kept[0]))
        self.log.kept.clear()
        await self.counted("b", 40)
        now = identity.of_batch(decode(self.log.kept[0]))
        again = self.made("a")
        await again.start()
        self.assertTrue(again.node.failed.is_set())
        self.assertEqual(again.node.status, 1)
        self.assertTrue(again.has_said("it is not the log that they followed, or it was made anew"))
        self.assertTrue(any(before in it and now in it for it in again.said), again.said)

    async def test_a_log_that_has_lost_its_end_is_refused(self) -> None:
        await self.counted("a", 9)
        del self.log.kept[4:]
        with mock.patch("xqs.cluster.feed.AT_ONCE", 0.2):
            again = self.made("a")
            await again.start()
        self.assertTrue(again.node.failed.is_set())
        self.assertTrue(again.has_said("and it ends at offset"), again.said)

    async def test_a_snapshot_of_before_identities_goes_on(self) -> None:
        await self.counted("a", 5)
        for path in (self.folder / "snapshots-a").glob("*.snapshot"):
            self.leave_out_identity(path)
        again = await self.begun("a")
        self.assertTrue(again.has_said("1 documents of place 5"))
        self.assertIn('"5"', (await self.documents(again))["total"])

    @staticmethod
    def leave_out_identity(path: Path) -> None:
        """Turns a snapshot into one of a version without identities."""
        with open(path, "rb") as file:
            fields = json.loads(snapshots.read_state(file).to_json())
            rest = file.read()
        for name in ("identity", "digest", "skips"):
            del fields[name]
        text = json.dumps(fields).encode()
        head = f"state {len(text)} {hashlib.sha256(text).hexdigest()}\n".encode()
        path.write_bytes(snapshots.FORM + head + text + b"\n" + rest)


if __name__ == "__main__":
    unittest.main()
