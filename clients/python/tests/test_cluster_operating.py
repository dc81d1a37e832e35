"""What operators and load balancers ask a node, and what it reports by itself."""

import asyncio
import contextlib
import io
import json
import time
from functools import partial
from pathlib import Path
from unittest import mock

from tests.local_nodes import COUNT_UP, LocalNode, NodesTest, planted
from xqs import Client
from xqs.cluster import control, health, operating, snapshots, watches
from xqs.cluster.main import _actions, _parser, main
from xqs.cluster.outbox import Pending
from xqs.cluster.state import State
from xqs.cluster.status import STATES, Status, status_of
from xqs.errors import XqError
from xqs.listening import PlaceError


def value(number: int) -> str:
    """A document that holds a number."""
    return f'document {{element c {{text {{"{number}"}}}}}}'


class Statuses(NodesTest):
    """The status of a node."""

    async def test_one_that_follows_says_so_with_its_figures(self) -> None:
        node = await self.begun("a", servers=2)
        client = await self.client(node)
        await client.store("c", value(1))
        await client.store("d", value(1))
        await node.node.take_snapshot()
        await self.until(lambda: all(it.state.place == 2 for it in node.node.followers))
        await self.until(lambda: node.node.copies)
        status = status_of(node.node)
        self.assertEqual((status.node, status.state, status.place), ("a", "follows", 2))
        self.assertEqual((status.copies, status.brokers, status.snapshot_place), (1, 1, 2))
        self.assertGreaterEqual(status.end, status.offset)
        self.assertEqual([it.place for it in status.servers], [2, 2])
        self.assertEqual(Status.of_json(status.to_json()), status)
        self.assertIn("place: 2 (offset", status.lines())
        with self.assertRaises(ValueError):
            Status.of_json("[]")

    async def test_each_state_is_told(self) -> None:
        node = await self.begun("a", command=planted("want=x"))
        self.assertEqual(status_of(node.node).state, "follows")
        node.link.go_down()
        self.assertEqual(status_of(node.node).state, "no log")
        node.link.come_up()
        with mock.patch("xqs.cluster.status.BEHIND", 0.2):
            node.link.is_stuck = True
            node.node.outbox.mark()
            await self.until(lambda: status_of(node.node).state == "behind")
            node.link.is_stuck = False
            node.link.drop("planted")
            await self.until(lambda: status_of(node.node).state == "follows")
        await self.gone(await self.client(node), "x")
        self.assertEqual(status_of(node.node).state, "halted")
        self.assertIn("halted: the next entry was answered with memory",
                      status_of(node.node).lines())
        self.assertEqual(status_of(self.made("b").node).state, "catches up")

    async def asked(self, node: LocalNode, head: bytes) -> tuple[bytes, bytes]:
        """The head and body of an HTTP answer."""
        place = f"{self.folder}/http"
        server = await asyncio.start_unix_server(
            partial(health.serve, partial(status_of, node.node)), place)
        reader, writer = await asyncio.open_unix_connection(place)
        writer.write(head)
        answer = await asyncio.wait_for(reader.read(), 10)
        writer.close()
        server.close()
        first, _, body = answer.partition(b"\r\n\r\n")
        return first, body

    async def test_health_tells_a_node_that_follows_from_others(self) -> None:
        node = await self.begun("a")
        # (as haproxy asks)
        head, body = await self.asked(node, b"OPTIONS /health HTTP/1.0\r\n\r\n")
        self.assertTrue(head.startswith(b"HTTP/1.1 200 OK"), head)
        self.assertEqual(body, b"follows\n")
        node.link.go_down()
        head, body = await self.asked(node, b"GET /health HTTP/1.1\r\nHost: x\r\n\r\n")
        self.assertTrue(head.startswith(b"HTTP/1.1 503 "), head)
        self.assertEqual(body, b"no log\n")

    async def test_metrics_are_lines_that_prometheus_reads(self) -> None:
        node = await self.begun("a", servers=2)
        await (await self.client(node)).store("c", value(1))
        _, body = await self.asked(node, b"GET /metrics?x HTTP/1.1\r\n\r\n")
        lines = body.decode().splitlines()
        figures = dict(it.rsplit(" ", 1) for it in lines if not it.startswith("#"))
        self.assertEqual(figures["xqs_node_follows"], "1")
        self.assertEqual(figures["xqs_node_place"], "1")
        self.assertEqual(sum(figures[f'xqs_node_state{{state="{it}"}}'] == "1" for it in STATES), 1)
        for name in ("end_offset", "lag_seconds", "copies", "snapshot_place"):
            self.assertIn(f"# TYPE xqs_node_{name} gauge", lines)
            float(figures[f"xqs_node_{name}"])

    async def test_what_is_no_request_for_them_is_refused(self) -> None:
        node = await self.begun("a")
        for head, number in ((b"GET /x HTTP/1.1\r\n\r\n", b"404"),
                             (b"POST /health HTTP/1.1\r\n\r\n", b"405")):
            self.assertIn(number, (await self.asked(node, head))[0])
        for head in (b"\r\n", b"x\r\n\r\n", b"GET / HTTP/1.1\r\n" + b"a: b\r\n" * 200):
            self.assertEqual(await self.asked(node, head), (b"", b""))
        with self.assertRaises(PlaceError):
            health.listener_at("nowhere")


class Questions(NodesTest):
    """`xqs node --status` and its like."""

    async def answered(self, *words: str) -> tuple[int, str]:
        """The exit status and output of a question."""
        out = io.StringIO()

        def ask() -> int:
            with contextlib.redirect_stdout(out), contextlib.redirect_stderr(out):
                return operating.answer(_parser().parse_args(words), None)

        return await asyncio.to_thread(ask), out.getvalue()

    async def test_status_is_shown_with_an_exit_status(self) -> None:
        node = await self.begun("a")
        folder = self.folder / "snapshots-a"
        server = await asyncio.start_unix_server(
            partial(control.serve, _actions(node.node)), str(control.control_path(folder)))
        number, text = await self.answered("--status", "--snapshots", str(folder))
        self.assertEqual((number, text.splitlines()[:2]), (0, ["node a", "  state: follows"]))
        number, text = await self.answered("--status", "--json", "--snapshots", str(folder))
        self.assertEqual(json.loads(text)["state"], "follows")
        with self.assertRaises(XqError) as raised:
            await self.answered("--skip", "7", "--snapshots", str(folder))
        self.assertIn("no server of this node has stepped aside at place 7", str(raised.exception))
        node.link.go_down()
        number, text = await self.answered("--status", "--snapshots", str(folder))
        self.assertEqual((number, "state: no log" in text), (1, True))
        server.close()

    async def test_what_is_missing_is_told(self) -> None:
        with self.assertRaises(ValueError):
            await self.answered("--status")
        with self.assertRaises(control.NotRunning):
            await self.answered("--status", "--snapshots", str(self.folder))

    def test_a_node_wants_its_place_and_brokers_behind_tls(self) -> None:
        said = io.StringIO()
        with contextlib.redirect_stderr(said), self.assertRaises(SystemExit):
            main(["--log", "amqp://127.0.0.1/docs"])
        self.assertIn("--listen", said.getvalue())
        with self.assertRaises(ValueError) as raised:
            main(["--log", "amqp://u:secret@m1/docs", "--listen", "unix:/nowhere/x"])
        self.assertIn("amqps://", str(raised.exception))
        self.assertNotIn("secret", str(raised.exception))


class Beginnings(NodesTest):
    """When a node takes clients."""

    async def test_one_that_comes_late_to_a_log_which_is_written_catches_up_first(self) -> None:
        first = await self.begun("a")
        client, over = await self.client(first), asyncio.Event()

        async def write() -> None:
            while not over.is_set():
                await client.store("total", COUNT_UP)
                await asyncio.sleep(0.03)

        for _ in range(100):
            await client.store("total", COUNT_UP)
        writing = asyncio.create_task(write())
        rounds = []
        late = self.made("b", command=planted("slow=total"))
        real = late.node._comes_back

        async def noted(mark: Pending) -> bool:
            begin = time.monotonic()
            found = await real(mark)
            rounds.append(time.monotonic() - begin)
            return found

        with mock.patch("xqs.cluster.node.NEAR", 0.5), \
                mock.patch.object(late.node, "_comes_back", noted):
            await late.start()
        over.set()
        await writing
        self.assertGreater(len(rounds), 1)
        self.assertLessEqual(rounds[-1], 0.5)
        self.assertGreater(rounds[0], 0.5)


class Copies(NodesTest):
    """How many brokers have the log."""

    async def test_a_copy_that_is_late_is_no_warning(self) -> None:
        self.log.copies = {"m1:5671": True, "m2:5671": False}
        with mock.patch("xqs.cluster.watches.COPIES", 0.1), \
                mock.patch("xqs.cluster.watches.SOON", 0.3):
            node = await self.begun("a")
            await self.until(lambda: status_of(node.node).brokers == 2)
            self.log.copies = {"m1:5671": True, "m2:5671": True}
            await self.until(lambda: status_of(node.node).copies == 2)
            self.assertFalse(node.has_said("no copy"), node.said)

    async def test_a_node_warns_until_all_have_a_copy(self) -> None:
        self.log.copies = {"m1:5671": True, "m2:5671": False, "m3:5671": None}
        with mock.patch("xqs.cluster.watches.COPIES", 0.1), \
                mock.patch("xqs.cluster.watches.SOON", 0.1):
            node = await self.begun("a")
            await self.until(lambda: node.has_said("1 of 3 brokers have no copy of the log: "
                                                   "m2:5671 (xqs node --copies)"))
            self.log.copies = {"m1:5671": True, "m2:5671": True, "m3:5671": True}
            await self.until(lambda: status_of(node.node).copies == 3)
            self.assertEqual(sum("no copy" in it for it in node.said), 1)


class Snapshots(NodesTest):
    """Snapshots that delay nobody."""

    async def test_writes_are_answered_while_one_is_taken(self) -> None:
        node = await self.begun("a", servers=2)
        client = await self.client(node)
        big = 'document {element a {text {string-join((1 to 100000) ! "0123456789")}}}'
        for number in range(6):
            await client.store(f"big{number}", big)
        written, stored = list[float](), list[tuple[float, float]]()
        real = snapshots.write

        def slow(server: Client, state: State, folder: Path) -> tuple[Path, int]:
            written.append(time.monotonic())
            time.sleep(0.5)
            found = real(server, state, folder)
            written.append(time.monotonic())
            return found

        with mock.patch.object(snapshots, "write", slow):
            taking = asyncio.create_task(node.node.take_snapshot())
            while not taking.done():
                begin = time.monotonic()
                await client.store("total", COUNT_UP)
                stored.append((begin, time.monotonic()))
        self.assertIn("documents of place", await taking)
        begin, end = written
        self.assertGreater(sum(begin < sent and back < end for sent, back in stored), 3)

    async def test_nodes_take_them_at_places_of_their_own(self) -> None:
        nodes = [await self.begun(name, every=20) for name in ("a", "b")]
        client = await self.client(nodes[0])
        for _ in range(45):
            await client.store("total", COUNT_UP)
        await self.until(lambda: all(self.places(it) for it in "ab"))
        self.assertNotEqual(*(watches.shift_of(name, 20) for name in "ab"))

    def places(self, name: str) -> list[Path]:
        """The snapshots of a node."""
        return sorted((self.folder / f"snapshots-{name}").glob("*.snapshot"))


if __name__ == "__main__":
    import unittest

    unittest.main()
