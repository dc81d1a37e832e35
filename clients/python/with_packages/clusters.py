"""Nodes as processes over running brokers, and writers and readers at them."""

import asyncio
import os
import random
import signal
import time
from collections.abc import Sequence
from contextlib import suppress
from pathlib import Path

from brokers import Brokers
from tests.histories import History, Read, Write, number_of
from tests.serving import Running
from tests.support import server_command
from xqs import aio
from xqs.aio import AsyncClient
from xqs.cluster import control
from xqs.cluster.steps import VARIABLE
from xqs.errors import Closed, Refused, Wanting, XqError

BEGINNING = 120.0
"""Seconds for a node to begin or to end, on a busy machine."""
SHARED = "total"
COUNT_UP = ('document {element n {(if (doc-available("total")) '
            'then xs:integer(string(doc("total")/n)) else 0) + 1}}')


def value(number: int) -> str:
    """A document that holds a number."""
    return f'document {{element c {{text {{"{number}"}}}}}}'


class RunningNode(Running):
    """A node, which keeps its name, its place and its folders when it is restarted."""

    def __init__(self, name: str, brokers: Brokers, log: str, folder: Path, *options: str,
                 first: int = 0, command: Sequence[str] = (),
                 account: str = "guest:guest") -> None:
        self.name = name
        self.place = f"unix:{folder}/{name}.sock"
        self.snapshots = folder / f"snapshots-{name}"
        self.snapshots.mkdir(exist_ok=True)
        self._folder = folder
        self._words = [
            "node", "--log", brokers.address(log, first, account), "--listen", self.place,
            "--name", name, "--snapshots", str(self.snapshots), *options, "--",
            *(command or server_command())]
        self.lives = 0

    def begin(self, end_at: str = "", is_awaited: bool = True) -> None:
        """Starts it; `end_at` is the step at which it ends as if it were killed."""
        self.lives += 1
        environment = {VARIABLE: end_at} if end_at else {}
        self.run(self._words, self._folder / f"{self.name}-{self.lives}.said", environment)
        if is_awaited:
            self.wait_until_it_listens()

    def wait_until_it_listens(self) -> None:
        """Waits until it follows the log; the error says how far it has come."""
        try:
            self.wait_for("listens at ", BEGINNING)
        except AssertionError as error:
            states = []
            for _ in range(2):
                with suppress(XqError, OSError):
                    states.append(control.ask(self.snapshots, "status")[1])
                time.sleep(1)
            load = f"the load is {os.getloadavg()[0]:.0f}"
            raise AssertionError(f"{error}; {load}; {states}") from error

    async def wait(self) -> None:
        """Like `wait_until_it_listens`, for asyncio."""
        await asyncio.to_thread(self.wait_until_it_listens)

    def kill(self) -> None:
        """Ends it at once, and then its servers, whose streams have ended."""
        servers = self.server_ids()
        self.process.kill()
        self.process.wait()
        for server in servers:
            with suppress(ProcessLookupError):
                os.kill(server, signal.SIGKILL)

    async def connect(self) -> AsyncClient:
        """A client of it; waits if it does not run now. Raises TimeoutError."""
        async with asyncio.timeout(BEGINNING):
            while True:
                with suppress(OSError):
                    return await aio.connect(self.place)
                await asyncio.sleep(0.1)

    async def store(self, address: str, query: str) -> None:
        """Stores a document, and again if the stream ends before the reply, as when a server of the
        node has ended: storing twice has the same effect. Raises TimeoutError."""
        async with asyncio.timeout(BEGINNING):
            while True:
                with suppress(Closed, OSError):
                    async with await self.connect() as client:
                        await client.store(address, query)
                    return
                await asyncio.sleep(0.1)

    async def documents(self) -> dict[bytes, bytes]:
        """All its documents."""
        async with await self.connect() as client:
            return {it.encode(): (await client.query_text(f'doc("{it}")')).encode()
                    for it in await client.list()}

    async def snapshot(self, request: str = "snapshot") -> str:
        """The answer to a request for a snapshot."""
        return (await asyncio.to_thread(control.ask, self.snapshots, request))[1]


class Writer:
    """A client of a node that increments a document of its own and a shared one, and reads.

    After a write without a reply it goes on with another document: the outcome for the first is
    unknown.
    """

    def __init__(self, node: RunningNode, number: int, history: History,
                 others: Sequence["Writer"] = ()) -> None:
        self.name = f"{node.name}-{number}"
        self.others: Sequence[Writer] = others
        self.faults: list[str] = []
        self.address = f"c/{self.name}/1"
        self._generation = 1
        self._node = node
        self._history = history
        self._value = 0
        self._chance = random.Random(f"{self.name}")

    async def work(self, until: float, is_fresh: bool = False) -> None:
        """Writes and reads until that time."""
        while time.monotonic() < until and not self.faults:
            client = await self._node.connect()
            try:
                while time.monotonic() < until:
                    await asyncio.wait_for(self._step(client, is_fresh), 60)
            except (Closed, TimeoutError, OSError):
                pass
            except XqError as error:
                self.faults.append(f"{self.name}: {error}")
            finally:
                with suppress(OSError, XqError, TimeoutError):
                    await asyncio.wait_for(client.close(), 5)

    async def _step(self, client: AsyncClient, is_fresh: bool) -> None:
        choice = self._chance.randrange(10)
        if choice < 5:
            await self._store(client)
        elif choice < 7:
            await self._count_up(client)
        elif choice < 8:
            with suppress(Refused, Wanting):
                await client.drop(f"gone{self._chance.randrange(5)}")
            with suppress(Wanting):
                await client.store(f"gone{self._chance.randrange(5)}", value(1))
        else:
            await self._read(client, is_fresh)

    async def _store(self, client: AsyncClient) -> None:
        sent, number, address = time.monotonic(), self._value + 1, self.address.encode()
        try:
            replaced = await client.store(self.address, value(number))
        except Wanting:
            return
        except (Closed, OSError, asyncio.CancelledError):
            self._history.write(self.name, Write(address, number, sent, time.monotonic(), False))
            self._generation += 1
            self._value, self.address = 0, f"c/{self.name}/{self._generation}"
            raise
        self._value = number
        told = b"replaced" if replaced else b"stored"
        self._history.write(self.name, Write(address, number, sent, time.monotonic(), True, told))

    async def _count_up(self, client: AsyncClient) -> None:
        try:
            await client.store(SHARED, COUNT_UP)
        except Wanting:
            return
        except (Closed, OSError, asyncio.CancelledError):
            self._history.count(False)
            raise
        self._history.count(True)

    async def _read(self, client: AsyncClient, is_fresh: bool) -> None:
        """Reads its own document, or with fresh reads anybody's."""
        of = self._chance.choice(self.others or [self]) if is_fresh else self
        sent, address = time.monotonic(), of.address
        query = f'for $a in "{address}" where doc-available($a) return string(doc($a))'
        try:
            text = await client.query_text(query)
        except Wanting:
            return
        self._history.reads.append(Read(address.encode(), number_of(text.encode()), sent,
                                        time.monotonic(), self.name, is_fresh))


class Watcher:
    """A client of a node that reads the shared document again and again, sometimes several times
    ahead: no read may see less than one before it, even after the node is restarted."""

    def __init__(self, node: RunningNode) -> None:
        self.faults: list[str] = []
        self.count = 0
        self._chance = random.Random(f"watcher {node.name}")
        self._node = node
        self._last = 0

    async def work(self, until: float) -> None:
        """Reads until that time."""
        while time.monotonic() < until:
            with suppress(Closed, OSError, TimeoutError, Refused, Wanting):
                async with await self._node.connect() as client:
                    while time.monotonic() < until:
                        await asyncio.wait_for(self._step(client), 60)
                        await asyncio.sleep(0.01)
            await asyncio.sleep(0.1)

    async def _step(self, client: AsyncClient) -> None:
        query = f'if (doc-available("{SHARED}")) then string(doc("{SHARED}")/n) else "0"'
        asked = [client.query_text(query) for _ in range(self._chance.randrange(1, 4))]
        for text in await asyncio.gather(*asked, return_exceptions=True):
            if isinstance(text, BaseException):
                raise text
            value_now = number_of(text.encode())
            self.count += 1
            if value_now < self._last:
                self.faults.append(f"{self._node.name}: {value_now} was read after {self._last}")
            self._last = max(self._last, value_now)


async def follows_again(node: RunningNode, since: float, seconds: float) -> float | None:
    """Seconds from a time to the first store after it that a node answers; None if it answers none
    within `seconds` from now."""
    end = time.monotonic() + seconds
    while time.monotonic() < end:
        with suppress(XqError, OSError, TimeoutError):
            async with asyncio.timeout_at(asyncio.get_running_loop().time() + seconds):
                async with await aio.connect(node.place) as client:
                    await client.store(f"seen/{node.name}", value(1))
                return time.monotonic() - since
        await asyncio.sleep(0.1)
    return None


async def all_taken(nodes: Sequence[RunningNode]) -> None:
    """Waits until each node has carried out all that the log held when this was called.

    A write of each node, answered by that node, comes after all that is in the log already; those
    of the others come within the time of a further write.
    """
    for turn in range(2):
        for node in nodes:
            await node.store("end", value(turn))
