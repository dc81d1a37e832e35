"""Nodes in this process over a log in memory, and helpers for tests of them."""

import asyncio
import shutil
import sys
import tempfile
import unittest
from pathlib import Path
from typing import Any
from unittest import mock

from tests.memory_log import MemoryLink, MemoryLog
from tests.support import server_command
from xqs import aio
from xqs.aio import AsyncClient
from xqs.cluster.node import Node, Options
from xqs.errors import Unknown
from xqs.mux_clients import Settings

PROGRAM = "commit 1"
PLANTED = Path(__file__).resolve().parent / "planted_server.py"
COUNT_UP = ('document {element n {(if (doc-available("total")) '
            'then xs:integer(string(doc("total")/n)) else 0) + 1}}')


def planted(*plan: str) -> list[str]:
    """The command of a server with faults."""
    return [sys.executable, str(PLANTED), *plan, "--", *server_command()]


class LocalNode:
    """A node, with a socket for clients, and its messages."""

    def __init__(self, options: Options, link: MemoryLink, folder: Path) -> None:
        self.said: list[str] = []
        self.link = link
        self.node = Node(options, link, Settings(client_window=64), self.said.append)
        link.came_up = self.node.outbox.send_again
        self.place = f"unix:{folder}/{options.name}-{id(self)}"
        self._server: asyncio.Server | None = None
        self.is_over = False

    async def start(self) -> None:
        """Begins, and takes clients."""
        await asyncio.wait_for(self.node.start(), 30)
        path = self.place.removeprefix("unix:")
        self._server = await asyncio.start_unix_server(self.node.serve, path)

    async def connect(self) -> AsyncClient:
        """A client of it."""
        return await aio.connect(self.place)

    async def stop(self) -> None:
        """Ends it in order."""
        await self._over()
        await asyncio.wait_for(self.node.stop(), 30)

    async def kill(self) -> None:
        """Ends it at once, and its servers too."""
        await self._over()
        await self.node.abandon()

    async def _over(self) -> None:
        self.is_over = True
        if self._server:
            self._server.close()

    def has_said(self, words: str) -> bool:
        """Whether its messages have these words."""
        return any(words in line for line in self.said)


class NodesTest(unittest.IsolatedAsyncioTestCase):
    """Tests with a log in memory, `self.log`, and nodes over it."""

    async def asyncSetUp(self) -> None:
        asyncio.get_running_loop().set_debug(False)
        self.folder = Path(tempfile.mkdtemp(prefix="xqs-nodes-"))
        self.log = MemoryLog()
        # (in one process a node soon hears that its name is taken)
        claim = mock.patch("xqs.cluster.node.CLAIM", 0.02)
        claim.start()
        self.addCleanup(claim.stop)
        self.nodes: list[LocalNode] = []
        self.clients: list[AsyncClient] = []

    async def asyncTearDown(self) -> None:
        for client in self.clients:
            await client.close()
        for node in self.nodes:
            if not node.is_over:
                await node.kill()
        await asyncio.sleep(0.05)
        shutil.rmtree(self.folder)

    def made(self, name: str, **options: Any) -> LocalNode:
        """A node that has not begun; its folder of snapshots has its name."""
        folder = self.folder / f"snapshots-{name}"
        folder.mkdir(exist_ok=True)
        given: dict[str, Any] = {
            "command": server_command(), "program": PROGRAM, "snapshots": folder, **options}
        node = LocalNode(Options(name, **given), self.log.link(), self.folder)
        self.nodes.append(node)
        return node

    async def begun(self, name: str, **options: Any) -> LocalNode:
        """A node that has begun."""
        node = self.made(name, **options)
        await node.start()
        return node

    async def client(self, node: LocalNode) -> AsyncClient:
        """A client that ends with the test."""
        client = await node.connect()
        self.clients.append(client)
        return client

    async def documents(self, node: LocalNode) -> dict[str, str]:
        """All documents of a node, once it has taken all that the log holds."""
        await node.node.outbox.mark().done
        client = await self.client(node)
        return {it: await client.query_text(f'doc("{it}")') for it in await client.list()}

    async def until(self, holds: Any, seconds: float = 20.0) -> None:
        """Waits until something holds."""
        async with asyncio.timeout(seconds):
            while not holds():
                await asyncio.sleep(0.01)

    async def gone(self, client: AsyncClient, address: str) -> None:
        """Checks that a store is not answered, and that its client's stream ends."""
        with self.assertRaises(Unknown):
            await asyncio.wait_for(client.store(address, "document {}"), 20)
