"""Periodic checks while several servers run: which one was stopped, works for a client that has
gone, waits for too long, or nears a limit."""

import asyncio
import time
from typing import TYPE_CHECKING

from xqs.bounds import shown_size
from xqs.mux_backend import ServerEnded
from xqs.mux_clients import Settings
from xqs.mux_peer import WANTING_STORE
from xqs.protocol import Kind
from xqs.replica import HOLDING, Replica, State
from xqs.replicas import NO_ROOM, STOPPED
from xqs.waiting import cancelled
from xqs.watching import Stopped, is_large, resident

if TYPE_CHECKING:
    from xqs.mux_many import ManyServers

LOOK = 0.25
"""Seconds between two checks of the servers."""
LEAST_PATIENCE = 0.25
"""The least number of seconds that a server goes on with a query whose client has gone. It is more
if the server's last start took longer, since another start takes as long."""
LOOK_AGAIN = 1.0
"""The least number of seconds between two checks whether a server's database has shut."""
LEAST_LIFE = 600.0
"""The number of seconds that a server runs before it may be replaced because of its memory."""
SPARE = 20
"""How early servers are replaced before their limit of frames: the last one by a twentieth of
it."""


class Looks:
    """Checks the servers, and has them replaced when needed."""

    def __init__(self, servers: "ManyServers", settings: Settings) -> None:
        self._servers, self._settings = servers, settings
        self._replicas = servers.replicas
        self._looked: dict[Replica, float] = {}
        self._stopped = Stopped()
        self._tasks: set[asyncio.Task[None]] = set()
        self._leaves: asyncio.Task[bool] | None = None

    async def stop(self) -> None:
        """Ends the checks."""
        await cancelled(*self._tasks, *([self._leaves] if self._leaves else []))

    def look_whether_shut(self, replica: Replica) -> None:
        """Asks a server for its addresses: if the reply is `store` too, its database has shut."""
        now = time.monotonic()
        if now - self._looked.get(replica, 0.0) >= LOOK_AGAIN:
            self._looked[replica] = now
            look = asyncio.create_task(self._end_if_shut(replica))
            self._tasks.add(look)
            look.add_done_callback(self._tasks.discard)

    async def _end_if_shut(self, replica: Replica) -> None:
        try:
            if await replica.ask(Kind.LIST.value) == WANTING_STORE:
                self._servers.drop_out(replica, "the database has shut")
        except ServerEnded:
            pass

    async def watch(self) -> None:
        """Checks the servers and the queues."""
        while True:
            await asyncio.sleep(LOOK)
            self._look_at_memory()
            self._replicas.forget_gone()
            self._end_for_nobody()
            self._end_stopped()
            self._refuse_late()
            self._replace_due()

    def _look_at_memory(self) -> None:
        for replica in self._replicas.all:
            if replica.runs:
                replica.resident = resident(replica.backend.process.pid) or replica.resident

    def _end_for_nobody(self) -> None:
        """Ends a server that works on a query whose client has gone, if no documents are lost by
        that."""
        for replica in self._replicas.ready():
            others = self._replicas.holding(replica)
            keeps = self._servers.has_file(replica) or others or not self._servers.addresses
            front = replica.backend.in_flight[0] if replica.backend.in_flight else None
            patience = max(LEAST_PATIENCE, replica.opened)
            if keeps and replica.backend.leave_for_nobody(patience):
                replica.left = front
                replica.why = "the client of its query has gone"

    def _end_stopped(self) -> None:
        """Ends servers that were stopped as processes, if no documents are lost by that."""
        for replica in self._stopped.look(self._replicas.all):
            holds = replica.state in HOLDING and not self._servers.has_file(replica)
            if not holds or self._replicas.holding(replica):
                replica.kill("its process was stopped")

    def _refuse_late(self) -> None:
        if self._replicas.differs:
            self._replicas.refuse_writes(STOPPED)
        elif self._replicas.first.state is not State.READY:
            before = time.monotonic() - self._settings.line_seconds
            if count := self._replicas.refuse_writes(NO_ROOM, before):
                self._servers.note(f"{count} stores or drops waited for over "
                                   f"{self._settings.line_seconds:g} seconds: they are refused")

    def _replace_due(self) -> None:
        """Replaces a server that is near its limit of frames or memory."""
        if self._servers.leaving.locked() or self._leaves and not self._leaves.done():
            return
        for replica in self._replicas.ready():
            if why := self._why_due(replica):
                self._leaves = asyncio.create_task(self._servers.leave(replica, why))
                return

    def _why_due(self, replica: Replica) -> str:
        limit = self._settings.frames * (SPARE - replica.number) // SPARE
        if replica.backend.frames >= limit:
            return f"after {replica.backend.frames} frames"
        if (not replica.waiting and time.monotonic() - replica.began > LEAST_LIFE
                and is_large(replica.backend.process.pid, replica.memory)):
            return f"its memory is nearly {shown_size(replica.memory or 0)}"
        return ""
