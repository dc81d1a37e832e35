"""Servers that carry the same writes: all writes in one order, and each read at a free server.

A write goes to the first server alone. Once that has carried it out, it joins the queue of each
other server, and only then its client gets the reply. A write that the first server refused is no
change, and goes nowhere else. A read goes behind all these writes, and to the first server only if
that has no write under way. So it sees exactly the writes that were answered before a server got
it, whichever server that is, and later reads never see fewer.

The frames of one client have the effect of their order: its reads wait for the writes before them,
its writes for the reads.
"""

import asyncio
import collections
import time
from collections.abc import AsyncIterator, Callable, Sequence
from contextlib import asynccontextmanager

from xqs.changes import Changes
from xqs.mux_backend import Own
from xqs.mux_clients import Settings
from xqs.mux_peer import WANTING_STORE, Peer, Request
from xqs.protocol import Status
from xqs.reading import Reading, settled
from xqs.replica import HOLDING, Copy, Replica, State, address_of

NO_ROOM = bytes([Status.WANTING]) + b"xqs:LINE"
"""Too many writes wait in the queue, or one has waited too long; nothing has changed."""
STOPPED = bytes([Status.WANTING]) + b"xqs:DIFFER"
"""Servers gave different replies: nothing is written any more."""
PATIENCE = 0.05
"""How many seconds a read waits for the other servers before writes leave it the first one."""
LINE_BYTES = 256 << 20
"""How many bytes a server's queue may hold; above that writes wait."""
WAITING_BYTES = 64 << 20
"""How many bytes of writes may wait for the first server."""


class Replicas(Reading):
    """The servers in order, their queues, and the order of the writes.

    `first` is the server that carries out writes before the others. `place` is the number of writes
    carried out. `doubtful` is a write that the first server may have carried out or not; nothing
    else is written until that is known. `on_differ` gets different answers of two servers,
    `on_unfit` a server that could not carry out a copy, `on_change` each write that was carried
    out.
    """

    on_unfit: Callable[[Replica, str], None] = staticmethod(lambda replica, why: None)
    on_differ: Callable[[bytes, Sequence[tuple[str, bytes]]], None]
    on_change: Callable[[Request], None] = staticmethod(lambda request: None)

    def __init__(self, settings: Settings, on_file: bool) -> None:
        super().__init__(settings.unread)
        self._settings = settings
        self.on_file = on_file
        self.all = [Replica(number + 1, self.on_reply) for number in range(settings.servers)]
        self.first = self.all[0]
        self.place = 0
        self.changes = Changes()
        self.doubtful: Request | None = None
        self.differs = ""
        self.writes: collections.deque[Request] = collections.deque()
        self._writes_bytes = 0
        self._under_way = 0
        self._holds = 0
        self._quiet = asyncio.Event()
        self._quiet.set()

    def holding(self, but: Replica | None = None) -> list[Replica]:
        """The servers that hold all documents, except one of them."""
        return [it for it in self.all
                if it is not but and it.runs and it.state in HOLDING]

    def ready(self) -> list[Replica]:
        """The servers that take reads."""
        return [it for it in self.all if it.state is State.READY and it.runs]

    async def handle(self, request: Request) -> None:
        """Takes a frame of a client, in the order of its frames; returns once the next one may be
        taken."""
        peer = request.peer
        assert peer is not None
        if request.changes():
            await peer.until_read()
            self._line_up(peer, request)
        else:
            await peer.until_written()
            await self.hand_over(request)

    def _line_up(self, peer: Peer, request: Request) -> None:
        peer.writes += 1
        if self.differs:
            self.answer(request, STOPPED)
        elif (len(self.writes) >= self._settings.line
              or self._writes_bytes + len(request.payload) > WAITING_BYTES):
            self.answer(request, NO_ROOM)
        else:
            self.writes.append(request)
            self._writes_bytes += len(request.payload)
            self.pump()

    def pump(self) -> None:
        """Sends the first server as many of the waiting writes as it takes."""
        first = self.first
        while self.writes and self._can_write(first):
            request = self.writes.popleft()
            self._writes_bytes -= len(request.payload)
            if request.peer is None or request.peer.gone:
                settled(request)
                continue
            self._under_way += 1
            self._quiet.clear()
            request.sent = time.monotonic()
            first.put(request)

    def _can_write(self, first: Replica) -> bool:
        return (not self._holds and first.state in HOLDING and first.runs
                and first.waiting < self._settings.window and not self._wants_first()
                and self._others_have_room(first))

    def _others_have_room(self, first: Replica) -> bool:
        for replica in self.all:
            if replica.line_bytes >= LINE_BYTES and replica is not first:
                return False
        return True

    def _wants_first(self) -> bool:
        """Whether a read waits for the first server, so that the writes leave it a turn: if no
        other server takes reads, or if it has waited long."""
        if not self.waiting:
            return False
        ready, turn = self.ready(), self.waiting[0]
        if len(ready) <= 1:
            return True
        if time.monotonic() - turn.since < PATIENCE or any(
                not it.reads for it in ready if it is not self.first):
            return False
        return not (self.is_slow(turn.request)
                    or self.has_its_share(turn.request, turn.given is not None, len(ready)))

    def is_open(self, replica: Replica) -> bool:
        """Whether no write is under way at the server that must carry it out before the others."""
        return replica is not self.first or replica.waiting == replica.reads

    def may_read(self, replica: Replica, request: Request, count: int) -> bool:
        """Whether a server can take the read: the first server only if no write would wait long for
        the read, as far as that is known."""
        if replica is not self.first:
            return not replica.is_held
        has_turn = not self.writes or bool(self._holds) or self._wants_first()
        return has_turn and not (count > 1 and self.is_slow(request))

    def is_kept_back(self, replica: Replica) -> bool:
        """Whether it is the first server, which writes wait for."""
        return replica is self.first

    def place_of(self, replica: Replica) -> int:
        """The number of writes carried out: they are in the queues of all servers."""
        return self.place

    def on_reply(self, replica: Replica, request: Request, reply: bytes) -> None:
        """Takes a server's reply to a request."""
        if isinstance(request, Copy):
            self._copied(replica, request, reply)
        elif isinstance(request, Own):
            pass
        elif request.changes():
            self._written(replica, request, reply)
        else:
            self.take_reply(replica, request, reply)
        if self.writes:
            self.pump()
        if self.waiting:
            self.dispatch()

    def _written(self, replica: Replica, request: Request, reply: bytes) -> None:
        self._end_write()
        if reply[0] == Status.DONE:
            self.doubtful = None
            self.spread(request.payload, reply)
            self.on_change(request)
        elif reply == WANTING_STORE:
            self.doubtful = request
            self.on_wanting(replica)
        self.answer(request, reply)

    def _end_write(self) -> None:
        self._under_way -= 1
        if not self._under_way:
            self._quiet.set()

    def spread(self, payload: bytes, reply: bytes) -> None:
        """Passes a write that the first server carried out to all others."""
        self.place += 1
        self.changes.note(address_of(payload))
        copy = Copy(None, 0, payload, expected=reply, took=self.first.backend.last_work)
        for replica in self.all:
            if replica is not self.first and replica.state in HOLDING:
                replica.put(copy)

    def _copied(self, replica: Replica, request: Copy, reply: bytes) -> None:
        if reply == request.expected:
            return
        if reply[0] == Status.WANTING:
            self.on_unfit(replica, f"it could not carry out a write ({reply[1:].decode()})")
        elif request.expected or reply[0] != Status.DONE:
            self.on_differ(request.payload, [(self.first.name, request.expected),
                                             (replica.name, reply)])
            self.on_unfit(replica, "it answered a write differently")

    @asynccontextmanager
    async def still(self) -> AsyncIterator[None]:
        """A context in which nothing is written: each write was carried out and is in all queues,
        or waits."""
        self._holds += 1
        try:
            await self._quiet.wait()
            yield
        finally:
            self._holds -= 1
            self.pump()

    def refuse_writes(self, reply: bytes, before: float = float("inf")) -> int:
        """Refuses the waiting writes that came before a time. Returns their number."""
        late = [it for it in self.writes if it.since < before]
        for request in late:
            self.writes.remove(request)
            self._writes_bytes -= len(request.payload)
            self.answer(request, reply)
        return len(late)

    def put_back(self, request: Request) -> None:
        """Passes on a request in the queue of a server that ended before it began it."""
        if not request.changes():
            super().put_back(request)
            return
        self._end_write()
        self.writes.appendleft(request)
        self._writes_bytes += len(request.payload)

    def settle_front(self, replica: Replica, front: Request, reply: bytes | None) -> None:
        """Settles the request that a server worked on when it ended."""
        if not front.changes():
            super().settle_front(replica, front, reply)
            return
        self._end_write()
        self._settle_write(replica, front, reply)

    def _settle_write(self, replica: Replica, front: Request, reply: bytes | None) -> None:
        """Settles the write that the first server worked on. In a file it may be carried out, so
        its client's stream ends. In memory it is lost with that server, and no other server has
        it."""
        if self.on_file:
            self.doubtful = front
            settled(front)
            if front.peer:
                front.peer.end()
        elif reply is not None or front.repeated:
            self.answer(front, reply or WANTING_STORE)
        else:
            front.repeated = True
            self.writes.appendleft(front)
            self._writes_bytes += len(front.payload)

    def lose(self) -> None:
        """All documents are lost and each client's stream ends, so drops what waits."""
        self.place += 1
        self.changes.begin_anew()
        self.doubtful = None
