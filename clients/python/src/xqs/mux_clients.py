"""The clients of a multiplexer or a node: their connections, frames and limits."""

import asyncio
import dataclasses
import time
from collections.abc import Awaitable, Callable

from xqs import protocol
from xqs.bounds import SECONDS, half_of_memory
from xqs.metrics import Metrics
from xqs.mux_peer import Peer, Request, refusal
from xqs.protocol import Kind
from xqs.starting import KEPT

READ_ONLY = refusal("xqs:READONLY")


@dataclasses.dataclass(frozen=True)
class Settings:
    """The limits of a multiplexer.

    Counts: `clients` connections at once; `window` frames of all clients, and `client_window` of
    one, that wait for their replies; `frames` that a server answers before it is started again.
    Bytes: `unread` of one client's replies, above which its next frame waits; `held` of all
    clients' replies, above which the client with most of them is cut off; `memory` of all servers
    (None: any). Seconds: `stall`, after which a client that reads nothing of its replies is cut
    off; `seconds`, after which a server that still works on one request is ended (None: never).
    With `read_only` nothing can be stored or dropped.

    `servers` servers hold the same documents, and together use `kept` megabytes for what queries
    have read (0: as much as each would by itself). While the first server is started again, `line`
    stores and drops may wait for it, each for `line_seconds`. One in `compare` reads is sent to all
    servers (0: none). A request that takes `slow` seconds is logged.
    """

    clients: int = 200
    window: int = 16
    client_window: int = 8
    frames: int = protocol.FRAME_LIMIT - 1000
    unread: int = 1 << 20
    held: int = 512 << 20
    stall: float = 60.0
    seconds: float | None = SECONDS
    memory: int | None = dataclasses.field(default_factory=half_of_memory)
    read_only: bool = False
    servers: int = 1
    kept: int = KEPT
    line: int = 1_000
    line_seconds: float = 60.0
    compare: int = 10_000
    slow: float = 1.0


class Clients:
    """Takes the frames of all clients, and passes each to `handle`, those of one client in order.

    `handle` returns once the client's next frame may follow. Its reply goes to the request's peer.
    Invalid frames are refused here, and changes too with `read_only`. `say` gets each line for the
    operator.
    """

    def __init__(self, settings: Settings, say: Callable[[str], None],
                 handle: Callable[[Request], Awaitable[None]]) -> None:
        self._settings = settings
        self._say = say
        self._handle = handle
        self._peers: dict[Peer, asyncio.Task[None]] = {}
        self._stopping = False
        self.metrics = Metrics(settings.slow, say)

    def __len__(self) -> int:
        """The number of connected clients."""
        return len(self._peers)

    async def serve(self, reader: asyncio.StreamReader, writer: asyncio.StreamWriter) -> None:
        """Serves one connection until it ends; `asyncio.start_server` calls this."""
        if self._stopping or len(self._peers) >= self._settings.clients:
            if not self._stopping:
                self._say(f"one client more than {self._settings.clients}: it is turned away")
            writer.close()
            return
        peer = Peer(reader, writer, self._settings.client_window, self._settings.unread,
                    self.metrics.note)
        task = asyncio.current_task()
        assert task is not None
        self._peers[peer] = task
        try:
            await self._take_frames(peer)
        except (asyncio.CancelledError, OSError):
            pass
        try:
            await peer.finish()
        finally:
            del self._peers[peer]

    async def _take_frames(self, peer: Peer) -> None:
        while not self._stopping and (request := await peer.next_request()):
            await peer.expect(request)
            if request.reply is None:
                if refused := self._refusal(request):
                    peer.answer(request, refused)
                else:
                    await self._handle(request)

    def _refusal(self, request: Request) -> bytes | None:
        if not self._settings.read_only or request.kind in (Kind.QUERY, Kind.LIST):
            return None
        return READ_ONLY if request.changes() else refusal("prof:FRAME")

    async def watch_unread(self) -> None:
        """Cuts off clients that read nothing of their replies, or have too many of them."""
        taken: dict[Peer, tuple[int, float]] = {}
        while True:
            await asyncio.sleep(min(1.0, self._settings.stall / 4))
            now = time.monotonic()
            taken = {peer: self._progress(peer, taken.get(peer), now) for peer in self._peers}
            self._cut_stalled({peer: now - since for peer, (_, since) in taken.items()})
            self.cut_largest()

    @staticmethod
    def _progress(peer: Peer, before: tuple[int, float] | None, now: float) -> tuple[int, float]:
        taken = peer.taken()
        if before is None or taken != before[0] or not peer.unread():
            return taken, now
        return before

    def _cut_stalled(self, waited: dict[Peer, float]) -> None:
        for peer in waited:
            if waited[peer] > self._settings.stall:
                self._say("a client that reads nothing is cut off")
                peer.cut()

    def cut_largest(self) -> None:
        """Cuts off the clients with most unread replies, while all together have too many."""
        unread = {peer: peer.unread() for peer in self._peers}
        while unread and sum(unread.values()) > self._settings.held:
            largest = max(unread, key=lambda peer: unread[peer])
            self._say(f"replies of over {self._settings.held} bytes are unread: the client with "
                      f"{unread.pop(largest)} of them is cut off")
            largest.cut()

    def refuse_new(self) -> None:
        """Takes no new client and reads no more frames."""
        self._stopping = True

    def end_all(self) -> None:
        """Ends each connection once its finished replies have left."""
        for peer in list(self._peers):
            peer.end()

    def cut_all(self) -> None:
        """Ends each connection at once, and takes no new client."""
        self._stopping = True
        for peer in list(self._peers):
            peer.cut()

    async def drain(self) -> None:
        """Waits until the frames that were read have their replies; reads no others."""
        self._stopping = True
        self._dismiss_idle()
        while self._peers:
            await asyncio.wait(list(self._peers.values()))

    def _dismiss_idle(self) -> None:
        """Wakes the tasks that wait for a client's next frame."""
        for peer, task in self._peers.items():
            if peer.waits_for_frame:
                task.cancel()
