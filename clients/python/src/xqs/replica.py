"""One of several servers that carry the same writes: its process, and its queue of requests.

A server carries out one request after another, so a read sees what is before it in the queue. The
servers of a node and of `xqs mux` are such replicas.
"""

import asyncio
import collections
import dataclasses
from collections.abc import Awaitable, Callable, Sequence
from enum import Enum
from typing import Protocol

from xqs.mux_backend import Backend, Own, ServerEnded
from xqs.mux_peer import Request
from xqs.protocol import Kind, is_address

HELD = 0.05
"""A server that has worked on a request for longer, in seconds, gets no read behind it."""
BETWEEN_LOOKS = 0.01
"""Seconds between two checks whether a queue is empty."""
IN_PIPE = 8
"""How many requests of a queue are sent ahead; the others wait here."""
FEW = IN_PIPE // 2
"""When so few of them have no reply yet, more are sent, together."""
GATHERED = 0.002
"""How many seconds the copy of a write waits for others, with which it is sent."""


class State(Enum):
    """What a server can take."""

    DOWN = "down"
    """Nothing: it doesn't run."""
    FILLING = "filling"
    """Nothing: it doesn't hold all documents yet."""
    READY = "ready"
    """Reads, and copies of writes."""
    LEAVING = "leaving"
    """Only writes: it ends once its reads are answered."""


HOLDING = (State.READY, State.LEAVING)
"""The states in which a server holds all documents."""


@dataclasses.dataclass(eq=False, slots=True)
class Copy(Request):
    """A write that another server has carried out, in `seconds`; `expected` is that server's
    reply."""

    expected: bytes = b""
    took: float = 0.0


def address_of(payload: bytes) -> bytes:
    """The address of a store or drop; empty for other requests."""
    if payload[:1] == Kind.DROP:
        address = payload[1:]
    else:
        address = payload[2:2 + payload[1]] if len(payload) > 1 else b""
    return address if is_address(address) else b""


class Watcher(Protocol):
    """Code that must know which documents a server is told to change."""

    def changed(self, address: bytes) -> None:
        """A write to the address is in the queue from now on."""


class Replica:
    """A server and its queue.

    `on_reply` gets each reply with its request. `reads` counts the clients' reads in its queue,
    `fast_reads` those that were fast before, `restarts` how often a new process replaced one that
    ended. `why` is the reason why it must end, if known beforehand. It runs `command`; if that
    `is_new`, the server is compared with another one before it serves. `failure` is why it failed.
    """

    def __init__(self, number: int, on_reply: Callable[["Replica", Request, bytes], None]) -> None:
        self.number = number
        self.state = State.DOWN
        self.line: collections.deque[Request] = collections.deque()
        self.line_bytes = 0
        self.reads = self.fast_reads = 0
        self.restarts = 0
        self.began = self.opened = 0.0
        self.last_used = 0
        self.memory: int | None = None
        self.resident = 0
        self.why = ""
        self.left: Request | None = None
        self.command: Sequence[str] = ()
        self.is_new = False
        self.failure: Exception | None = None
        self.watchers: list[Watcher] = []
        self._on_reply = on_reply
        self._slow = 0
        self._backend: Backend | None = None
        self._later: asyncio.TimerHandle | None = None

    @property
    def name(self) -> str:
        """Its name in messages."""
        return f"server {self.number}"

    @property
    def backend(self) -> Backend:
        """The current process, or the last one."""
        assert self._backend is not None
        return self._backend

    @property
    def has_begun(self) -> bool:
        """Whether a process was started."""
        return self._backend is not None

    @property
    def runs(self) -> bool:
        """Whether its process runs, as far as is known."""
        return self._backend is not None and not self._backend.ended.is_set()

    @property
    def is_held(self) -> bool:
        """Whether it works on something that takes long, or has a store in its queue that took long
        elsewhere."""
        return bool(self._slow) or bool(
            self.backend.in_flight) and self.backend.worked() > HELD

    @property
    def waiting(self) -> int:
        """How many requests wait for their replies here."""
        return len(self.line) + (len(self._backend.in_flight) if self._backend else 0)

    @property
    def frames(self) -> int:
        """How many frames its process has been sent."""
        return self._backend.frames if self._backend else 0

    async def begin(self, command: Sequence[str], seconds: float | None,
                    memory: int | None) -> None:
        """Starts a process, which has its store open when this returns. Raises StartFailed."""
        begin = asyncio.get_running_loop().time()
        self.line.clear()
        self.line_bytes = self.reads = self.fast_reads = self.resident = self._slow = 0
        self.why, self.left, self.memory = "", None, memory
        self._backend = await Backend.start(command, self._take, seconds, memory)
        self.began = asyncio.get_running_loop().time()
        self.opened = self.began - begin

    def _take(self, request: Request, reply: bytes) -> None:
        if self._slow:
            self._slow -= isinstance(request, Copy) and request.took > HELD
        self._on_reply(self, request, reply)
        # (copies that wait for others are sent by their timer)
        if self.line and self._later is None and len(self.backend.in_flight) <= FEW:
            self._pump()

    def put(self, request: Request) -> None:
        """Puts a request at the end of the queue, and sends the queue on. If it holds copies of
        writes alone, they wait for others first."""
        self.line.append(request)
        self.line_bytes += len(request.payload)
        if self.watchers and request.changes() and (address := address_of(request.payload)):
            for watcher in self.watchers:
                watcher.changed(address)
        if not isinstance(request, Copy):
            self._pump()
            return
        self._slow += request.took > HELD
        if len(self.line) >= IN_PIPE:
            self._pump()
        elif len(self.line) == 1 and self._later is None:
            self._later = asyncio.get_running_loop().call_later(GATHERED, self._pump)

    def _pump(self) -> None:
        if self._later is not None:
            self._later.cancel()
            self._later = None
        backend = self.backend
        room = IN_PIPE - len(backend.in_flight)
        if room <= 0 or not self.line:
            return
        if len(self.line) <= room:
            sent = list(self.line)
            self.line.clear()
            self.line_bytes = 0
        else:
            sent = [self.line.popleft() for _ in range(room)]
            self.line_bytes -= sum(len(request.payload) for request in sent)
        backend.put(*sent)

    async def ask(self, payload: bytes) -> bytes:
        """The status and text of the reply to a request of this program. Raises ServerEnded."""
        return await self.asked(payload).done

    def of_this_process(self) -> Callable[[bytes], Awaitable[bytes]]:
        """Like `ask`, but never asks another process that has replaced this one."""
        backend = self.backend

        async def ask(payload: bytes) -> bytes:
            if backend is not self._backend:
                raise ServerEnded(f"{self.name} has ended")
            return await self.ask(payload)

        return ask

    def asked(self, payload: bytes) -> Own:
        """Puts a request of this program into the queue. Raises ServerEnded."""
        request = Own(None, 0, payload)
        self.put_own(request)
        return request

    def put_own(self, request: Own) -> None:
        """Puts a request of this program at the end of the queue. Raises ServerEnded."""
        if not self.runs:
            raise ServerEnded(f"{self.name} has ended")
        self.put(request)

    def take_all(self) -> list[Request]:
        """The requests without a reply of a process that has ended, in order; the queue is empty
        then. This program's own requests get an error."""
        found = [*self.backend.in_flight, *self.line]
        self.backend.in_flight.clear()
        self.line.clear()
        self.line_bytes = self.reads = self.fast_reads = self._slow = 0
        for request in found:
            if isinstance(request, Own):
                request.fail()
        return found

    async def finish(self) -> None:
        """Ends the process in order, once it has answered its whole queue."""
        while self.line and self.runs:
            await asyncio.sleep(BETWEEN_LOOKS)
        await self.backend.finish()

    def kill(self, why: str) -> None:
        """Ends the process at once."""
        self.why = self.why or why
        if self._backend is not None:
            self._backend.kill()
