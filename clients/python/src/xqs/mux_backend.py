"""One process of the server below the multiplexer, from its start to its end."""

import asyncio
import collections
import contextlib
import dataclasses
import os
import signal
import time
from asyncio.subprocess import PIPE, SubprocessStreamProtocol
from collections.abc import Callable, Iterator, Sequence

from xqs import protocol
from xqs.errors import XqError
from xqs.in_use import ended_at_start
from xqs.mux_peer import Request
from xqs.starting import how_ended, kept
from xqs.streams import PIECE
from xqs.waiting import first_set

PROBE = b"Q()"
"""The kind and body of the first frame: when the server answers it, it has opened its store."""

BLAMELESS = 0.25
"""If a server ends within this many seconds of work on a query, the query is not the cause."""


class ServerEnded(XqError):
    """The server ended before its reply."""


def _leave(piece: bytes) -> None:
    """Takes nothing."""


def _future() -> "asyncio.Future[bytes]":
    """A future whose failure nobody has to look at."""
    future: asyncio.Future[bytes] = asyncio.get_running_loop().create_future()
    future.add_done_callback(lambda it: it.cancelled() or it.exception())
    return future


@dataclasses.dataclass(eq=False, slots=True)
class Own(Request):
    """A request of this program itself; `done` gives the status and text of its reply."""

    done: "asyncio.Future[bytes]" = dataclasses.field(default_factory=_future)

    def fail(self) -> None:
        """The request's server has ended."""
        if not self.done.done():
            self.done.set_exception(ServerEnded("the server ended before its reply"))


class StartFailed(XqError):
    """The server ended, or could not be run, before it answered its first frame."""


class _Pipes(SubprocessStreamProtocol):
    """The pipes of a server. What comes from it goes to `take` at once: a task that waits for it
    would take as long as the rest of a reply's way. `over` is set at the end of it, with `error` if
    it can't be read any more."""

    def __init__(self) -> None:
        super().__init__(limit=PIECE, loop=asyncio.get_running_loop())
        self.early: list[bytes] = []
        self.take: Callable[[bytes], None] = self.early.append
        self.over = asyncio.Event()
        self.error: Exception | None = None

    def pipe_data_received(self, fd: int, data: bytes | str) -> None:
        """Takes a piece of the server's output."""
        assert isinstance(data, bytes)
        self.take(data)

    def pipe_connection_lost(self, fd: int, exc: Exception | None) -> None:
        """A pipe has ended."""
        super().pipe_connection_lost(fd, exc)
        if fd == 1:
            self.error = exc
            self.over.set()


class Backend:
    """A running server: it takes frames, and passes each reply to `on_reply` with its request, or
    to the code here that asked.

    `in_flight` has the requests without a reply, in the order of their frames. The server carries
    out one frame after another, so when it ends, only the first of these may have been carried out.
    `frames` counts the frames sent to it. `last_work` is how many seconds the server worked on the
    request that it answered last. With `seconds` the server is killed when it works longer on one
    request; `overdue` is that request.
    """

    def __init__(self, process: asyncio.subprocess.Process, pipes: _Pipes,
                 on_reply: Callable[[Request, bytes], None], seconds: float | None) -> None:
        self.process = process
        self.in_flight: collections.deque[Request] = collections.deque()
        self.frames = 0
        self.last_work = 0.0
        self.overdue: Request | None = None
        self.ended = asyncio.Event()
        self._answered = 0
        self._front_since = 0.0
        self._on_reply = on_reply
        self._seconds = seconds
        self._alarm: asyncio.TimerHandle | None = None
        self._pipes = pipes
        self._splitter = protocol.Splitter(protocol.MAX_REPLY)
        self._task = asyncio.create_task(self._until_end())
        pipes.take = self._take
        for piece in pipes.early:
            self._take(piece)

    @classmethod
    async def start(cls, command: Sequence[str], on_reply: Callable[[Request, bytes], None],
                    seconds: float | None, memory: int | None = None) -> "Backend":
        """Runs the command within this much memory, and waits until it has answered a frame, so
        that its store is open.

        Raises StartFailed. The server is a process group of its own, so a signal from the terminal
        reaches only the multiplexer.
        """
        loop = asyncio.get_running_loop()
        try:
            transport, pipes = await loop.subprocess_exec(
                _Pipes, *kept(command, memory), stdin=PIPE, stdout=PIPE, stderr=None,
                process_group=0)
        except OSError as error:
            raise StartFailed(f"{command[0]}: {error.strerror or error}") from error
        process = asyncio.subprocess.Process(transport, pipes, loop)
        answered = asyncio.Event()
        backend = cls(process, pipes, lambda request, reply: answered.set(), None)
        try:
            await backend._probe(command, answered)
        except BaseException:
            backend.kill()
            await asyncio.wait((backend._task,))  # (it may also have been cancelled)
            raise
        backend._on_reply, backend._seconds = on_reply, seconds
        return backend

    async def _probe(self, command: Sequence[str], answered: asyncio.Event) -> None:
        await self.send(Request(None, 0, PROBE))
        await first_set(answered, self.ended)
        if not answered.is_set():
            raise StartFailed(ended_at_start(command, self.status()))

    async def send(self, request: Request) -> None:
        """Sends a request, and waits until the pipe has taken it or the server has ended."""
        self.put(request)
        await self.drained()

    async def drained(self) -> None:
        """Waits until the pipe has taken most of what was sent, or the server has ended."""
        assert self.process.stdin is not None
        with contextlib.suppress(OSError):
            await self.process.stdin.drain()

    def put(self, *requests: Request) -> None:
        """Sends requests without waiting: what the pipe doesn't take stays in memory."""
        pipe = self.process.stdin
        assert pipe is not None
        is_first = not self.in_flight
        frames = bytearray()
        for request in requests:
            self.frames += 1
            frames += protocol.head_of(len(request.payload), self.frames)
            frames += request.payload
            request.unsent = False
        self.in_flight.extend(requests)
        if is_first:
            self._watch_front()
        # (asyncio logs repeated writes to a closed pipe on standard error)
        if not pipe.is_closing():
            pipe.write(frames)
        requests[0].unsent = is_first and pipe.is_closing()

    def _take(self, piece: bytes) -> None:
        """Takes a piece of the server's output; after a fault nothing more is taken."""
        try:
            self._take_all(self._splitter.feed(piece))
        except protocol.FrameFault:
            self.kill()
            self._pipes.take = _leave
            self._pipes.over.set()

    async def _until_end(self) -> None:
        await self._pipes.over.wait()
        if self._pipes.error:
            self.kill()
        if self._alarm:
            self._alarm.cancel()
        await self.process.wait()
        await self._close_input()
        self.ended.set()
        for request in self.in_flight:
            if isinstance(request, Own):
                request.fail()

    async def _close_input(self) -> None:
        assert self.process.stdin is not None
        self.process.stdin.close()
        with contextlib.suppress(OSError):
            await self.process.stdin.wait_closed()

    def _take_all(self, messages: Iterator[bytes]) -> None:
        """Takes replies. Raises FrameFault for a reply that no request waits for."""
        for message in messages:
            self._answered += 1
            if not self.in_flight or protocol.tag_of(message) != self._answered:
                raise protocol.FrameFault("a reply without a request")
            request = self.in_flight.popleft()
            before = self._front_since
            self._watch_front()
            self.last_work = self._front_since - before
            if isinstance(request, Own) and not request.done.done():
                request.done.set_result(message[4:])
            self._on_reply(request, message[4:])

    def _watch_front(self) -> None:
        self._front_since = time.monotonic()
        if self._seconds is not None and self._alarm is None and self.in_flight:
            self._alarm = asyncio.get_running_loop().call_later(self._seconds, self._look)

    def _look(self) -> None:
        """Ends the server if it has worked on one request for too long; else looks again when that
        may be so. (An alarm for each request would cost as much as sending it.)"""
        self._alarm = None
        if self._seconds is None or not self.in_flight:
            return
        left = self._seconds - self.worked()
        if left > 0:
            self._alarm = asyncio.get_running_loop().call_later(left, self._look)
        else:
            self.overdue = self.in_flight[0]
            self.kill()

    def worked(self) -> float:
        """How many seconds the server has worked on the first request in flight."""
        return time.monotonic() - self._front_since

    def is_blameless(self) -> bool:
        """Whether the server ended so soon after the first request in flight that this hardly is
        the cause."""
        return self.worked() <= BLAMELESS

    def leave_for_nobody(self, patience: float = BLAMELESS) -> bool:
        """Ends a server that has worked for `seconds` on a query whose client has gone. Returns
        whether it did."""
        front = self.in_flight[0] if self.in_flight else None
        if front is None or front.peer is None or front.changes() or self.worked() <= patience:
            return False
        if not front.peer.has_gone():
            return False
        front.peer.cut()
        self.kill()
        return True

    def is_worth_a_repetition(self, front: Request) -> bool:
        """Whether to send the first request in flight, of a server that has ended, to the next one:
        if it is a query, sent for the first time, that is hardly the cause."""
        if front.changes() or front.repeated or self.overdue or not self.is_blameless():
            return False
        front.repeated = True
        return True

    async def finish(self) -> None:
        """Closes the server's input, and waits until it has answered its requests and ended."""
        assert self.process.stdin is not None
        self.process.stdin.close()
        await self.ended.wait()

    def kill(self) -> None:
        """Ends the server at once, with all that it started."""
        if self.process.returncode is None:
            try:
                os.killpg(self.process.pid, signal.SIGKILL)
            except ProcessLookupError:
                pass

    def status(self) -> str:
        """How the process ended, in words."""
        return how_ended(self.process.returncode)
