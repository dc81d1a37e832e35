"""One server for many clients: a frame of each in turn, over one stream."""

import asyncio
import time
from collections.abc import Awaitable, Callable, Sequence

from xqs.bounds import lost, overdue
from xqs.changes import Changes
from xqs.errors import XqError
from xqs.metrics import Metrics, Report, ServerReport, holds_in
from xqs.mux_backend import Backend, StartFailed
from xqs.mux_clients import Clients, Settings
from xqs.mux_peer import TOO_LARGE, TOO_SLOW, WANTING_STORE, Request
from xqs.protocol import Kind, Status
from xqs.replica import address_of
from xqs.starting import START_DELAYS, keeping
from xqs.starting import is_on_file as is_on_file
from xqs.watching import ended_by_memory, resident

VAIN_STARTS = 4
"""How many servers in a row may end before a client has sent them anything."""
LOOK_AGAIN = 1.0
"""The least number of seconds between two checks whether the server's database has shut."""
LOOK_FOR_GONE = 0.25
"""The seconds between two checks whether the client of a long query has gone."""


def is_gone(request: Request) -> bool:
    """Whether the client of a request has gone."""
    return request.peer is not None and request.peer.gone


class Multiplexer:
    """Serves clients by one server, which it starts, and starts again when needed.

    `command` runs the server; with `--file` in it the documents outlive the server. `say` gets each
    line for the operator. `failed` is set when the server could not be started again; then only
    `stop` is left to do.
    """

    def __init__(self, command: Sequence[str], settings: Settings,
                 say: Callable[[str], None]) -> None:
        self._command = command
        self._settings = settings
        self._say = say
        self._on_file = is_on_file(command)
        self._clients = Clients(settings, say, self._pass_on)
        self.serve = self._clients.serve
        self._addresses: set[bytes] = set()
        self._changes = Changes()
        self._turn = asyncio.Lock()
        self._window = asyncio.Semaphore(settings.window)
        self._tasks: list[asyncio.Task[None]] = []
        self._vain_starts = self._restarts = 0
        self._left: Backend | None = None
        self._looked = 0.0
        self._look: asyncio.Task[None] | None = None
        self._shut = asyncio.Event()
        self.failed = asyncio.Event()

    async def start(self) -> None:
        """Starts the server. Raises StartFailed if it doesn't answer."""
        await self._begin_backend()
        self._tasks = [asyncio.create_task(work) for work in
                       (self._watch_end(), self._watch_shut(), self._watch_gone(),
                        self._clients.watch_unread())]

    async def _begin_backend(self) -> None:
        self._backend = await Backend.start(
            keeping(self._command, self._settings.kept, 1), self._on_reply, self._settings.seconds,
            self._settings.memory)

    async def _pass_on(self, request: Request) -> None:
        """Sends a request to the server in its turn: all requests wait in one queue."""
        await self._window.acquire()
        async with self._turn:
            if not is_gone(request):
                await self._make_ready()
            await self._send(request)

    async def _send(self, request: Request) -> None:
        """Sends a request that has a place in the window, unless its client has gone."""
        if is_gone(request):
            self._window.release()
        else:
            await self._backend.send(request)

    async def _make_ready(self) -> None:
        """A server that runs and has frames left. The caller holds the turn."""
        if self._backend.frames >= self._settings.frames:
            await self._backend.finish()
        if self._backend.ended.is_set():
            await self._replace(self._backend)

    def _on_reply(self, request: Request, reply: bytes) -> None:
        if request.peer is None:
            if reply == WANTING_STORE:
                self._shut.set()
            return
        self._window.release()
        if request.changes():
            self._changes.note(address_of(request.payload))
            if reply[0] == Status.DONE and not self._on_file:
                self._note_change(request)
        if reply == WANTING_STORE:
            self._look_whether_shut()
        if not request.peer.gone:
            request.peer.answer(request, reply)
        if len(reply) > self._settings.unread:
            self._clients.cut_largest()

    def _note_change(self, request: Request) -> None:
        address = address_of(request.payload)
        if request.kind == Kind.DROP:
            self._addresses.discard(address)
        else:
            self._addresses.add(address)

    def _look_whether_shut(self) -> None:
        """Asks the server for its addresses: if the reply is `store` too, its database has shut."""
        now = time.monotonic()
        if now - self._looked >= LOOK_AGAIN:
            self._looked = now
            self._look = asyncio.create_task(self._send_list())

    async def _send_list(self) -> None:
        async with self._turn:
            await self._make_ready()
            await self._backend.send(Request(None, 0, Kind.LIST.value))

    async def _watch_shut(self) -> None:
        while True:
            await self._shut.wait()
            async with self._turn:
                self._shut.clear()
                self._say("the database has shut: the server is started again")
                await self._backend.finish()
                await self._make_ready()

    async def _watch_gone(self) -> None:
        """Restarts the server if it works on a query of a client that has gone, unless documents in
        its memory would be lost."""
        while True:
            await asyncio.sleep(LOOK_FOR_GONE)
            if (self._on_file or not self._addresses) and self._backend.leave_for_nobody():
                self._left = self._backend

    async def _watch_end(self) -> None:
        while not self.failed.is_set():
            backend = self._backend
            await backend.ended.wait()
            async with self._turn:
                if self._backend is backend:
                    await self._replace(backend)

    async def _replace(self, old: Backend) -> None:
        """Starts a server in place of one that has ended, and settles the requests of that one.

        The caller holds the turn.
        """
        in_flight = list(old.in_flight)
        old.in_flight.clear()
        self._restarts += 1
        self._changes.begin_anew()  # The last change may have been carried out, or not.
        self._say_why(old, len(in_flight))
        behind = self._settle(old, in_flight)
        if not self._on_file and (self._addresses or old is not self._left):
            self._lose_memory()
        self._vain_starts = self._vain_starts + 1 if old.frames <= 1 else 0
        if self._vain_starts == VAIN_STARTS or not await self._start_again():
            self._give_up()
        for request in behind:
            await self._send(request)

    def _say_why(self, old: Backend, in_flight: int) -> None:
        why = f"{old.status()}, after {old.frames} frames"
        if old is self._left:
            why = "the client of its query has gone"
        if old.overdue:
            why = f"one request {overdue(self._settings.seconds or 0)}"
        self._say(f"the server is started again ({why}; {in_flight} requests in flight)")

    def _settle(self, old: Backend, in_flight: list[Request]) -> list[Request]:
        """Answers the request that the server worked on, and returns those to send again.

        The requests behind it were not carried out. This one may have been. If it is a change, its
        client's stream ends, which says so. A query gets the reply that it took too long, or status
        2 `store`, unless it is tried once more.
        """
        if not in_flight:
            return []
        behind = [request for request in in_flight[1:] if request.peer]
        front = in_flight[0]
        if front.unsent or old.is_worth_a_repetition(front):
            return [front, *behind]
        if front.peer:
            self._window.release()
            self._tell(front, self._blame(old))
        return behind

    @staticmethod
    def _blame(old: Backend) -> bytes:
        """The reply to the query during which a server ended."""
        if old.overdue:
            return TOO_SLOW
        return TOO_LARGE if ended_by_memory(old, "", 0, None) else WANTING_STORE

    @staticmethod
    def _tell(front: Request, reply: bytes) -> None:
        if front.peer and not front.peer.gone:
            if front.changes():
                front.peer.end()
            else:
                front.peer.answer(front, reply)

    def _lose_memory(self) -> None:
        """Reports the lost documents, and disconnects all clients, since they rely on these
        documents."""
        self._say(lost({name.decode() for name in self._addresses}))
        self._addresses.clear()
        self._clients.end_all()

    async def _start_again(self) -> bool:
        for delay in START_DELAYS:
            await asyncio.sleep(delay)
            try:
                await self._begin_backend()
                return True
            except StartFailed as error:
                self._say(str(error))
        return False

    def _give_up(self) -> None:
        self._say("the server could not be started again")
        self._clients.refuse_new()
        self.failed.set()
        self._clients.end_all()

    @property
    def metrics(self) -> Metrics:
        """The counts of the replies."""
        return self._clients.metrics

    def report(self) -> Report:
        """The figures of the server and its clients."""
        backend, process = self._backend, self._backend.process.pid
        server = ServerReport(
            1, holds_in(self._on_file), "down" if backend.ended.is_set() else "ready",
            backend.frames, len(backend.in_flight), resident(process), self._restarts)
        return Report([server], len(self._clients))

    def changes_of(self, address: bytes) -> str:
        """A token that stays the same as long as nobody changes the document at the address."""
        return self._changes.token(address)

    async def upgrade(self, command: Sequence[str], say: Callable[[str], Awaitable[None]]) -> None:
        """Raises Refused: only several servers can be upgraded."""
        raise XqError("a single server can't be upgraded while it runs: start the multiplexer "
                      "anew, or with --servers 2 or more")

    async def stop(self) -> None:
        """Answers the frames that were read, disconnects the clients, and then ends the server."""
        await self._clients.drain()
        self._cancel_tasks()
        await self._backend.finish()

    async def abandon_when(self, event: asyncio.Event) -> None:
        """Waits for an event, and then ends the server and the clients at once."""
        await event.wait()
        await self.abandon()

    async def abandon(self) -> None:
        """Ends the server and the clients at once, whatever they wait for."""
        self._cancel_tasks()
        self._clients.cut_all()
        self._backend.kill()
        await self._backend.ended.wait()

    def _cancel_tasks(self) -> None:
        for task in self._tasks:
            task.cancel()
