"""Several servers for many clients: starts, fills, watches and replaces one while the others go
on."""

import asyncio
import time
from collections.abc import Awaitable, Callable, Coroutine, Sequence
from contextlib import nullcontext

from xqs.bounds import lost, overdue
from xqs.comparing import Comparing
from xqs.errors import XqError
from xqs.filling import CannotHold
from xqs.joining import fill, settle_doubt
from xqs.metrics import Metrics, Report, ServerReport, holds_in
from xqs.mux_backend import StartFailed
from xqs.mux_clients import Clients, Settings
from xqs.mux_looks import Looks
from xqs.mux_peer import Request
from xqs.protocol import Kind
from xqs.replica import Replica, State, address_of
from xqs.replicas import Replicas
from xqs.starting import START_DELAYS, in_memory, is_on_file, keeping
from xqs.upgrading import upgrade
from xqs.waiting import cancelled
from xqs.watching import blame

LONGEST_DELAY = 60.0
"""Seconds between two tries to start a server that has failed often, while others run."""
LOOK = 0.05
"""Seconds between two checks whether a server is idle, or back."""
LONGEST_START = 120.0
"""How many seconds a server in memory may take to answer its first request."""
LONGEST_RETURN = 300.0
"""How many seconds the orderly end of one server delays the end of the next."""
LONGEST_END = 60.0


class ManyServers:
    """Serves clients by several servers that hold the same documents.

    If the command names a file, the first server has it; the others hold the documents in memory.
    `say` gets each line for the operator. `failed` is set when no server is left and none can be
    started; then only `stop` is left to do.
    """

    def __init__(self, command: Sequence[str], settings: Settings,
                 say: Callable[[str], None]) -> None:
        self.command = list(command)
        self._settings = settings
        self.note = say
        self.is_upgrading = False
        self.replicas = Replicas(settings, is_on_file(command))
        for replica in self.replicas.all:
            replica.command = self.command
        self.looks = Looks(self, settings)
        self.replicas.on_unfit, self.replicas.on_wanting = (
            self.drop_out, self.looks.look_whether_shut)
        self.replicas.on_change = self._note_change
        self.replicas.on_large = lambda: self.clients.cut_largest()
        self.comparing = Comparing(self.replicas, settings.compare, self.command, say)
        self.clients = Clients(settings, say, self.replicas.handle)
        self.replicas.clients = lambda: len(self.clients)
        self.serve = self.clients.serve
        self.addresses: set[bytes] = set()
        self.keepers: dict[Replica, asyncio.Task[None]] = {}
        self._tasks: list[asyncio.Task[None]] = []
        self._filling = asyncio.Lock()
        self.leaving = asyncio.Lock()
        self.failed = asyncio.Event()

    async def start(self) -> None:
        """Starts the first server; the others follow while it serves. Raises StartFailed."""
        first = self.replicas.first
        await self._begin(first)
        first.state = State.READY
        self.keepers = {it: self._task(self._keep(it)) for it in self.replicas.all}
        self._tasks = [self._task(self.looks.watch()), self._task(self.clients.watch_unread())]

    def _task(self, work: Coroutine[None, None, None]) -> "asyncio.Task[None]":
        task = asyncio.create_task(work)
        task.add_done_callback(self._on_end_of_task)
        return task

    async def keep_anew(self, replica: Replica) -> None:
        """Gives up bringing a server up, and begins again with its first command."""
        await cancelled(self.keepers[replica])
        replica.command, replica.is_new = self.command, False
        await self._clear(replica)
        self.keepers[replica] = self._task(self._keep(replica))

    def _on_end_of_task(self, task: "asyncio.Task[None]") -> None:
        if not task.cancelled() and (error := task.exception()):
            self.note(f"a fault of xqs mux: {error!r}")
            self._give_up()

    def has_file(self, replica: Replica) -> bool:
        """Whether it is the server with the file."""
        return self.replicas.on_file and replica is self.replicas.first

    async def _begin(self, replica: Replica) -> None:
        """Starts the process of a server, within its share of the memory and of what all keep.
        Raises StartFailed."""
        settings = self._settings
        command = replica.command if self.has_file(replica) else in_memory(replica.command)
        command = keeping(command, settings.kept, settings.servers)
        memory = settings.memory and settings.memory // settings.servers
        await replica.begin(command, settings.seconds, memory)

    async def _keep(self, replica: Replica) -> None:
        """Keeps a server running: fills it, waits for its end, and starts it again."""
        tries = 0
        if replica.state is State.READY:
            await self._until_ended(replica)
        while not self.failed.is_set():
            try:
                await self._bring_up(replica)
            except (XqError, OSError, ValueError) as error:
                self.note(f"{replica.name}: {error}")
                await self._clear(replica)
                if self._has_refused_new(replica, error):
                    continue
                tries += 1
                if tries >= len(START_DELAYS) and self._is_last_hope(replica):
                    self._give_up()
                    return
                await asyncio.sleep(self._delay(tries, error))
                continue
            tries = 0
            await self._until_ended(replica)

    def _is_last_hope(self, replica: Replica) -> bool:
        """Whether nobody could be served if this server can't be started: no other server holds the
        documents, or has them in its file."""
        return not self.replicas.holding() and (
            self.has_file(replica) or not self.replicas.on_file)

    def _has_refused_new(self, replica: Replica, error: Exception) -> bool:
        """Notes that a server could not start with a command that it was given. Returns whether it
        can go back to another one. If the words are the same, the program itself has changed."""
        if not replica.is_new:
            return False
        replica.failure = error
        if replica.command == self.command:
            return False
        replica.command, replica.is_new = self.command, False
        return True

    @staticmethod
    def _delay(tries: int, error: Exception) -> float:
        if isinstance(error, CannotHold):
            return LONGEST_DELAY
        return START_DELAYS[tries] if tries < len(START_DELAYS) else min(
            LONGEST_DELAY, 2.0 * (tries - len(START_DELAYS) + 1))

    @staticmethod
    async def _clear(replica: Replica) -> None:
        """Ends a server that could not be brought up."""
        replica.state = State.DOWN
        if replica.runs:
            replica.kill("it could not be brought up")
            await replica.backend.ended.wait()
            replica.take_all()

    async def _until_ended(self, replica: Replica) -> None:
        await replica.backend.ended.wait()
        self.drop_out(replica, "")

    def drop_out(self, replica: Replica, why: str) -> None:
        """Passes the requests of a server that has ended, or must end, on to others."""
        if replica.state is State.DOWN:
            return
        replica.state = State.DOWN
        replica.restarts += 1
        reply = blame(replica)
        self._say_why(replica, why)
        replica.why = replica.why or why
        if replica.runs:
            replica.kill(why)
        self.replicas.release(replica, reply)
        holding = self.replicas.holding()
        if not self.replicas.on_file and not holding:
            self._lose_memory()
        elif replica is self.replicas.first and not self.replicas.on_file:
            self.replicas.first = min(holding, key=lambda it: it.waiting)
        self.replicas.pump()
        self.replicas.dispatch()

    def _say_why(self, replica: Replica, why: str) -> None:
        backend = replica.backend
        why = why or replica.why or f"{backend.status()}, after {backend.frames} frames"
        if backend.overdue:
            why = f"one request {overdue(self._settings.seconds or 0)}"
        self.note(f"{replica.name} is started again ({why}; {replica.waiting} requests in flight; "
                  f"{len(self.replicas.ready())} others serve)")

    def _lose_memory(self) -> None:
        """Reports the lost documents, and disconnects all clients, since they rely on these
        documents."""
        self.note(lost({name.decode() for name in self.addresses}))
        self.addresses.clear()
        self.replicas.lose()
        self.clients.end_all()

    def _note_change(self, request: Request) -> None:
        if self.replicas.on_file:
            return
        address = address_of(request.payload)
        if request.kind == Kind.DROP:
            self.addresses.discard(address)
        else:
            self.addresses.add(address)

    async def _bring_up(self, replica: Replica) -> None:
        """Starts a server and gives it the documents. Raises StartFailed, ServerEnded and
        CannotFill."""
        replica.state = State.DOWN
        if not self.has_file(replica):
            await self._bring_up_in_memory(replica)
            return
        await self._begin(replica)
        await settle_doubt(self, replica)
        replica.is_new = False
        replica.state = State.READY
        self.note(f"{replica.name} has its file open again, after {replica.opened:.1f} s")
        self.replicas.pump()
        self.replicas.dispatch()

    async def _bring_up_in_memory(self, replica: Replica) -> None:
        async with self._filling:
            try:
                await asyncio.wait_for(self._begin(replica), LONGEST_START)
            except TimeoutError:
                raise StartFailed(f"no reply within {LONGEST_START:g} seconds") from None
            if not self.replicas.on_file and not self.replicas.holding():
                self.replicas.first = replica
                replica.state = State.READY
                self.note(f"{replica.name} begins without documents")
            else:
                await fill(self, replica)
        self.replicas.pump()
        self.replicas.dispatch()

    async def leave(self, replica: Replica, why: str) -> bool:
        """Replaces a server in order, once it has answered its requests. Returns whether it did:
        never if it alone holds documents in memory."""
        async with self.leaving:
            others = self.replicas.holding(replica)
            if not others and not self.has_file(replica):
                return False
            if not self.has_file(replica) and replica is self.replicas.first:
                async with self.replicas.still():
                    self.replicas.first = others[0]
            replica.state, process = State.LEAVING, replica.backend
            await self._until_idle(replica)
            async with self.replicas.still() if self.has_file(replica) else nullcontext():
                if replica.backend is process and replica.state is State.LEAVING:
                    if not self.replicas.holding(replica) and not self.has_file(replica):
                        replica.state = State.READY
                        self.replicas.dispatch()
                        return False
                    await self._end_in_order(replica, why)
            await self._until_back(replica)
        return True

    async def _end_in_order(self, replica: Replica, why: str) -> None:
        """Ends an idle server; one in memory at once."""
        if self.has_file(replica):
            replica.why = why
            await self._finish(replica)
        self.drop_out(replica, why)

    async def _until_idle(self, replica: Replica) -> None:
        while replica.reads and replica.runs:
            await asyncio.sleep(LOOK / 5)

    async def _until_back(self, replica: Replica) -> None:
        end = time.monotonic() + LONGEST_RETURN
        while not (replica.state is State.READY or replica.failure or self.failed.is_set()
                   or time.monotonic() > end):
            await asyncio.sleep(LOOK)

    def _give_up(self) -> None:
        if not self.failed.is_set():
            self.note("no server is left, and none could be started")
            self.clients.refuse_new()
            self.failed.set()
            self.clients.end_all()

    @property
    def metrics(self) -> Metrics:
        """The counts of the replies."""
        return self.clients.metrics

    def report(self) -> Report:
        """The figures of the servers and their clients."""
        servers = [
            ServerReport(it.number, holds_in(self.has_file(it)), it.state.value, it.frames,
                         it.waiting, it.resident, it.restarts) for it in self.replicas.all]
        return Report(servers, len(self.clients), len(self.replicas.waiting),
                      len(self.replicas.writes), self.comparing.count, self.replicas.differs)

    def changes_of(self, address: bytes) -> str:
        """A token that stays the same as long as nobody changes the document at the address."""
        return self.replicas.changes.token(address)

    async def upgrade(self, command: Sequence[str], say: Callable[[str], Awaitable[None]]) -> None:
        """Upgrades the servers, one after another, to another program. Raises NotUpgraded."""
        await upgrade(self, command, say)

    async def stop(self) -> None:
        """Answers the frames that were read, disconnects the clients, and then ends the servers."""
        await self.clients.drain()
        await self._end_tasks()
        running = [it for it in self.replicas.all if it.runs]
        for replica in running:
            if not self.has_file(replica):
                replica.kill("the multiplexer ends")
        await asyncio.gather(*(self._finish(it) for it in running))

    @staticmethod
    async def _finish(replica: Replica) -> None:
        """Ends a server in order, or at once if that takes too long."""
        try:
            await asyncio.wait_for(replica.finish(), LONGEST_END)
        except TimeoutError:
            replica.kill("it did not end")
            await replica.backend.ended.wait()

    async def _end_tasks(self) -> None:
        await self.comparing.stop()
        await self.looks.stop()
        await cancelled(*self._tasks, *self.keepers.values())

    async def abandon_when(self, event: asyncio.Event) -> None:
        """Waits for an event, and then ends the servers and the clients at once."""
        await event.wait()
        await self.abandon()

    async def abandon(self) -> None:
        """Ends the servers and the clients at once, whatever they wait for."""
        await self._end_tasks()
        self.clients.cut_all()
        for replica in self.replicas.all:
            replica.kill("the multiplexer ends")
        await asyncio.gather(*(it.backend.ended.wait() for it in self.replicas.all if it.runs))
