"""A node: its clients, its servers, and the log that they follow."""

import asyncio
import contextlib
import os
import time
from collections.abc import Callable, Sequence
from dataclasses import dataclass
from functools import partial
from pathlib import Path

from xqs.cluster import aside, identity, trials, watches
from xqs.cluster.agreement import Differs
from xqs.cluster.batches import EntryKind
from xqs.cluster.follower import Ended, Follower, Given
from xqs.cluster.log import Log
from xqs.cluster.names import Names
from xqs.cluster.outbox import Outbox, Pending, Unknown
from xqs.cluster.reads import Reads
from xqs.cluster.store_file import StoreFile
from xqs.cluster.upkeep import take_snapshot
from xqs.errors import XqError
from xqs.mux_clients import Clients, Settings
from xqs.mux_peer import WANTING_STORE, Request
from xqs.waiting import cancelled

NEAR = 2.0
"""Seconds in which a mark must come back for the node to have caught up."""
CLAIM = 0.5
"""Seconds in which a node of the same name may refuse this one, before it takes clients."""
ENDING, DRAINING = 4.5, 2.0
"""Seconds for an orderly end, and the part of them for clients that wait."""
COMING_UP, SHORT = 5.0, 0.02
"""Seconds for the server that takes a snapshot to catch up with the others, and those between two
looks."""
READS_OF_ONE = 16
"""How many reads a node's only server may have at once. One of several servers has one, so that a
query that never ends holds up no other."""


@dataclass(frozen=True)
class Options:
    """The settings of a node: its name, the command of its servers and the program that it runs,
    their number, their files, the folder of snapshots and the places between two of them, how long
    a request may occupy a server and a write may wait for the log, whether reads see all that the
    log held, and the memory of each server."""

    name: str
    command: Sequence[str]
    program: str
    servers: int = 1
    file: Path | None = None
    snapshots: Path | None = None
    every: int = 10_000
    seconds: float = 30.0
    is_fresh: bool = False
    memory: int | None = None


class Node:
    """Serves clients by servers that follow one log.

    `failed` is set if the node must end by itself, and then `status` is its exit status; only
    `stop` is left to do.
    """

    def __init__(self, options: Options, log: Log, settings: Settings,
                 say: Callable[[str], None]) -> None:
        self.options = options
        self.log = log
        self.say = say
        self.outbox = Outbox(f"{options.name}/{os.urandom(6).hex()}", log, options.seconds)
        self.reads = Reads(settings.unread, READS_OF_ONE if options.servers == 1 else 1)
        self.followers = [self._follower(number) for number in range(options.servers)]
        self.reads.followers = self.followers
        self._clients = Clients(settings, say, self._handle)
        self.serve = self._clients.serve
        self.reads.clients = lambda: len(self._clients)
        self.reads.on_large = self._clients.cut_largest
        self._tasks: list[asyncio.Task[None]] = []
        self.snapshot_place = 0
        self.names = Names(self.outbox, self._refuse_name)
        self.copies: dict[str, bool | None] = {}
        self.end = -1
        self.snapshot_time: float | None = None
        self.is_caught_up = self._is_stopping = False
        self.failed = asyncio.Event()
        self.status = 0

    def _follower(self, number: int) -> Follower:
        options = self.options
        name = options.name if options.servers == 1 else f"{options.name}.{number + 1}"
        command, file = list(options.command), None
        if options.file:
            end = f".{number + 1}" if number else ""
            path = options.file.with_name(options.file.name + end)
            command += ["--file", str(path)]
            file = StoreFile(path.absolute())
        given = Given(number + 1, name, options.name, command, options.program, file,
                      options.snapshots, options.memory)
        return Follower(given, self.log, self.outbox, self.reads, self.say)

    async def start(self) -> None:
        """Starts the servers, and follows the log up to its end at the time of this call.

        Waits for the log if it can't be reached. Raises StartFailed, CannotFollow, NotOurs and
        errors of a restore. `failed` is set if the log can't be followed so far.
        """
        await asyncio.gather(*(it.begin() for it in self.followers))
        self.snapshot_place = self.followers[0].state.place
        if not all(it.state.identity for it in self.followers):
            self.outbox.post(identity.new_entry())
        for follower in self.followers:
            follower.names = self.names
        self.names.greet()
        work = [self.outbox.run(), *watches.of(self), self._clients.watch_unread()]
        self._tasks = [asyncio.create_task(it) for it in work]
        self._tasks += [asyncio.create_task(self._run(it)) for it in self.followers]
        for task in self._tasks:
            task.add_done_callback(self._on_end)
        await self._catch_up()

    def _on_end(self, task: "asyncio.Task[None]") -> None:
        """A task of the node has ended; nobody waits for its error."""
        if not task.cancelled() and (error := task.exception()):
            self._fail(f"a fault of xqs node: {error!r}", 1)

    async def _catch_up(self) -> None:
        """Waits until a mark of this node comes back soon, or the node fails: as long as marks come
        back late, others have written more."""
        loop = asyncio.get_running_loop()
        begin = loop.time()
        while not self.failed.is_set() and self.follows():
            posted = loop.time()
            if not await self._comes_back(self.outbox.mark()):
                if self.follows() and not self.failed.is_set():
                    self.say("waits for the log")
            elif loop.time() - posted <= NEAR or loop.time() - begin > self.options.seconds * 4:
                self._note_caught_up()
                with contextlib.suppress(TimeoutError):
                    await asyncio.wait_for(self.failed.wait(), CLAIM)
                return

    async def _comes_back(self, mark: Pending) -> bool:
        """Waits until a mark comes back or is given up, or the node fails. Returns whether it came
        back."""
        failed = asyncio.create_task(self.failed.wait())
        await asyncio.wait((mark.done, failed), return_when=asyncio.FIRST_COMPLETED)
        failed.cancel()
        return mark.done.done() and not mark.done.exception()

    def _refuse_name(self) -> None:
        self._fail(f"another node of the name {self.options.name} follows this log: give each a "
                   "name of its own (--name)", 1)

    def _note_caught_up(self) -> None:
        self.is_caught_up = True
        for follower in self.followers:
            follower.is_reporting = True

    async def _run(self, follower: Follower) -> None:
        """Makes a server follow the log; the node ends if it must not go on."""
        try:
            await follower.run()
            self._note_halt(follower)
            while await follower.rest():
                self._note_caught_up()
                await follower.run()
                self._note_halt(follower)
        except Ended:
            await self._end_for_all(follower)
        except Differs as error:
            await self._end_one(follower, f"differs from others, and stops: {error}")
        except (XqError, OSError, ValueError) as error:
            await self._end_one(follower, str(error))
        if all(it.is_ended for it in self.followers):
            self._fail("no server is left", 1)
        self.reads.changed()

    async def _end_one(self, follower: Follower, why: str) -> None:
        """Ends a server that must not go on; the others go on."""
        await follower.give_up()
        if all(it.is_ended for it in self.followers):
            self._fail(f"{self.options.name} {why}", 1)
        else:
            self.say(f"{follower.name} {why}")

    def _note_halt(self, follower: Follower) -> None:
        """A server halted: if it was the last one, no write is answered any more."""
        if not self.follows():
            self.outbox.give_up_all()
            if not self.is_caught_up and not follower.may_return:
                self._fail("the node can't begin", 1)

    def _fail(self, why: str, status: int) -> None:
        if not self.failed.is_set():
            self.say(why)
            self.status = status
            self.failed.set()
            self.outbox.give_up_all()

    async def _end_for_all(self, follower: Follower) -> None:
        """The log says that all nodes end here: the first server takes a snapshot."""
        self.say(f"{follower.name}: all nodes end here, at {follower.state}")
        is_first = not any(it.is_done for it in self.followers)
        follower.is_done = True
        try:
            if self.options.snapshots and is_first:
                self.say(await take_snapshot(follower))
                self._note_snapshot(follower.state.place)
        except (XqError, OSError, ValueError) as error:
            self.say(f"no snapshot: {error}")
        if all(it.is_done or it.halted for it in self.followers):
            self._fail("the node ends where all nodes do", 0)

    def follows(self) -> bool:
        """Whether a server of this node still follows the log."""
        return any(not it.halted and not it.is_ended for it in self.followers)

    async def _handle(self, request: Request) -> None:
        """Takes a frame of a client, in the order of its frames: its reads wait for the writes
        before them, its writes for the reads."""
        if request.changes():
            await self._write(request)
        else:
            await self._read(request)

    async def _write(self, request: Request) -> None:
        assert request.peer is not None
        await request.peer.until_read()
        refused = WANTING_STORE if self._is_cut_off() else await self._tried(request)
        if refused or self._is_cut_off():
            request.peer.answer(request, refused or WANTING_STORE)
            return
        request.peer.writes += 1
        pending = await self.outbox.put(request.payload)
        pending.done.add_done_callback(partial(self._written, request))

    def _is_cut_off(self) -> bool:
        return not self.follows() or self.failed.is_set()

    async def _tried(self, request: Request) -> bytes | None:
        """Asks the query of a store as a query first, once the client's earlier writes are
        answered. Returns the reply if it is refused."""
        query = trials.query_of(request)
        if query is None or request.peer is None:
            return None
        await request.peer.until_written()
        return await trials.refusal_of(query, partial(self.reads.ask, request.peer))

    @staticmethod
    def _written(request: Request, done: "asyncio.Future[bytes]") -> None:
        """Answers a write. If its outcome is unknown, its client's stream ends, as the protocol
        says for a frame that may have been carried out."""
        peer = request.peer
        assert peer is not None
        peer.settle(request)
        if peer.gone:
            return
        if done.cancelled() or done.exception():
            peer.end()
        else:
            peer.answer(request, done.result())

    async def _read(self, request: Request) -> None:
        """Passes a read to a server, once this client's earlier writes are answered."""
        assert request.peer is not None
        await request.peer.until_written()
        if self.options.is_fresh and not await self._has_all():
            request.peer.answer(request, WANTING_STORE)
            return
        await self.reads.hand_over(request)

    async def _has_all(self) -> bool:
        """Waits until a server has carried out all that the log holds now. Returns whether one
        could."""
        if not self.follows():
            return False
        try:
            await asyncio.shield(self.outbox.mark().done)
        except Unknown:
            return False
        return True

    async def end_all(self) -> str:
        """Makes all nodes that follow the log end at the same place. Returns a message."""
        entry = EntryKind.END.value + self.options.program.encode()
        await (await self.outbox.put(entry)).done
        return "all nodes take a snapshot and end"

    async def skip(self, place: int) -> str:
        """Makes all nodes skip the place at which a server of this one stepped aside. Returns a
        message."""
        held = [it for it in self.followers if it.may_return and it.state.place + 1 == place]
        if not held:
            raise XqError(f"no server of this node has stepped aside at place {place:,}")
        self.outbox.post(aside.skip_entry(place))
        for _ in range(100):
            await asyncio.sleep(0.1)
            if not any(it.may_return and it.state.place + 1 == place for it in held):
                return f"all nodes skip place {place:,}"
        raise XqError("the log has not confirmed it in 10 seconds: the place may be skipped later")

    async def take_snapshot(self) -> str:
        """Takes a snapshot of all that is carried out so far, or later. Returns a message.

        A server other than the first takes it, if there is one, once it has caught up. So the
        server that answers writes meanwhile never has to catch up first.
        """
        able = [it for it in self.followers if it.is_ready and not it.halted]
        if not able:
            raise XqError("no server of this node follows the log")
        place = max(it.state.place for it in able)
        chosen = self._for_snapshot(able)
        for _ in range(round(COMING_UP / SHORT)):
            if chosen.state.place >= place or self._is_stopping:
                break
            await asyncio.sleep(SHORT)
        if chosen.state.place < place:
            chosen = max(able, key=lambda it: it.state.place)
        said = await take_snapshot(chosen)
        self._note_snapshot(chosen.state.place)
        return said

    @staticmethod
    def _for_snapshot(able: Sequence[Follower]) -> Follower:
        """The server for a snapshot, preferably one that isn't working on a query."""
        idle = [it for it in able if not it.replica.reads] or able
        return min(idle, key=lambda it: it.state.place)

    def _note_snapshot(self, place: int) -> None:
        """Notes a snapshot of the place."""
        self.snapshot_place = max(self.snapshot_place, place)
        self.snapshot_time = time.time()

    async def stop(self) -> None:
        """Answers the frames that were read, disconnects the clients, and ends the servers in
        order.

        It ends at once what takes too long, so a node always ends within some seconds.
        """
        until = asyncio.get_running_loop().time() + ENDING
        await self._drain()
        try:
            async with asyncio.timeout_at(until):
                await self._end_in_order()
        except TimeoutError:
            self.say("the servers are ended at once, since one is busy")
            await self.abandon()

    async def _drain(self) -> None:
        """Answers the frames that were read, if that doesn't take long."""
        draining = asyncio.create_task(self._clients.drain())
        await asyncio.wait((draining,), timeout=DRAINING)
        if not draining.done():
            self.say(f"clients still wait after {DRAINING:g} seconds: their streams are ended")
            self._clients.cut_all()
            await asyncio.wait((draining,), timeout=DRAINING / 4)
        await cancelled(draining)

    async def _end_in_order(self) -> None:
        async with contextlib.AsyncExitStack() as stack:
            # (nobody may be stopped within an entry)
            for follower in self.followers:
                await stack.enter_async_context(follower.between)
            await cancelled(*self._tasks)
            self._is_stopping = True
        await self._take_last_snapshot()
        await asyncio.gather(*map(self._end, self.followers))

    async def _end(self, follower: Follower) -> None:
        if follower.is_ended:
            return
        try:
            await follower.end()
        except (XqError, OSError, ValueError) as error:
            self.say(f"{follower.name}: {error}")

    async def _take_last_snapshot(self) -> None:
        """Takes a snapshot at an orderly end, if the documents are in memory and have changed since
        the last one."""
        place = max(it.state.place for it in self.followers)
        if self.options.snapshots and not self.options.file and place > self.snapshot_place:
            try:
                self.say(await self.take_snapshot())
            except (XqError, OSError, ValueError) as error:
                self.say(f"no snapshot: {error}")

    async def abandon_when(self, event: asyncio.Event) -> None:
        """Waits for an event, and then ends the servers and the clients at once."""
        await event.wait()
        await self.abandon()

    async def abandon(self) -> None:
        """Ends the servers and the clients at once, whatever they wait for."""
        self._clients.cut_all()
        for follower in self.followers:
            follower.abandon()
        await cancelled(*self._tasks)
