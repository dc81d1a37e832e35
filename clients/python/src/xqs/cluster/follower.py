"""One server that carries out the log: where it begins, each message, where it stops."""

import asyncio
from collections.abc import Callable, Iterator, Sequence
from contextlib import aclosing, contextmanager
from dataclasses import dataclass
from pathlib import Path
from typing import TYPE_CHECKING

from xqs.bounds import shown_size
from xqs.cluster import aside, identity, snapshots, sums
from xqs.cluster.agreement import Agreement, Differs, Report, Tied
from xqs.cluster.aside import SKIPPED, skipped_place
from xqs.cluster.batches import Batch, EntryKind, NoBatch, changes, decode
from xqs.cluster.feed import Feed, digest_of
from xqs.cluster.identity import PATIENCE
from xqs.cluster.limits import within
from xqs.cluster.log import Away, CannotFollow, Log
from xqs.cluster.names import Names
from xqs.cluster.outbox import Outbox
from xqs.cluster.serving import Entry, with_client
from xqs.cluster.snapshots import Snapshot
from xqs.cluster.state import State
from xqs.cluster.steps import passed
from xqs.cluster.store_file import StoreFile
from xqs.errors import Closed, Wanting, XqError
from xqs.mux_backend import Backend, Own, ServerEnded, StartFailed
from xqs.mux_peer import WANTING_STORE, Request
from xqs.protocol import Status
from xqs.replica import Replica
from xqs.replica import State as ServerState
from xqs.starting import START_DELAYS
from xqs.waiting import cancelled
from xqs.watching import blame

if TYPE_CHECKING:
    from xqs.cluster.reads import Reads

AGAIN = 0.2
"""Seconds between two checks whether a new server has replaced one that ended."""
VAIN_TRIES = 3
"""How many servers in a row may end at one entry; then an operator must look at it."""

GONE = 5.0
"""Seconds that a server may work on a query whose client has gone: filling another server takes
time too."""
OWN_SECONDS = 120.0
"""The least number of seconds for one request of a snapshot or a restore."""


class Halted(XqError):
    """The server can't carry out the next entry of the log, and has carried out all before it."""


class GoBack(Exception):
    """The server has carried out an entry that all nodes skip."""


class Ended(Exception):
    """The log says that all nodes end here."""


@dataclass(frozen=True)
class Given:
    """The settings of a follower: its number, its name and that of its node, its server's command,
    the program that this runs, the places of its documents and snapshots, and the memory of its
    server."""

    number: int
    name: str
    node: str
    command: Sequence[str]
    program: str
    file: StoreFile | None
    snapshots: Path | None
    memory: int | None = None


class Follower:
    """A server that carries out all entries of the log in order, and the place that it has reached.

    Between two messages, never within one, `between` may be held: the documents are then those of
    `state`. `replica` is its server, with its queue of requests. `waits_since` is the time at which
    the wait for the next message began. While it `is_reporting` it reports its sums. `retired` is a
    server that ends because another one is to replace it.

    `carried` is the place of the last entry that the server has answered, `line` that of the last
    one in its queue, and `promised` the value of `line` when the last unanswered read was sent. A
    server that halted and `may_return`, or was tied with others at the place `tied_at`, waits for
    an event that lets it go on. `skips` are the places that it does not carry out.
    """

    def __init__(self, given: Given, log: Log, outbox: Outbox, reads: "Reads",
                 say: Callable[[str], None]) -> None:
        self.given = given
        self.log = log
        self._outbox = outbox
        self._reads = reads
        self.say = say
        self.state = self._nothing()
        self.between = asyncio.Lock()
        self.replica = Replica(given.number, self._on_reply)
        self.halted = ""
        self.may_return, self.tied_at = False, 0
        self.is_ended = self.is_done = self.is_reporting = False
        self.waits_since: float | None = None
        self.retired: Replica | None = None
        self.carried = self.line = self.promised = 0
        self.skips: set[int] = set()
        self.names: Names | None = None
        self._reported: set[int] = set()
        self._aside: dict[int, str] = {}
        self._feed = Feed(given.name, log, say)
        self._ends: dict[int, int] = {}

    @property
    def name(self) -> str:
        """Its name in messages."""
        return self.given.name

    @property
    def backend(self) -> Backend:
        """The current server, or the last one, once one was started."""
        return self.replica.backend

    @property
    def is_ready(self) -> bool:
        """Whether its server holds the documents of its place."""
        return self.replica.state is ServerState.READY

    async def begin(self) -> None:
        """Starts the server, with the documents of the place at which it begins.

        Raises StartFailed, CannotFollow, NotOurs, and errors of a restore.
        """
        file = self.given.file
        state = await asyncio.to_thread(file.begin) if file else None
        self.promised = 0
        snapshot = None if state else await self._newest()
        self.replica = await self.start_server()
        try:
            if snapshot:
                found = snapshot
                count = await with_client(self.replica, lambda it: snapshots.restore(it, found))
                self.say(f"{self.name} begins from {found.path}: {count} documents of "
                         f"{found.state}")
            self.state = self._checked(
                state or (snapshot.state if snapshot else self._nothing()))
        except BaseException:
            self.backend.kill()
            raise
        self.agreement = Agreement(self.given.node, self.given.program, self.state.reports)
        self.carried = self.line = self.state.place
        self.go_on_with(self.replica)

    async def start_server(self) -> Replica:
        """Another process of this server's command. Raises StartFailed."""
        replica = Replica(self.given.number, self._on_reply)
        await replica.begin(self.given.command, None, self.given.memory)
        return replica

    def go_on_with(self, replica: Replica) -> None:
        """Makes a process with the documents of this place the server from now on."""
        self.replica = replica
        replica.state = ServerState.READY
        self._reads.changed()

    def _nothing(self) -> State:
        return State(self.log.name, self.given.program)

    async def _newest(self) -> Snapshot | None:
        folder = self.given.snapshots
        if folder is None:
            return None
        return await asyncio.to_thread(snapshots.newest, folder, self.say, self.fits)

    def fits(self, state: State) -> bool:
        """Whether a state has skipped all places up to it that must be skipped."""
        return all(it > state.place or it in state.skips for it in self.skips)

    def _checked(self, state: State) -> State:
        """A state to begin from. A different program may go on from there if all nodes change."""
        if state.log != self.log.name:
            raise CannotFollow(f"the documents are of the log {state.log}, not {self.log.name}")
        if state.program != self.given.program:
            self.say(f"{self.name}: the program {self.given.program} goes on at {state}, where "
                     f"{state.program} came to")
            state.program, state.reports = self.given.program, {}
        return state

    async def run(self) -> None:
        """Follows the log until the server halts; starts a server again that ends.

        Raises Ended, Differs, StartFailed, and errors of a new beginning.
        """
        while not self.halted:
            following = asyncio.create_task(self._follow())
            ended = asyncio.create_task(self._server_ended())
            try:
                await asyncio.wait((following, ended), return_when=asyncio.FIRST_COMPLETED)
                if following.done():
                    following.result()
            except (Halted, Tied, CannotFollow) as error:
                self._halt(error)
            except Differs as error:
                self.halted = str(error)
                raise
            except GoBack as error:
                self.say(f"{self.name}: {error}")
                self.replica.kill("its documents are of a place that all nodes skip")
                await self.backend.ended.wait()
            except ServerEnded:
                pass
            finally:
                await cancelled(following, ended)
            async with self.between:
                if self.backend.ended.is_set() and not self.halted:
                    with self._working():
                        await self._begin_again()

    async def _server_ended(self) -> None:
        """Waits until the server has ended for good.

        The task that follows the log is then stopped, wherever it is. It must not be stopped while
        a server goes on: the next one would carry out again what that server does meanwhile.
        """
        while True:
            replica = self.replica
            await replica.backend.ended.wait()
            if replica is self.replica and replica is not self.retired:
                return
            await asyncio.sleep(AGAIN)

    async def rest(self) -> bool:
        """Waits until the halted server can go on; False once it has ended, and can't."""
        ways = [asyncio.create_task(it) for it in aside.ways_back(self)]
        ended = asyncio.create_task(self.backend.ended.wait())
        try:
            await asyncio.wait((*ways, ended), return_when=asyncio.FIRST_COMPLETED)
            back = [it.result() for it in ways if it.done()]
        finally:
            await cancelled(*ways, ended)
        if not back and not self.may_return:
            await self.give_up()
            return False
        await self._go_on(back[0] if back else "its server has ended")
        return True

    async def give_up(self) -> None:
        """Ends the server for good; its reads go to others."""
        self.is_ended = True
        if self.replica.has_begun:
            self.replica.kill("its node ends it")
            await self.backend.ended.wait()
            self._settle_in_flight()
        self._reads.changed()

    async def _go_on(self, why: str) -> None:
        """Follows the log again, with the running server or another one."""
        async with self.between:
            if self.backend.ended.is_set():
                await self._begin_again()
            self.say(f"{self.name} follows the log again, from {self.state}: {why}")
            self.halted, self.may_return, self.tied_at = "", False, 0
        self._reads.changed()

    def end_held(self, seconds: float, entry_seconds: float) -> None:
        """Ends a server if a read takes it longer than `seconds`, or an entry longer than its own
        limit; the next server halts before that entry. A node's own request for a snapshot may take
        long, but not forever."""
        if not self.replica.runs or not self.backend.in_flight:
            return
        front, worked = self.backend.in_flight[0], self.backend.worked()
        if self.backend.leave_for_nobody(GONE):
            self.replica.left = front
            return
        if isinstance(front, Own):
            seconds = entry_seconds if isinstance(front, Entry) else max(entry_seconds, OWN_SECONDS)
        if worked <= seconds:
            return
        if isinstance(front, Entry):
            self._aside[front.place] = (f"the entry of place {front.place:,} occupied its server "
                                        f"for over {entry_seconds:g} seconds")
        self.backend.overdue = front
        self.backend.kill()

    def _halt(self, error: XqError) -> None:
        """Notes why the server no longer follows the log, and reports what may let it go on."""
        self.halted = why = str(error)
        self.may_return = isinstance(error, Halted)
        self.tied_at = self.agreement.tied_at if isinstance(error, Tied) else 0
        place = self.state.place + 1
        hint = ""
        if self.may_return:
            hint = (f"; it goes on when a later snapshot of another node is in its folder, or when "
                    f"all nodes skip the entry (xqs node --skip {place})")
        self.say(f"{self.name} steps aside, and no longer follows the log, at {self.state}: "
                 f"{why}; reads are answered with the documents of that place{hint}")
        self._reads.changed()

    async def _begin_again(self) -> None:
        """Starts a server in place of one that has ended, from the newest snapshot."""
        why = self.replica.why or self.backend.status()
        self.say(f"{self.name}: the server is started again ({why}, at {self.state})")
        self._settle_in_flight()
        for number, delay in enumerate(START_DELAYS):
            await asyncio.sleep(delay)
            try:
                await self.begin()
                return
            except (StartFailed, Closed, Wanting, OSError) as error:
                if number == len(START_DELAYS) - 1:
                    raise
                self.say(str(error))

    def _settle_in_flight(self) -> None:
        """Settles the requests of the server that ended: the next server carries out each entry
        anew; clients' reads go to other servers, or are answered."""
        self.replica.state, self.promised = ServerState.DOWN, 0
        front = next(iter(self.backend.in_flight), None)
        if isinstance(front, Entry) and not front.unsent:
            self._ends[self.state.place] = self._ends.get(self.state.place, 0) + 1
        self.settle_reads(self.replica)

    def settle_reads(self, replica: Replica) -> None:
        """Passes the reads of this follower's server on to others when it has ended."""
        self._reads.release(replica, self._blame(replica))
        self._reads.changed()

    @staticmethod
    def _blame(replica: Replica) -> bytes | None:
        """The reply to the read that the server worked on, if that ended it, or may have."""
        is_innocent = replica.why or replica.backend.is_blameless()
        return blame(replica) or (None if is_innocent else WANTING_STORE)

    def _on_reply(self, replica: Replica, request: Request, reply: bytes) -> None:
        if isinstance(request, Entry):
            self.line = self.carried = (
                request.place if reply[0] != Status.WANTING else self.carried)
        self._reads.on_reply(self, replica, request, reply)

    async def _follow(self) -> None:
        """Takes each message of the log as it comes, until an error ends that."""
        while True:
            try:
                await self._take_all()
            except Away as error:
                # (the gap can't be judged, since the log doesn't answer now)
                self.say(f"{self.name}: {error}: the log is followed anew from {self.state}")
                await asyncio.sleep(AGAIN)

    async def _take_all(self) -> None:
        self._wait_begins()
        async with aclosing(self._feed.messages(self.state)) as messages:
            async for offset, message in messages:
                with self._working():
                    async with self.between:
                        await self._take(offset, message)

    def _wait_begins(self) -> None:
        self.waits_since = asyncio.get_running_loop().time()

    @contextmanager
    def _working(self) -> Iterator[None]:
        """A context in which this server has something to carry out: waiting clients wait for it,
        not for the log."""
        self.waits_since = None
        self._outbox.busy += 1
        try:
            yield
        finally:
            self._outbox.busy -= 1
            self._outbox.stir()
            self._wait_begins()

    async def _check_gap(self, offset: int) -> None:
        first, _ = await within(PATIENCE, self.log.first_message())
        if first > self.state.offset + 1:
            raise CannotFollow(
                f"the log {self.log.name} begins at offset {first}, and the documents are of "
                f"{self.state}: the entries between are no longer there, so begin from a later "
                "snapshot of another node")

    async def _take(self, offset: int, message: bytes) -> None:
        """Takes a message; leaves out one that was taken before. Raises Ended at an end."""
        passed("received")
        if offset <= self.state.offset:
            return
        if offset != self.state.offset + 1:
            await self._check_gap(offset)
        try:
            batch = decode(message)
        except NoBatch as error:
            self.say(f"{self.name}: {error}, at offset {offset}: it is left out")
            self._note_taken(offset, message)
            return
        passed("decoded")
        self.state.identity = self.state.identity or identity.of_batch(batch)
        is_end = await self._take_batch(batch)
        self._note_taken(offset, message)
        passed("taken")
        if is_end:
            raise Ended

    def _note_taken(self, offset: int, message: bytes) -> None:
        self.state.offset, self.state.digest = offset, digest_of(message)

    async def _take_batch(self, batch: Batch) -> bool:
        """Carries out the entries that are new. Returns whether they end with an end."""
        is_own = batch.sender == self._outbox.sender
        if is_own and self.state.seen.is_ahead(batch):
            self._outbox.send_again()
        is_end = False
        for number, entry in self.state.seen.new_entries(batch):
            reply = await self._carry_out(entry, batch.sender)
            self.state.seen.take(batch.sender, number)
            passed("noted")
            self._reads.changed()
            if is_own:
                self._reads.raise_floor(self.state.place)
                self._outbox.came_back(number, reply)
                passed("answered")
            # (its errors are raised after the entry, which must not be taken twice)
            if changes(entry):
                self._report()
            is_end = entry[:1] == EntryKind.END
        return is_end

    async def _carry_out(self, entry: bytes, sender: str) -> bytes:
        """Carries out an entry. Returns the status and text of its reply; none if it is no
        change."""
        if not changes(entry):
            self._hear(entry, sender)
            return b""
        place = self.state.place + 1
        if place in self.skips:
            reply = SKIPPED
            self.state.skips += (place,)
            self.line = self.carried = place
        else:
            reply = await self._answered(entry, place)
        self.state.place = place
        self.state.total = sums.after(self.state.total, entry, reply)
        return reply

    async def _answered(self, entry: bytes, place: int) -> bytes:
        """The server's reply to a store or a drop. Raises Halted, ServerEnded."""
        if why := self._aside.get(place):
            raise Halted(why)
        if (ends := self._ends.get(self.state.place, 0)) >= VAIN_TRIES:
            raise Halted(f"{ends} servers in turn ended at the next entry")
        passed("sent")
        self.line = place
        asked = Entry(None, 0, entry, place=place)
        self.replica.put_own(asked)
        reply = await asked.done
        passed("replied")
        if reply[0] == Status.WANTING:
            bound = self.given.memory
            raise Halted(f"the next entry was answered with {reply[1:].decode()}"
                         + (f"; this server may have {shown_size(bound)} of it"
                            if bound and reply[1:] == b"memory" else ""))
        return reply

    def _report(self) -> None:
        """Reports the sum if that is due; while this node catches up, only if the sum is
        disputed."""
        place, state = self.state.place, self.state
        if self.agreement.reached(place, state.total, state.skips):
            self.state.reports = self.agreement.sums
            self._post_report(place)

    def _post_report(self, place: int) -> None:
        report = self.agreement.own(place)
        is_wanted = self.is_reporting or self.agreement.is_disputed(place)
        if report and is_wanted and place not in self._reported:
            self._reported.add(place)
            self._outbox.post(report.entry())

    def _hear(self, entry: bytes, sender: str) -> None:
        """Takes an entry that changes no document. Raises Differs, Tied, CannotFollow, GoBack."""
        kind = entry[:1]
        if kind == EntryKind.END:
            self._check_program(entry[1:].decode(errors="replace"))
        elif kind == EntryKind.SKIP:
            self._hear_skip(skipped_place(entry))
        elif kind == EntryKind.HELLO and self.names:
            self.names.hear_hello(sender, self.state.seen)
        elif kind == EntryKind.TAKEN and self.names:
            self.names.hear_taken(entry[1:].decode(errors="replace"))
        elif report := Report.of(entry):
            self._hear_report(report)

    def _hear_report(self, report: Report) -> None:
        try:
            if said := self.agreement.hear(report):
                self.say(said)
        finally:
            # (two that differ wait for a third one's report, even if it comes later)
            if self.agreement.is_disputed(report.place):
                self._post_report(report.place)

    def _check_program(self, program: str) -> None:
        if program != self.given.program:
            raise CannotFollow(f"all nodes ended here that ran the program {program}, and this is "
                               f"{self.given.program}: begin from a snapshot of this place")

    def _hear_skip(self, place: int | None) -> None:
        if place is None or place > self.state.place or place in self.state.skips:
            return
        self.skips.add(place)
        raise GoBack(f"place {place:,} is skipped by all nodes, and was carried out here: the "
                     "documents begin again from before it")

    async def end(self) -> None:
        """Ends the server in order, and notes beside its file the place that it has reached."""
        if not self.replica.has_begun:
            return
        self.replica.state = ServerState.LEAVING
        await self.replica.finish()
        if self.given.file and not self.halted and self.backend.process.returncode == 0:
            await asyncio.to_thread(self.given.file.end, self.state)

    def abandon(self) -> None:
        """Ends the server at once."""
        self.replica.kill("its node ends it")
