"""What this node writes into the log: each entry from its client's frame until it comes back."""

import asyncio
import collections
import time

from xqs.cluster.batches import MARK, Batch, EntryKind, changes, encode, fitting
from xqs.cluster.limits import NoAnswer, within
from xqs.cluster.log import Log
from xqs.cluster.steps import passed
from xqs.errors import XqError

IN_FLIGHT = 1
"""How many messages may wait for their confirmations; later entries share the next message."""
MANY, GATHER = 8, 0.004
"""While so many entries are on their way, a message waits so many seconds for more of them: each
message costs an engine and every node far more than an entry in it."""
HELD_BYTES = 64 << 20
"""How many bytes of entries may be on their way; clients with more of them wait."""
SWEEP = 0.1
"""Seconds between two looks for what has waited too long."""
CONFIRMATION = 6.0
"""Seconds to wait for a confirmation before another broker is tried."""
AGAIN = 0.5
"""Seconds before a message is sent again that the log did not take."""


class Unknown(XqError):
    """An entry did not come back in time: it was carried out, or will be, or not."""


class Pending:
    """An entry on its way.

    `done` gives the status and text of its reply once it is carried out here (no bytes for a mark),
    or raises Unknown.
    """

    __slots__ = ("entry", "number", "until", "done")

    def __init__(self, entry: bytes, number: int, until: float) -> None:
        self.entry = entry
        self.number = number
        self.until = until
        self.done: asyncio.Future[bytes] = asyncio.get_running_loop().create_future()
        self.done.add_done_callback(_look_at)


def _look_at(done: "asyncio.Future[bytes]") -> None:
    """Looks at the result of an entry, so that asyncio doesn't complain."""
    if not done.cancelled():
        done.exception()


class Outbox:
    """The entries of one sender, numbered from 1 and sent in that order.

    They are sent again after each loss of the connection and each gap in the log; followers leave
    out repeated ones. An entry is given up if it is not answered for `seconds`, and if in that time
    the log brought nothing that servers of this node had to carry out, which they report by `stir`
    and `busy`. Its client gets the error Unknown, and if the entry is sent once more, a mark takes
    its place.
    """

    def __init__(self, sender: str, log: Log, seconds: float) -> None:
        self.sender = sender
        self._log = log
        self._seconds = seconds
        self._pending: collections.OrderedDict[int, Pending] = collections.OrderedDict()
        self._due: collections.deque[Pending] = collections.deque()
        self._next = self._to_send = 1
        self._bytes = 0
        self._turn = asyncio.Lock()
        self._has_room = asyncio.Event()
        self._work = asyncio.Event()
        self._free = asyncio.Semaphore(IN_FLIGHT)
        self._sends: set[asyncio.Task[None]] = set()
        self._stirred = 0.0
        self.busy = 0

    def __len__(self) -> int:
        return len(self._pending)

    async def put(self, entry: bytes) -> Pending:
        """Takes an entry once there is room for it; those that wait are taken in the order of their
        calls."""
        async with self._turn:
            while self._bytes and self._bytes + len(entry) > HELD_BYTES:
                self._has_room.clear()
                await self._has_room.wait()
            return self.post(entry)

    def post(self, entry: bytes) -> Pending:
        """Takes an entry of the node itself, for which there is always room."""
        pending = Pending(entry, self._next, time.monotonic() + self._seconds)
        self._next += 1
        self._pending[pending.number] = pending
        self._due.append(pending)
        self._bytes += len(entry)
        self._work.set()
        return pending

    def lag(self) -> float:
        """How many seconds ago the oldest entry was added that has not come back."""
        for pending in self._pending.values():
            return max(0.0, time.monotonic() - (pending.until - self._seconds))
        return 0.0

    def mark(self) -> Pending:
        """A mark after all entries so far; one that was not sent yet is shared."""
        last = self._pending.get(self._next - 1)
        if last and last.entry == MARK and last.number >= self._to_send and not last.done.done():
            return last
        return self.post(MARK)

    def came_back(self, number: int, reply: bytes) -> None:
        """A server of this node carried out an entry of this sender, with this reply.

        If several servers follow the log, the first one answers.
        """
        while self._pending and next(iter(self._pending)) <= number:
            _, pending = self._pending.popitem(last=False)
            self._make_room(len(pending.entry))
            if pending.done.done():
                continue
            if pending.number == number:
                pending.done.set_result(reply)
            else:
                pending.done.set_exception(Unknown("its reply was not seen"))

    def _make_room(self, size: int) -> None:
        self._bytes -= size
        self._has_room.set()

    def send_again(self) -> None:
        """Sends all entries once more that have not come back."""
        self._to_send = next(iter(self._pending), self._next)
        self._work.set()

    async def run(self) -> None:
        """Sends messages for as long as this runs."""
        sweep = asyncio.create_task(self._sweep())
        try:
            while True:
                await self._work.wait()
                await self._free.acquire()
                if len(self._pending) >= MANY:
                    await asyncio.sleep(GATHER)
                if not self._start_send():
                    self._free.release()
        finally:
            sweep.cancel()

    def _start_send(self) -> bool:
        """Begins to send the next message; False if there is none, or no log."""
        self._to_send = max(self._to_send, next(iter(self._pending), self._next))
        if self._to_send >= self._next or not self._log.is_up:
            self._work.clear()
            return False
        first = self._to_send
        entries = fitting(self._pending[it].entry for it in range(first, self._next))
        self._to_send += len(entries)
        task = asyncio.create_task(self._send(Batch(self.sender, first, tuple(entries))))
        self._sends.add(task)
        task.add_done_callback(self._sends.discard)
        return True

    async def _send(self, batch: Batch) -> None:
        """Sends a message; if that fails, sends it again when the log takes messages."""
        try:
            passed("published")
            await within(CONFIRMATION, self._log.publish(encode(batch)))
            passed("confirmed")
        except NoAnswer:
            self._log.drop_writing(f"no confirmation for {CONFIRMATION:g} seconds")
        except (XqError, OSError, RuntimeError):
            asyncio.get_running_loop().call_later(AGAIN, self._send_again_if_up)
        finally:
            self._free.release()

    def _send_again_if_up(self) -> None:
        """The log refused a message although it can be reached: nothing else would send it
        again."""
        if self._log.is_up:
            self.send_again()

    def stir(self) -> None:
        """Something of the log was carried out: the wait for what comes after it begins anew."""
        self._stirred = time.monotonic()

    async def _sweep(self) -> None:
        while True:
            await asyncio.sleep(SWEEP)
            if self.busy:
                self.stir()
            self._give_up_due(time.monotonic())

    def _give_up_due(self, now: float) -> None:
        is_silent = now - self._stirred > self._seconds
        while self._due and (self._due[0].done.done() or is_silent and self._due[0].until < now):
            self._give_up(self._due.popleft())

    def give_up_all(self) -> None:
        """Tells all waiting clients that the outcome of their entries is unknown."""
        while self._due:
            self._give_up(self._due.popleft())

    def _give_up(self, pending: Pending) -> None:
        if not pending.done.done():
            # (the node's own entries are sent late rather than never)
            if changes(pending.entry) or pending.entry[:1] == EntryKind.END:
                self._make_room(len(pending.entry) - len(MARK))
                pending.entry = MARK
            pending.done.set_exception(Unknown("the log did not bring it back in time"))
