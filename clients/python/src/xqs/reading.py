"""Which of several servers answers a client's read, when, and what happens to the reads of a server
that ended.

A read never sees earlier documents than the reads before it in the order of its client's frames,
whatever servers they go to. While other clients are connected, no client occupies all servers.
"""

import asyncio
import collections
import dataclasses
import hashlib
import time
from collections.abc import Callable, Sequence

from xqs.mux_backend import Own
from xqs.mux_peer import WANTING_STORE, Peer, Request
from xqs.replica import Replica

SLOW = 0.25
"""A query that takes longer, in seconds, is remembered as slow."""
FAST = 0.02
"""A query that takes at most this time, in seconds, is remembered as fast."""
DEPTH = 3
"""How many reads a server may have at once, if all but the last one were fast before."""
REMEMBERED = 1_000
"""How many slow queries are remembered, and how many fast ones."""
LONGEST_KEY = 2_000
"""A query up to this length in bytes is remembered by its text, a longer one by a digest."""


@dataclasses.dataclass(eq=False, slots=True)
class Turn:
    """A read that waits for a server; `given` means that it has one, or needs none."""

    request: Request
    given: "asyncio.Future[None] | None" = None
    since: float = dataclasses.field(default_factory=time.monotonic)


@dataclasses.dataclass(eq=False, slots=True)
class Posed(Request):
    """A read on behalf of a client; `done` gives the status and text of its reply."""

    done: "asyncio.Future[bytes]" = dataclasses.field(
        default_factory=lambda: asyncio.get_running_loop().create_future())


class Reading:
    """The reads that wait, in order, and those that servers have.

    A subclass says which servers there are. A server may have `depth` reads at once, fast or not.
    `on_read` gets each read with its client's reply, `on_wanting` a server that replied `store`.
    `on_large` is called after a reply of more than `unread` bytes.
    """

    on_read: Callable[[Request, bytes], None] = staticmethod(lambda request, reply: None)
    on_wanting: Callable[[Replica], None] = staticmethod(lambda replica: None)
    on_large: Callable[[], None] = staticmethod(lambda: None)

    def __init__(self, unread: int, depth: int = 1) -> None:
        self._unread, self._depth = unread, depth
        self.clients: Callable[[], int] = lambda: 1
        self.waiting: collections.deque[Turn] = collections.deque()
        self._uses = 0
        self._slow: dict[bytes, None] = {}
        self._fast: dict[bytes, None] = {}

    # ---- what a subclass says about its servers

    def ready(self) -> Sequence[Replica]:
        """The servers that take reads."""
        raise NotImplementedError

    def is_open(self, replica: Replica) -> bool:
        """Whether a server can take reads now, as far as its writes allow."""
        raise NotImplementedError

    def may_read(self, replica: Replica, request: Request, count: int) -> bool:
        """Whether an open server can take this read; `count` servers take reads."""
        raise NotImplementedError

    def is_kept_back(self, replica: Replica) -> bool:
        """Whether other servers take reads in preference to this one."""
        return False

    def place_of(self, replica: Replica) -> int:
        """How many writes a read sees if this server takes it now."""
        raise NotImplementedError

    # ---- which server takes a read

    async def hand_over(self, request: Request) -> None:
        """Takes a read of a client; returns once a server has it."""
        turn = Turn(request)
        if self.waiting or not self._give(request, None):
            turn.given = asyncio.get_running_loop().create_future()
            self.waiting.append(turn)
            self.dispatch()
            await turn.given

    async def ask(self, peer: Peer, payload: bytes) -> bytes:
        """The status and text of the reply to a read on behalf of a client."""
        posed = Posed(peer, 0, payload)
        await self.hand_over(posed)
        return await posed.done

    def dispatch(self) -> None:
        """Assigns free servers to the waiting reads, in order."""
        at, passed = 0, set[Peer]()
        while at < len(self.waiting):
            turn, before = self.waiting[at], self.waiting[at].request.place
            peer = turn.request.peer
            if peer is not None and not peer.gone:
                if peer in passed or not self._give(turn.request, turn):
                    if not self._is_any_free():
                        return
                    passed.add(peer)
                    at += 1
                    continue
            else:
                self._forget(turn.request, turn.given is None)
            del self.waiting[at]
            if turn.given and not turn.given.done():
                turn.given.set_result(None)
            if 0 <= before < turn.request.place and self._take_back(turn.request):
                at = 0

    def refuse_waiting(self, reply: bytes) -> None:
        """Gives all waiting reads this reply, since no server will take them."""
        while self.waiting:
            self._take_out(self.waiting.popleft(), reply)

    def forget_gone(self) -> None:
        """Disconnects clients that have gone while their reads waited, so that the reads take no
        server's time, and the connections no other client's place."""
        for turn in list(self.waiting):
            peer = turn.request.peer
            if peer is not None and not peer.gone and peer.has_gone():
                peer.cut()
            if peer is None or peer.gone:
                self.waiting.remove(turn)
                self._take_out(turn, WANTING_STORE)

    @staticmethod
    def _take_out(turn: Turn, reply: bytes) -> None:
        """Gives a waiting read this reply."""
        if turn.given is None:
            settled(turn.request)
        elif not turn.given.done():
            turn.given.set_result(None)
        give(turn.request, reply)

    def _is_any_free(self) -> bool:
        return any(self._has_room(it) and self.is_open(it) for it in self.ready())

    def _has_room(self, replica: Replica) -> bool:
        return replica.reads < self._depth or replica.reads == replica.fast_reads < DEPTH

    def _give(self, request: Request, turn: Turn | None) -> bool:
        """Puts a read into the queue of a server. Returns whether a server is free for it."""
        is_new = turn is None or turn.given is not None
        replica = self._free(request, is_new)
        if replica is None or request.peer is None:
            return False
        request.peer.reads += is_new
        request.place, request.sent = self.place_of(replica), time.monotonic()
        request.is_fast = _key(request) in self._fast
        self._uses += 1
        replica.last_used = self._uses
        replica.reads += 1
        replica.fast_reads += request.is_fast
        self.note_given(replica)
        replica.put(request)
        return True

    def note_given(self, replica: Replica) -> None:
        """Called before a read enters the queue of this server."""

    def _free(self, request: Request, is_new: bool) -> Replica | None:
        """A server for a read; `is_new` says that its client's counts don't include it yet."""
        ready = self.ready()
        free = [it for it in ready if it.reads < self._depth and self._takes(it, request, ready)]
        if not free or len(free) == 1 < len(ready) and self.has_its_share(
                request, is_new, len(ready)):
            return self._behind(request, ready)
        return min(free, key=lambda it: (bool(it.watchers), self.is_kept_back(it), it.waiting,
                                         it.last_used))

    def _takes(self, replica: Replica, request: Request, ready: Sequence[Replica]) -> bool:
        return self.is_open(replica) and self.may_read(replica, request, len(ready))

    def _behind(self, request: Request, ready: Sequence[Replica]) -> Replica | None:
        """A server whose reads were all fast before, so that the next one need not wait."""
        able = [it for it in ready if 0 < it.reads == it.fast_reads < DEPTH and not it.watchers
                and self._takes(it, request, ready)]
        return min(able, key=lambda it: (it.reads, it.last_used)) if able else None

    def is_slow(self, request: Request) -> bool:
        """Whether a query was slow before."""
        return _key(request) in self._slow

    def has_its_share(self, request: Request, is_new: bool, count: int) -> bool:
        """Whether a client has so many reads under way that the last server is left to others."""
        reads = request.peer.reads - (not is_new) if request.peer else 0
        return reads >= count - 1 and self.clients() > 1

    def _take_back(self, request: Request) -> bool:
        """Repeats the reads that this client sent after one that now sees more writes than they
        did. Returns whether some wait for that."""
        assert request.peer is not None
        is_any = False
        for later in reversed(request.peer.behind(request)):
            if later.place < 0 or later.place >= request.place:
                continue
            if later.reply is None:
                later.is_stale = True
            else:
                later.reply = None
                request.peer.reads += 1
                self.waiting.appendleft(Turn(later))
                is_any = True
        return is_any

    # ---- replies

    def take_reply(self, replica: Replica, request: Request, reply: bytes) -> None:
        """Takes the reply of a server to a read."""
        replica.reads -= 1
        replica.fast_reads -= request.is_fast
        self._remember(request, replica.backend.last_work)
        if request.is_stale:
            request.is_stale = False
            self.waiting.appendleft(Turn(request))
        elif reply == WANTING_STORE:
            self.on_wanting(replica)
            self._again_or(request, reply)
        else:
            self.answer(request, reply)
            self.on_read(request, reply)

    def _remember(self, request: Request, seconds: float) -> None:
        """Notes whether a query is slow or fast."""
        key = _key(request)
        for known, is_one in ((self._slow, seconds >= SLOW), (self._fast, seconds <= FAST)):
            if not is_one:
                known.pop(key, None)
            elif key not in known:
                known[key] = None
                if len(known) > REMEMBERED:
                    del known[next(iter(known))]

    def answer(self, request: Request, reply: bytes) -> None:
        """Gives a client its reply."""
        settled(request)
        give(request, reply)
        if len(reply) > self._unread:
            self.on_large()

    def _again_or(self, request: Request, reply: bytes) -> None:
        """Sends a read once more, or gives it a reply if that was done already."""
        if request.repeated:
            self.answer(request, reply)
        else:
            request.repeated = True
            self.waiting.appendleft(Turn(request))

    @staticmethod
    def _forget(request: Request, is_counted: bool) -> None:
        """Settles a read whose client has gone; it needs no reply."""
        if is_counted:
            settled(request)
        give(request, WANTING_STORE)

    # ---- a server that ended

    def release(self, replica: Replica, front_reply: bytes | None) -> None:
        """Takes the reads of a server that has ended: they go to others, or are answered.

        `front_reply` is the reply to the read that made the server end, if one did; else None. If
        the server was ended from here for the reason `why`, that read is not to blame.
        """
        in_flight = replica.backend.in_flight
        front = in_flight[0] if in_flight and not in_flight[0].unsent else None
        for request in reversed(replica.take_all()):
            if request.peer and request is not front:
                self.put_back(request)
        if front is not None and front.peer:
            self.settle_front(replica, front, front_reply)

    def put_back(self, request: Request) -> None:
        """Passes on a request in the queue of a server that ended before it began it."""
        self.waiting.appendleft(Turn(request))

    def settle_front(self, replica: Replica, front: Request, reply: bytes | None) -> None:
        """Settles the request that a server worked on when it ended."""
        if replica.left is front:
            self._forget(front, True)
        elif reply is not None:
            self.answer(front, reply)
        elif replica.why:
            self.waiting.appendleft(Turn(front))
        else:
            self._again_or(front, WANTING_STORE)


def settled(request: Request) -> None:
    """Removes a request from its client's counts of those without a reply."""
    if request.peer:
        request.peer.settle(request)


def give(request: Request, reply: bytes) -> None:
    """Gives a request its reply, if anybody still waits for it."""
    if isinstance(request, (Posed, Own)):
        if not request.done.done():
            request.done.set_result(reply)
    elif request.peer and not request.peer.gone:
        request.peer.answer(request, reply)


def _key(request: Request) -> bytes:
    if len(request.payload) <= LONGEST_KEY:
        return request.payload
    return hashlib.blake2b(request.payload, digest_size=16).digest()
