"""Reads of a node's clients, each answered by one of its servers."""

from collections.abc import Sequence
from typing import TYPE_CHECKING

from xqs.cluster.serving import Entry
from xqs.mux_backend import Own
from xqs.mux_peer import WANTING_STORE, Request
from xqs.reading import Reading
from xqs.replica import Replica

if TYPE_CHECKING:
    from xqs.cluster.follower import Follower


class Reads(Reading):
    """Passes each read to a server that is free and far enough in the log.

    `floor` is the furthest place that a read of this node saw or may see, or at which one of its
    writes was answered: a later read sees all up to it, on any server. An entry counts if it is in
    a server's queue before the read.
    """

    def __init__(self, unread: int, depth: int) -> None:
        super().__init__(unread, depth)
        self.followers: Sequence["Follower"] = ()
        self._answered = 0

    @property
    def floor(self) -> int:
        """The place that a read must see."""
        # (a server that halted did not carry out what is in its queue)
        promised = [it.promised for it in self.followers if not it.halted]
        return max(self._answered, *promised, 0)

    def ready(self) -> list[Replica]:
        """The servers that answer reads."""
        return [it.replica for it in self.followers if it.is_ready and it.replica.runs]

    def is_open(self, replica: Replica) -> bool:
        """Whether a server is as far as each read must see."""
        return self._of(replica).line >= self.floor

    def may_read(self, replica: Replica, request: Request, count: int) -> bool:
        """Whether a read would not wait for something that takes long."""
        return not replica.is_held

    def place_of(self, replica: Replica) -> int:
        """The place of the last entry in the server's queue."""
        return self._of(replica).line

    def note_given(self, replica: Replica) -> None:
        """Called before a read enters the queue of this server."""
        follower = self._of(replica)
        follower.promised = max(follower.promised, follower.line)

    def _of(self, replica: Replica) -> "Follower":
        return next(it for it in self.followers if it.replica is replica)

    def changed(self) -> None:
        """Called when a server has reached a place, answered a request, begun, or ended."""
        if self.waiting:
            self.dispatch()

    def dispatch(self) -> None:
        """Assigns free servers to the waiting reads, in order; if no server is left, all get status
        2, `store`."""
        super().dispatch()
        if self.waiting and not self._can_any_come():
            self.refuse_waiting(WANTING_STORE)

    def _can_any_come(self) -> bool:
        """Whether a server can take a waiting read, now or later."""
        floor = self.floor
        return any(not it.is_ended and (not it.halted or it.is_ready and it.line >= floor)
                   for it in self.followers)

    def raise_floor(self, place: int) -> None:
        """A read has seen that place, or a write of this node will be answered at it."""
        self._answered = max(self._answered, place)

    def on_reply(self, follower: "Follower", replica: Replica, request: Request,
                 reply: bytes) -> None:
        """Takes a server's reply to a request, with the documents of the place that it has carried
        out."""
        if not isinstance(request, Own):
            request.place = follower.carried
            self.raise_floor(follower.carried)
            self.take_reply(replica, request, reply)
        if not isinstance(request, Entry):  # (the next read waits until that is noted)
            self.changed()
