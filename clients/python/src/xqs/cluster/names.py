"""Two nodes of one name: the first one makes the second one end."""

from collections.abc import Callable

from xqs.cluster.batches import EntryKind
from xqs.cluster.outbox import Outbox, Pending
from xqs.cluster.seen import Seen


class Names:
    """What the node writes into the log about its name, and reads about it.

    Each node writes a greeting as it begins. A node that finds, after its own greeting, that of
    another sender with its name writes that the name is taken. `refused` is called if that is about
    this node.
    """

    def __init__(self, outbox: Outbox, refused: Callable[[], None]) -> None:
        self._outbox = outbox
        self._refused = refused
        self._name = _name_of(outbox.sender)
        self._greeting: Pending | None = None
        self._told: set[str] = set()

    def greet(self) -> None:
        """Writes into the log that this node begins."""
        self._greeting = self._outbox.post(EntryKind.HELLO.value)

    def hear_hello(self, sender: str, seen: Seen) -> None:
        """Takes the greeting of a node; `seen` is what the server has taken before it."""
        own = self._outbox.sender
        is_later = self._greeting is not None and seen.last(own) >= self._greeting.number
        if sender == own or _name_of(sender) != self._name or not is_later or sender in self._told:
            return
        self._told.add(sender)
        self._outbox.post(EntryKind.TAKEN.value + sender.encode())

    def hear_taken(self, sender: str) -> None:
        """Takes the message that the name of a sender is taken."""
        if sender == self._outbox.sender:
            self._refused()


def _name_of(sender: str) -> str:
    return sender.rpartition("/")[0]
