"""Which entries were taken already: for each sender the number of the last one."""

from collections.abc import Iterator, Mapping

from xqs.cluster.batches import Batch

KEPT = 4096
"""How many senders are remembered, the most recent ones; each start of a node is a new sender."""


class Seen:
    """The numbers that were taken, by sender.

    Only the entry with the sender's next number is taken. One with an older number has come twice,
    since it was sent again. One with a later number overtook others; its sender sends them again
    together with it. So all followers of the log leave out the same entries.
    """

    def __init__(self, numbers: Mapping[str, int] | None = None, kept: int = KEPT) -> None:
        self._numbers = dict(numbers or {})
        self._kept = kept

    def last(self, sender: str) -> int:
        """The number of the last entry that was taken of a sender, 0 if there is none."""
        return self._numbers.get(sender, 0)

    def new_entries(self, batch: Batch) -> Iterator[tuple[int, bytes]]:
        """The entries of a message to take, with their numbers."""
        for number, entry in enumerate(batch.entries, batch.first):
            if number == self.last(batch.sender) + 1:
                yield number, entry

    def is_ahead(self, batch: Batch) -> bool:
        """Whether entries of the sender are missing before those of the message."""
        return batch.first > self.last(batch.sender) + 1

    def take(self, sender: str, number: int) -> None:
        """Notes an entry as taken; may forget the sender that was silent longest."""
        self._numbers.pop(sender, None)
        self._numbers[sender] = number
        if len(self._numbers) > self._kept:
            del self._numbers[next(iter(self._numbers))]

    def numbers(self) -> dict[str, int]:
        """A copy of the numbers, with the most recent sender at the end."""
        return dict(self._numbers)
