"""What clients of several nodes saw, and whether one log can explain it.

Each writer increments a document of its own, and all writers increment a shared one. What a writer
was told and what it read is noted here, in the order of its own steps, with times of one clock. At
the end the documents of all nodes are checked against these notes.
"""

import re
from bisect import bisect_right
from collections import Counter
from collections.abc import Mapping, Sequence
from dataclasses import dataclass, field

_NUMBER = re.compile(rb'"(\d+)"')


@dataclass(frozen=True)
class Write:
    """A store of a value at an address: when it was sent and answered, and whether it was answered;
    `told` is what the reply said."""

    address: bytes
    value: int
    sent: float
    answered: float
    is_acknowledged: bool
    told: bytes = b""


@dataclass(frozen=True)
class Read:
    """A value that was read: from which node, and whether the read had to be fresh."""

    address: bytes
    value: int
    sent: float
    answered: float
    writer: str
    is_fresh: bool = False


@dataclass
class History:
    """Everything that was written and read."""

    writes: list[tuple[str, Write]] = field(default_factory=list)
    reads: list[Read] = field(default_factory=list)
    counted: int = 0
    doubtful: int = 0

    def write(self, writer: str, write: Write) -> None:
        """Notes a write of a writer's own document."""
        self.writes.append((writer, write))

    def count(self, is_acknowledged: bool) -> None:
        """Notes that the shared document was incremented, or may have been."""
        if is_acknowledged:
            self.counted += 1
        else:
            self.doubtful += 1


def number_of(text: bytes) -> int:
    """The number in a printed document."""
    found = _NUMBER.search(text)
    return int(found[1]) if found else 0


def faults(history: History, maps: Sequence[Mapping[bytes, bytes]], shared: bytes) -> list[str]:
    """What no log can explain; empty if there is nothing.

    `maps` are the documents of all nodes at the end, once each has taken all of the log.
    """
    found = [*_unequal(maps), *_lost(history, maps[0]), *_stale(history)]
    count = number_of(maps[0].get(shared, b""))
    most = history.counted + history.doubtful
    if not history.counted <= count <= most:
        found.append(f"counted up {history.counted} to {most} times, and it is {count}")
    return found


def _unequal(maps: Sequence[Mapping[bytes, bytes]]) -> list[str]:
    return [
        f"node {number} has another {address!r}: {maps[0].get(address)!r}, {it.get(address)!r}"
        for number, it in enumerate(maps)
        for address in sorted(maps[0].keys() | it.keys())
        if maps[0].get(address) != it.get(address)
    ]


def _lost(history: History, last: Mapping[bytes, bytes]) -> list[str]:
    """Documents whose value is neither the last that their only writer was told nor one it tried
    later."""
    by_address: dict[bytes, list[Write]] = {}
    for _, write in history.writes:
        by_address.setdefault(write.address, []).append(write)
    found = []
    for address, writes in by_address.items():
        known = [number for number, it in enumerate(writes) if it.is_acknowledged]
        values = {it.value for it in (writes[known[-1]:] if known else writes)}
        values |= set() if known else {0}
        value = number_of(last.get(address, b""))
        if value not in values:
            found.append(f"{address!r} is {value}, and not one of {sorted(values)}")
        found += _repeated(address, writes)
    return found


def _repeated(address: bytes, writes: Sequence[Write]) -> list[str]:
    """Checks that each document is stored once and then replaced, whoever sees the replies."""
    told = Counter(it.told for it in writes if it.is_acknowledged)
    return [f"{address!r} was stored {told[b'stored']} times"] if told[b"stored"] > 1 else []


def _stale(history: History) -> list[str]:
    """Reads that miss a write: one of the reader itself that was answered before, or, for a fresh
    read, of anybody."""
    # (a document has one writer, whose values and times rise)
    answered: dict[bytes, list[tuple[float, int, str]]] = {}
    for writer, write in history.writes:
        if write.is_acknowledged:
            answered.setdefault(write.address, []).append((write.answered, write.value, writer))
    return [fault for read in history.reads
            if (fault := _missed(read, answered.get(read.address, [])))]


def _missed(read: Read, answered: Sequence[tuple[float, int, str]]) -> str:
    """What the read misses of the writes of its document, which are in order; empty if nothing."""
    count = bisect_right(answered, read.sent, key=lambda it: it[0])
    if not count:
        return ""
    _, value, writer = answered[count - 1]
    if read.value >= value or not (read.is_fresh or writer == read.writer):
        return ""
    return (f"{read.address!r} was read as {read.value} by {read.writer}, after {value} was "
            "acknowledged" + (" (fresh)" if read.is_fresh else ""))
