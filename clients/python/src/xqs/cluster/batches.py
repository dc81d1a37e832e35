"""Messages of the log: numbered entries of one sender, several in a message.

A message is the four bytes `xqs1`, the sender's name after its length in one byte, the number of
the first entry in eight bytes, and each entry after its length in four bytes. All numbers are
big-endian. An entry is its kind, one byte, and its body; the body of a store or drop is what
follows the tag in the client's frame. The entries of a message have consecutive numbers.
"""

import struct
from collections.abc import Iterable
from dataclasses import dataclass
from enum import Enum

from xqs.errors import XqError
from xqs.protocol import MAX_REQUEST

MAGIC = b"xqs1"
MAX_ENTRIES = 256
"""The most entries that share a message."""
MAX_BYTES = 2 << 20
"""The most bytes of entries that share a message; the longest entry fits."""
MAX_SENDER = 100
"""The longest name of a sender, in bytes."""

_HEAD = struct.Struct(">4sB")
_FIRST = struct.Struct(">Q")
_LENGTH = struct.Struct(">I")


class EntryKind(bytes, Enum):
    """The kinds of entries."""

    STORE = b"S"
    DROP = b"D"
    MARK = b"N"
    """Nothing is carried out: its writer waits for all that is before it."""
    REPORT = b"C"
    """A sum over all replies up to a place, for others to compare."""
    END = b"E"
    """All nodes take a snapshot here and end."""
    IDENTITY = b"I"
    """A name for the log: the first one in it counts."""
    HELLO = b"H"
    """A node begins; the sender has its name and its life."""
    TAKEN = b"T"
    """A sender that began has the name of an earlier one."""
    SKIP = b"K"
    """The store or drop of a place is skipped."""


MARK = EntryKind.MARK.value


PROBER = "probe"
"""The sender of probes; each has the number 1, so only the first is ever taken."""


class NoBatch(XqError, ValueError):
    """A message that is no batch."""


@dataclass(frozen=True, slots=True)
class Batch:
    """Entries of one sender; the first has the number `first`, and the numbers are consecutive."""

    sender: str
    first: int
    entries: tuple[bytes, ...]


def changes(entry: bytes) -> bool:
    """Whether the entry is a store or a drop, which servers carry out."""
    return entry[:1] in (EntryKind.STORE, EntryKind.DROP)


def encode(batch: Batch) -> bytes:
    """The message of a batch."""
    sender = batch.sender.encode()
    pieces = [_HEAD.pack(MAGIC, len(sender)), sender, _FIRST.pack(batch.first)]
    for entry in batch.entries:
        pieces += (_LENGTH.pack(len(entry)), entry)
    return b"".join(pieces)


def probe(token: bytes) -> bytes:
    """The message of a mark, which its token distinguishes from all others."""
    return encode(Batch(PROBER, 1, (MARK + token,)))


def decode(message: bytes) -> Batch:
    """The batch in a message. Raises NoBatch if it is none."""
    try:
        magic, length = _HEAD.unpack_from(message)
        sender = message[_HEAD.size : _HEAD.size + length].decode()
        [first] = _FIRST.unpack_from(message, _HEAD.size + length)
        entries = tuple(_entries(message, _HEAD.size + length + _FIRST.size))
    except (struct.error, UnicodeDecodeError) as error:
        raise NoBatch(f"a message that is no batch ({error})") from error
    if magic != MAGIC or not sender or first < 1 or not entries:
        raise NoBatch("a message that is no batch of this form")
    return Batch(sender, first, entries)


def _entries(message: bytes, at: int) -> Iterable[bytes]:
    while at < len(message):
        [length] = _LENGTH.unpack_from(message, at)
        at += _LENGTH.size
        if not 1 <= length <= MAX_REQUEST or length > len(message) - at:
            raise NoBatch("a message that is no batch: an entry of it is cut")
        yield message[at : at + length]
        at += length


def fitting(entries: Iterable[bytes]) -> list[bytes]:
    """The first entries that may share a message; an end is alone in its message."""
    taken: list[bytes] = []
    size = 0
    for entry in entries:
        is_end = entry[:1] == EntryKind.END
        size += len(entry)
        if taken and (is_end or size > MAX_BYTES or len(taken) == MAX_ENTRIES):
            break
        taken.append(entry)
        if is_end:
            break
    return taken
