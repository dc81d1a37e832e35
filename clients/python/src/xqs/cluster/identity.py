"""The identity of a log: a random word in its first entry, which tells it from a log created
anew."""

import os

from xqs.cluster.batches import Batch, EntryKind, NoBatch, decode
from xqs.cluster.limits import within
from xqs.cluster.log import Away, Log

PATIENCE = 5.0
"""Seconds for the log's first message."""
_BYTES = 8


def new_entry() -> bytes:
    """An entry that names a log, if no other one did before."""
    return EntryKind.IDENTITY.value + os.urandom(_BYTES).hex().encode()


def of_batch(batch: Batch) -> str:
    """The identity that a message gives to the log that begins with it; empty if it has none."""
    for entry in batch.entries:
        if entry[:1] == EntryKind.IDENTITY:
            return entry[1:].decode(errors="replace")
    return ""


async def of_log(log: Log) -> str:
    """The identity in the log's first message; empty if there is none, or it is unknown."""
    try:
        _, message = await within(PATIENCE, log.first_message())
        return of_batch(decode(message))
    except (Away, NoBatch):
        return ""


def shown(identity: str) -> str:
    """An identity in the form that messages show."""
    return identity or "(of no known identity)"
