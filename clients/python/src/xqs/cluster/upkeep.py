"""What happens to a server between two messages: a snapshot, or its replacement."""

import asyncio
from pathlib import Path

from xqs.cluster import snapshots
from xqs.cluster.follower import Follower
from xqs.cluster.serving import with_client
from xqs.errors import XqError
from xqs.filling import Filling
from xqs.protocol import FRAME_LIMIT
from xqs.replica import Replica, State

FILE_FRAMES = FRAME_LIMIT - 10_000
"""Frames after which a server on a file is started again."""
MEMORY_FRAMES = 600_000
"""Frames after which one in memory is started again: the remaining frames must suffice to read its
documents."""


def wants_renewal(follower: Follower) -> bool:
    """Whether the server has answered so many frames that it must be started again."""
    limit = FILE_FRAMES if follower.given.file else MEMORY_FRAMES
    return follower.is_ready and follower.backend.frames >= limit


async def renew(follower: Follower) -> None:
    """Starts the server again between two messages, with the documents that it has."""
    async with follower.between:
        follower.retired = old = follower.replica
        try:
            if follower.given.file:
                old.state = State.LEAVING
                await old.finish()
                follower.go_on_with(await follower.start_server())
            else:
                follower.go_on_with(await _copied(follower, old))
                await old.finish()
            follower.settle_reads(old)
        finally:
            follower.retired = None


async def _copied(follower: Follower, old: Replica) -> Replica:
    """A server in memory with the documents of another one, to which nothing is written."""
    new = await follower.start_server()
    try:
        filling = Filling(old.ask, new.ask)
        await filling.copy_most()
        await filling.finish()
    except BaseException:
        new.kill("it could not be filled")
        raise
    return new


async def take_snapshot(follower: Follower) -> str:
    """Takes a snapshot between two messages. Returns a message.

    Raises XqError if the server does not follow the log, or has no folder for snapshots.
    """
    folder = _folder(follower)
    async with follower.between:
        if follower.halted or not follower.is_ready:
            raise XqError(f"{follower.name} does not follow the log")
        state = follower.state
        path, count = await with_client(
            follower.replica, lambda it: snapshots.write(it, state, folder))
        await asyncio.to_thread(snapshots.remove_old, folder)
        return f"{path}: {count} documents of {state}"


def _folder(follower: Follower) -> Path:
    if follower.given.snapshots is None:
        raise XqError("the node has no folder for snapshots (--snapshots)")
    return follower.given.snapshots
