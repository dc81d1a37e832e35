"""A node's periodic checks: silence, busy servers, due snapshots and restarts, copies."""

import asyncio
import contextlib
import hashlib
from collections.abc import Coroutine, Iterator
from typing import TYPE_CHECKING, Any

from xqs.cluster.identity import PATIENCE
from xqs.cluster.limits import within
from xqs.cluster.log import Away
from xqs.cluster.upkeep import renew, wants_renewal
from xqs.errors import XqError
from xqs.watching import Stopped

if TYPE_CHECKING:
    from xqs.cluster.node import Node

IDLE, BEAT = 3.0, 5.0
"""Seconds without a message of the log after which a mark is written, to see that it comes; and the
seconds between marks in any case, to see that they come soon."""
LOOK = 0.5
"""Seconds between two looks for what is due."""
HELD = 0.25
"""Seconds between two checks whether a request occupies a server for too long."""
ENTRY_TIMES = 5
"""How many times as long as a client's request an entry of the log may take: a slow machine must be
able to carry out what a fast one tried."""
SOON, COPIES, LATER = 5.0, 30.0, 300.0
"""Seconds between two checks how many brokers have a copy: after a change for the worse, while some
lack one, and later."""


def of(node: "Node") -> Iterator[Coroutine[Any, Any, None]]:
    """All checks of a node, which run for as long as the node."""
    yield watch_silence(node)
    yield watch_due(node)
    yield watch_held(node)
    yield watch_copies(node)
    yield find_end(node)


def shift_of(name: str, every: int) -> int:
    """An offset that depends on the node's name, so that nodes take snapshots at different
    places."""
    return int.from_bytes(hashlib.sha256(name.encode()).digest()[:8]) % every


async def watch_due(node: "Node") -> None:
    """Takes snapshots, and starts servers again before their limit of frames."""
    while True:
        await asyncio.sleep(LOOK)
        try:
            if due := next(filter(wants_renewal, node.followers), None):
                await renew(due)
            if is_snapshot_due(node):
                node.say(await node.take_snapshot())
        except (XqError, OSError, ValueError) as error:
            node.say(f"no snapshot: {error}")
            node.snapshot_place = max(it.state.place for it in node.followers)


def is_snapshot_due(node: "Node") -> bool:
    """Whether a snapshot is due: at places that depend on the node's name, so that not all nodes
    take theirs at once."""
    if not node.options.snapshots or not node.follows():
        return False
    place, every = max(it.state.place for it in node.followers), node.options.every
    shift = shift_of(node.options.name, every)
    return (place + shift) // every > (node.snapshot_place + shift) // every


async def watch_held(node: "Node") -> None:
    """Ends a server that a read occupies for too long; one that an entry occupies steps aside; one
    that was stopped as a process is started again."""
    longest, stopped = node.options.seconds, Stopped()
    while True:
        await asyncio.sleep(min(HELD, longest / 4))
        node.reads.forget_gone()
        for replica in stopped.look(it.replica for it in node.followers):
            replica.kill("its process was stopped")
        for follower in node.followers:
            follower.end_held(longest, ENTRY_TIMES * longest)


async def watch_copies(node: "Node") -> None:
    """Checks how many brokers have a copy of the log, and warns until all have one.

    A copy may begin late if its broker starts late, so one counts as missing only after two checks.
    """
    told, missed = set[str](), set[str]()
    while True:
        if not node.log.is_read:
            await asyncio.sleep(LOOK)
            continue
        node.copies = await node.log.copies()
        before, missed = missed, {it for it, has in node.copies.items() if has is False}
        lasting = before & missed
        if lasting and lasting != told:
            node.say(f"{len(lasting)} of {len(node.copies)} brokers have no copy of the log: "
                     f"{', '.join(sorted(lasting))} (xqs node --copies)")
        told = lasting
        is_whole = bool(node.copies) and all(node.copies.values())
        await asyncio.sleep(LATER if is_whole else SOON if missed - before else COPIES)


async def find_end(node: "Node") -> None:
    """Asks for the log's end once, when this node has its first entry: that is how far it must go
    to catch up."""
    while not any(it.state.identity for it in node.followers):
        await asyncio.sleep(LOOK)
    with contextlib.suppress(Away):
        node.end = await within(PATIENCE, node.log.end_offset())


async def watch_silence(node: "Node") -> None:
    """Writes a mark when nothing comes: if that doesn't come either, followers read the log
    anew."""
    loop = asyncio.get_running_loop()
    marked = 0.0
    while True:
        await asyncio.sleep(LOOK)
        now = loop.time()
        waited = [now - it.waits_since for it in node.followers if it.waits_since is not None]
        is_due = now - marked >= (IDLE if waited and max(waited) >= IDLE else BEAT)
        if node.log.is_up and is_due and not len(node.outbox) and node.follows():
            node.outbox.mark()
            marked = now
