"""How a server that stepped aside at an entry goes on: from a later snapshot, or past the entry."""

import asyncio
import re
from collections.abc import Callable, Coroutine, Iterator, Sequence
from contextlib import aclosing, suppress
from pathlib import Path
from typing import TYPE_CHECKING, Any

from xqs.cluster import snapshots
from xqs.cluster.agreement import Report, Tied
from xqs.cluster.batches import EntryKind, NoBatch, decode
from xqs.cluster.limits import Pauses
from xqs.cluster.log import Away, Log
from xqs.cluster.snapshots import NoSnapshot, Snapshot
from xqs.cluster.state import State
from xqs.mux_peer import refusal

if TYPE_CHECKING:
    from xqs.cluster.follower import Follower

SKIPPED = refusal("xqs:SKIPPED")
"""The reply to a store or drop that is skipped."""
LOOK = 1.0
"""Seconds between two looks for a later snapshot."""
SILENT = 15.0
"""Seconds without a message after which the log is read anew. A server that stepped aside writes no
marks, so an idle log is silent too."""
AGAIN, LONGEST_PAUSE = 0.5, 5.0
_PLACE = re.compile(rb"[0-9]{1,18}")


def skip_entry(place: int) -> bytes:
    """The entry that skips a place."""
    return EntryKind.SKIP.value + str(place).encode()


def skipped_place(entry: bytes) -> int | None:
    """The place that an entry skips; None if it skips none."""
    if entry[:1] != EntryKind.SKIP or not _PLACE.fullmatch(entry[1:]):
        return None
    return int(entry[1:])


def ways_back(follower: "Follower") -> Iterator[Coroutine[Any, Any, str]]:
    """The events that may let a halted server go on; each returns a message about it.

    The one that waits for a snapshot ends the server when the snapshot is there. Raises Differs if
    most nodes say that this server is wrong.
    """
    if follower.may_return:
        yield _replaced(follower)
        yield _skipped(follower, follower.state.place + 1)
    if follower.tied_at:
        yield _settled(follower, follower.tied_at)


async def _replaced(follower: "Follower") -> str:
    found = await later_snapshot(follower.given.snapshots, follower.state.offset, follower.fits,
                                 follower.say)
    follower.replica.kill("there is a later snapshot")
    await follower.backend.ended.wait()
    return f"there is a later snapshot, {found.path}"


async def _skipped(follower: "Follower", place: int) -> str:
    await entry_ahead(follower.log, follower.state.offset,
                      lambda entry: skipped_place(entry) == place)
    follower.skips.add(place)
    return f"place {place:,} is skipped"


async def _settled(follower: "Follower", place: int) -> str:
    agreement = follower.agreement

    def is_settled(entry: bytes) -> bool:
        if report := Report.of(entry):
            with suppress(Tied):
                agreement.hear(report)
        return not agreement.is_tied(place)

    await entry_ahead(follower.log, follower.state.offset, is_settled)
    return f"most nodes have its sum at place {place:,}"


async def entry_ahead(log: Log, offset: int, is_it: Callable[[bytes], bool]) -> None:
    """Waits until the log has, after the offset, an entry that passes the test."""
    pauses = Pauses(AGAIN, LONGEST_PAUSE)
    while True:
        try:
            async with aclosing(log.messages(offset)) as messages:
                while True:
                    async with asyncio.timeout(SILENT):
                        offset, message = await anext(messages)
                    pauses.begin_anew()
                    if any(map(is_it, _entries(message))):
                        return
        except (Away, TimeoutError):
            await pauses.pause()


def _entries(message: bytes) -> Sequence[bytes]:
    try:
        return decode(message).entries
    except NoBatch:
        return ()


async def later_snapshot(folder: Path | None, offset: int, fits: Callable[[State], bool],
                         say: Callable[[str], None]) -> Snapshot:
    """Waits until the folder has a whole snapshot from after the offset, with a state that fits."""
    judged: set[tuple[Path, int, int]] = set()
    while True:
        paths = await asyncio.to_thread(_later, folder, offset) if folder else []
        # (a snapshot that is being copied is checked again when it has grown)
        for path in [it for it in paths if _version(it) not in judged]:
            judged.add(_version(path))
            try:
                found = await asyncio.to_thread(snapshots.judge, path)
            except (NoSnapshot, OSError) as error:
                say(f"{path} is left out: {error}")
                continue
            if fits(found.state):
                return found
        await asyncio.sleep(LOOK)


def _version(path: Path) -> tuple[Path, int, int]:
    status = path.stat()
    return path, status.st_size, status.st_mtime_ns


def _later(folder: Path, offset: int) -> Sequence[Path]:
    """The snapshots after an offset, the newest first."""
    least = snapshots.path_of(folder, offset + 1)
    return [it for it in reversed(snapshots.files(folder)) if it.name >= least.name]
