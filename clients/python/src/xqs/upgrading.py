"""Replaces the running program, server by server, while the other servers answer."""

import asyncio
import os
import shutil
from collections.abc import Awaitable, Callable, Sequence
from pathlib import Path
from typing import TYPE_CHECKING

from xqs.errors import XqError
from xqs.filling import CannotFill
from xqs.in_use import file_of
from xqs.protocol import Kind, Status
from xqs.queries import q
from xqs.replica import Replica, State
from xqs.values import values

if TYPE_CHECKING:
    from xqs.mux_many import ManyServers

DOCUMENTS = 20
"""How many documents are read from both programs, besides the clients' requests."""
SHOWN = 60
FIXED = (b"L", b"Qcount(collection())", b"Qfor $d in collection() return count($d//node())")
"""The requests that both programs get in any case."""


class NotUpgraded(XqError):
    """The program was not upgraded, and the message says why; the old one goes on."""


class AnswersOtherwise(CannotFill):
    """The new program gave another reply to a request of the sample."""


def absolute(command: Sequence[str], folder: Path) -> list[str]:
    """The words of a command in a form that runs in any folder. Raises NotUpgraded if there is
    none."""
    program = shutil.which(str(folder / command[0]) if "/" in command[0] else command[0])
    if program is None:
        raise NotUpgraded(f"there is no program {command[0]}")
    words, file = list(command), file_of(command)
    words[0] = os.path.abspath(program)
    if file is not None:
        whole = os.path.abspath(folder / file)
        words = [f"--file={whole}" if it.startswith("--file=") else it for it in words]
        words = [whole if before == "--file" else it
                 for before, it in zip(["", *words], words, strict=False)]
    return words


async def check(source: Replica, other: Replica, sample: Sequence[bytes]) -> None:
    """Checks that two servers with the same documents give the same answers to a sample of
    requests.

    Replies of status 2 are not compared. Raises AnswersOtherwise, ServerEnded.
    """
    listed = await source.ask(Kind.LIST.value)
    addresses = values(listed[1:].decode()) if listed[0] == Status.DONE else []
    asked = [*FIXED, *sample, *(b"Q" + q("doc($a)", a=str(it)).encode()
                                for it in addresses[:DOCUMENTS])]
    for payload in asked:
        theirs, ours = await asyncio.gather(source.ask(payload), other.ask(payload))
        if theirs != ours and Status.WANTING not in (theirs[0], ours[0]):
            raise AnswersOtherwise(
                f"its answer differs: {payload[:SHOWN].decode(errors='replace')!r} gives "
                f"{ours[:SHOWN].decode(errors='replace')!r}, not "
                f"{theirs[:SHOWN].decode(errors='replace')!r}")


async def upgrade(servers: "ManyServers", command: Sequence[str],
                  say: Callable[[str], Awaitable[None]]) -> None:
    """Makes each server run another command, the first one last.

    Raises NotUpgraded if a server doesn't start with it, or answers a sample of requests
    differently from the running ones: then all go on with the old command.
    """
    if servers.is_upgrading:
        raise NotUpgraded("another upgrade is under way")
    before, replicas = servers.command, servers.replicas
    _check_file(before, command)
    servers.is_upgrading = True
    changed: list[Replica] = []
    try:
        while left := [it for it in replicas.all if it not in changed]:
            replica = next((it for it in left if it is not replicas.first), left[0])
            changed.append(replica)
            await _change(servers, replica, command)
            await say(f"{replica.name} runs it")
        servers.command = list(command)
    except NotUpgraded as error:
        servers.note(f"the upgrade is refused: {error}")
        for replica in changed:
            if replica.command != before:
                replica.command, replica.is_new, replica.failure = before, False, None
                await servers.leave(replica, "back to the old program")
        raise
    finally:
        servers.is_upgrading = False
    servers.note(f"all servers run {' '.join(command)}")


def _check_file(before: Sequence[str], command: Sequence[str]) -> None:
    ours, theirs = file_of(before), file_of(command)
    if (ours and ours.resolve()) != (theirs and theirs.resolve()):
        raise NotUpgraded(f"the documents are in {ours or 'memory'}, and the command has "
                          f"{theirs or 'memory'}")


async def _change(servers: "ManyServers", replica: Replica, command: Sequence[str]) -> None:
    replica.command, replica.is_new, replica.failure = list(command), True, None
    if not await servers.leave(replica, "another program replaces it"):
        raise NotUpgraded("no other server holds the documents now: try again later")
    failure: Exception | None = replica.failure
    if failure is None and replica.state is not State.READY:
        failure = NotUpgraded("it did not begin in time")
        await servers.keep_anew(replica)
    if failure is not None:
        raise NotUpgraded(f"{replica.name}: {failure}")
