"""How a new server gets the documents that the others hold."""

import asyncio
import time
from typing import TYPE_CHECKING

from xqs.filling import Filling, fingerprint
from xqs.mux_backend import ServerEnded
from xqs.replica import Replica, State, address_of
from xqs.upgrading import check

if TYPE_CHECKING:
    from xqs.mux_many import ManyServers

BETWEEN_LOOKS = 0.05


async def fill(servers: "ManyServers", replica: Replica) -> None:
    """Gives a server the documents of another one, while that one goes on serving."""
    replica.state = State.FILLING
    begin = time.monotonic()
    source = await _source(servers)
    filling = Filling(source.of_this_process(), replica.ask)
    source.watchers.append(filling)
    try:
        await filling.copy_most()
        async with servers.replicas.still():
            await filling.finish()
            while replica.is_new:
                await check(source, replica, servers.comparing.sample)
                replica.is_new = False
                await filling.finish()
            replica.state = State.READY
    finally:
        source.watchers.remove(filling)
    took = time.monotonic() - begin
    replica.opened += took
    servers.note(f"{replica.name} holds the documents ({filling.count:,} of them, {took:.1f} s)")


async def _source(servers: "ManyServers") -> Replica:
    """A server that holds the documents, preferably not the first one. Raises ServerEnded if the
    documents are lost."""
    while not (holding := servers.replicas.holding()):
        if not servers.replicas.on_file:
            raise ServerEnded("no other server is left")
        await asyncio.sleep(BETWEEN_LOOKS)
    return min(holding, key=lambda it: (it is servers.replicas.first, it.waiting))


async def settle_doubt(servers: "ManyServers", first: Replica) -> None:
    """Finds out whether the file has the write that is in doubt, and gives it to the other servers
    if so. Raises ServerEnded and CannotFill."""
    while (doubtful := servers.replicas.doubtful) is not None:
        others = servers.replicas.holding(first)
        address = address_of(doubtful.payload)
        servers.replicas.changes.note(address)
        if others and address:
            try:
                theirs = await fingerprint(others[0].ask, address)
            except ServerEnded:
                continue
            if await fingerprint(first.ask, address) != theirs:
                servers.note(f"a store or drop of {address.decode()} was carried out as the server "
                             "ended: the others carry it out too")
                servers.replicas.spread(doubtful.payload, b"")
        servers.replicas.doubtful = None
