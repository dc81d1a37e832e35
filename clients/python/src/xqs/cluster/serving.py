"""Requests of a node itself to one of its servers: entries of the log, and those of a client."""

import asyncio
import dataclasses
import socket
from collections.abc import Callable
from functools import partial
from typing import TypeVar

from xqs.client import Client
from xqs.mux_backend import Backend, Own
from xqs.mux_peer import Peer, Request
from xqs.replica import Replica
from xqs.streams import SocketStream

T = TypeVar("T")
WINDOW = 64
UNREAD = 4 << 20


@dataclasses.dataclass(eq=False, slots=True)
class Entry(Own):
    """An entry of the log, of this `place`."""


async def with_client(replica: Replica, work: Callable[[Client], T]) -> T:
    """Runs work in a thread, with a client of the server, beside the server's other requests.

    Raises the errors of the work; Closed if the server ends meanwhile.
    """
    ours, theirs = socket.socketpair()
    reader, writer = await asyncio.open_connection(sock=ours)
    peer = Peer(reader, writer, WINDOW, UNREAD)
    serving = asyncio.create_task(_serve(peer, replica))
    watching = asyncio.create_task(_cut_with(peer, replica.backend))
    client = Client(SocketStream(theirs))
    try:
        return await asyncio.to_thread(work, client)
    finally:
        peer.cut()
        watching.cancel()
        await asyncio.gather(serving, return_exceptions=True)
        await asyncio.to_thread(client.kill)


async def _serve(peer: Peer, replica: Replica) -> None:
    while request := await peer.next_request():
        await peer.expect(request)
        if request.reply is None:
            own = replica.asked(request.payload)
            own.done.add_done_callback(partial(_pass_on, peer, request))
            await replica.backend.drained()


def _pass_on(peer: Peer, request: Request, done: "asyncio.Future[bytes]") -> None:
    """Gives a client its reply, if the server has given one."""
    if not (peer.gone or done.cancelled() or done.exception()):
        peer.answer(request, done.result())


async def _cut_with(peer: Peer, backend: Backend) -> None:
    await backend.ended.wait()
    peer.cut()
