"""One client of the multiplexer: the frames that it sends, and its replies in order."""

import asyncio
import collections
import dataclasses
import select
import time
from collections.abc import Callable

from xqs import protocol
from xqs.protocol import Kind, Status

SHORTEST = 5
"""The least length of a frame: a tag and a kind."""


def refusal(code: str) -> bytes:
    """The status and text of a reply that refuses a request."""
    return bytes([Status.REFUSED]) + code.encode()


WANTING_STORE = bytes([Status.WANTING]) + b"store"
"""No server could carry the request out: nothing has changed, and it may be sent again."""
TOO_SLOW = refusal("xqs:SECONDS")
TOO_LARGE = refusal("xqs:MEMORY")


CHANGES = (Kind.STORE.value, Kind.DROP.value)
"""The letters of the kinds that may change documents."""


@dataclasses.dataclass(eq=False, slots=True)
class Request:
    """A frame on its way: its client, its tag as the client gave it, its kind and body.

    `reply` is the status and text of its reply, once there is one. A request without a peer is the
    multiplexer's own. `unsent` says that no byte of it can have reached the server, `repeated` that
    it has been sent once more. `since` is the time when it came, `sent` the time when it was passed
    to a server.

    With several servers, `place` is how many writes a read sees. A read that `is_stale` is
    repeated, since an earlier read of its client sees more writes. `is_fast` marks a read that was
    fast before.
    """

    peer: "Peer | None"
    tag: int
    payload: bytes
    reply: bytes | None = None
    unsent: bool = False
    repeated: bool = False
    since: float = 0.0
    sent: float = 0.0
    place: int = -1
    is_stale: bool = False
    is_fast: bool = False

    @property
    def kind(self) -> bytes:
        """The letter of the request's kind."""
        return self.payload[:1]

    def changes(self) -> bool:
        """Whether the request may change documents."""
        return self.payload[:1] in CHANGES


class Peer:
    """A client's connection.

    Replies leave in the order of the client's frames, including those that the multiplexer makes
    itself. `window` is how many of its frames may wait for their replies, `unread` how many bytes
    of replies may wait for the client to read them before its next frame is taken. `on_reply` gets
    each request as its reply leaves.

    `reads` and `writes` count the requests without a reply; the code that answers them counts them
    here.
    """

    def __init__(self, reader: asyncio.StreamReader, writer: asyncio.StreamWriter,
                 window: int, unread: int,
                 on_reply: Callable[[Request], None] = lambda request: None) -> None:
        self._reader = reader
        self._writer = writer
        self._pending: collections.deque[Request] = collections.deque()
        self._room = asyncio.Semaphore(window)
        self._idle = asyncio.Event()
        self._idle.set()
        self._written = 0
        self._ended = False
        self._on_reply = on_reply
        self._settled = asyncio.Event()
        self.reads = self.writes = 0
        self.gone = False
        self.waits_for_frame = False
        writer.transport.set_write_buffer_limits(high=unread)

    async def next_request(self) -> Request | None:
        """The next frame of the client; None if its stream ends, even inside a frame.

        A frame that is too short for a tag, or too long, comes with its refusal as its reply. After
        one that is too long nothing more is read.
        """
        if self._ended:
            return None
        self.waits_for_frame = True
        try:
            length = int.from_bytes(await self._reader.readexactly(4), "big")
            if length > protocol.MAX_REQUEST:
                self._ended = True
                return Request(self, 0, b"", refusal("prof:LONG"))
            message = await self._reader.readexactly(length)
        except (asyncio.IncompleteReadError, OSError):
            return None
        finally:
            self.waits_for_frame = False
        if length < SHORTEST:
            return Request(self, 0, b"", refusal("prof:FRAME"))
        return Request(self, protocol.tag_of(message), message[4:])

    async def expect(self, request: Request) -> None:
        """Adds a request to the order of the replies, as soon as the client's limits allow.

        Raises OSError if the client has gone.
        """
        await self._room.acquire()
        await self._writer.drain()
        if self.gone:
            raise ConnectionResetError("the connection was ended")
        request.since = time.monotonic()
        self._pending.append(request)
        self._idle.clear()
        self._flush()

    def settle(self, request: Request) -> None:
        """Removes a request from the counts of those without a reply."""
        if request.changes():
            self.writes -= 1
        else:
            self.reads -= 1
        self._settled.set()

    async def until_read(self) -> None:
        """Waits until each read has its reply."""
        while self.reads:
            self._settled.clear()
            await self._settled.wait()

    async def until_written(self) -> None:
        """Waits until each write has its reply."""
        while self.writes:
            self._settled.clear()
            await self._settled.wait()

    def behind(self, request: Request) -> list[Request]:
        """The requests of this client after the given one whose replies have not left."""
        pending = list(self._pending)
        return pending[pending.index(request) + 1:] if request in pending else []

    def answer(self, request: Request, reply: bytes) -> None:
        """Gives a request its reply, which leaves after the replies before it."""
        request.reply = reply
        self._flush()

    def _flush(self) -> None:
        while self._pending and self._pending[0].reply is not None:
            request = self._pending.popleft()
            self._room.release()
            self._on_reply(request)
            self._write(protocol.with_tag(bytes(4) + (request.reply or b""), request.tag))
        if not self._pending:
            self._idle.set()

    def _write(self, message: bytes) -> None:
        # (asyncio logs repeated writes to a client that has gone on standard error)
        if not self.gone and not self._writer.is_closing():
            data = protocol.framed(message)
            self._written += len(data)
            self._writer.write(data)

    def unread(self) -> int:
        """The number of bytes of replies that the client has not read."""
        return self._writer.transport.get_write_buffer_size()

    def taken(self) -> int:
        """The number of bytes of replies that have left for the client so far."""
        return self._written - self.unread()

    def has_gone(self) -> bool:
        """Whether the client has closed its connection, and not only its sending side. At a
        loopback port that becomes visible only when something is written to it."""
        if self.gone:
            return True
        connection = self._writer.get_extra_info("socket")
        if connection is None or connection.fileno() < 0:
            return False
        poller = select.poll()
        poller.register(connection.fileno(), 0)
        return any(event & (select.POLLHUP | select.POLLERR) for _, event in poller.poll(0))

    def end(self) -> None:
        """Ends the connection once the finished replies have left; drops further frames."""
        self.gone = True
        while self._pending:
            self._pending.pop()
            self._room.release()
        self._idle.set()
        self._writer.close()

    def cut(self) -> None:
        """Ends the connection at once: what the client has not read is lost."""
        self.end()
        self._writer.transport.abort()

    async def finish(self) -> None:
        """Waits until each request has its reply and the replies have left, and ends the
        connection."""
        await self._idle.wait()
        self.gone = True
        self._writer.close()
        try:
            await self._writer.wait_closed()
        except OSError:
            pass
