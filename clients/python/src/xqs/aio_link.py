"""Requests to a server and their replies, over one stream after another, for asyncio. `link` does
the same for threads, by the same rules."""

import asyncio
from typing import TypeAlias

from xqs import protocol
from xqs.aio_streams import AsyncStream, open_async_stream
from xqs.endings import END_PATIENCE, Cause, Ended, Origin, after_end, gone, retry_delays
from xqs.errors import Closed, Lost, XqError
from xqs.requests import LIST, InFlight, Request, Waiting
from xqs.streams import PIECE
from xqs.watch import Watch

Text: TypeAlias = "asyncio.Future[str]"


class AsyncLink:
    """A connection that survives the end of its stream if another one can be made."""

    def __init__(self, stream: AsyncStream, origin: Origin | None) -> None:
        """Without an origin no other stream follows this one."""
        self._origin = origin
        self.watch: Watch[Text] = Watch(origin)
        self._in_flight = self.watch.in_flight
        self._loop = asyncio.get_running_loop()
        self._turn = asyncio.Lock()
        self._alarm: asyncio.TimerHandle | None = None
        self._cause: Cause | None = None
        self._status: int | None = None
        self._put(stream, [])
        self._begin(stream)

    @property
    def stream(self) -> AsyncStream | None:
        """The current stream; None if it has ended."""
        return self._stream

    async def ask(self, request: Request, seconds: float | None) -> str:
        """Sends a request and returns the text of its reply. `seconds` is how long the server may
        take for it. Raises Closed if the stream has ended for good."""
        future: Text = self._loop.create_future()
        async with self._turn:
            stream = await self._ready()
            stream.send(self._in_flight.begin(Waiting(request, future, seconds)))
        if self._alarm is None:
            self._look()
        try:
            await self._drain(stream)
            return await future
        except asyncio.CancelledError:
            future.cancel()
            self._look()
            raise

    @staticmethod
    async def _drain(stream: AsyncStream) -> None:
        try:
            await stream.writer.drain()
        except OSError:
            stream.kill()  # The task that reads says what happens to the request.

    async def _ready(self) -> AsyncStream:
        """The stream to send by. At a socket it connects again if the stream has ended. The caller
        holds the turn."""
        if self.watch.ended or self.watch.closing:
            raise Closed(self.watch.ended or "the connection was closed")
        if self._stream is None:
            stream = await self._opened()
            missing = await self._missing(stream)
            self._begin(stream)
            if missing:
                raise Lost(gone(missing))
        assert self._stream is not None
        return self._stream

    async def _opened(self) -> AsyncStream:
        """Makes another stream. Raises Closed if that is impossible."""
        assert self._origin is not None
        try:
            return await open_async_stream(self._origin.place, self._origin.bounds)
        except OSError as error:
            raise Closed(f"the stream ended, and a new one can't be made: {error}") from error

    def _begin(self, stream: AsyncStream) -> None:
        self._stream: AsyncStream | None = stream
        self._task = asyncio.create_task(self._run(stream), name="xqs replies")

    def _put(self, stream: AsyncStream, again: list[Waiting[Text]]) -> None:
        """Sends these requests first on a new stream."""
        probed: Text = self._loop.create_future()
        # (asyncio complains about errors that nobody looks at)
        probed.add_done_callback(lambda it: it.cancelled() or it.exception())
        for waiting in (*self.watch.probes(probed), *again):
            stream.send(self._in_flight.begin(waiting))

    def _look(self) -> None:
        """Ends a server that takes too long for its request, else looks again when one may."""
        if self._alarm is not None:
            self._alarm.cancel()
            self._alarm = None
        if self._stream is None or self._cause is not None:
            return
        self._cause = self.watch.due()
        if self._cause is not None:
            self._stream.kill()
        elif (deadline := self.watch.deadline()) is not None:
            # (the clock of a loop is the monotonic one)
            self._alarm = self._loop.call_at(deadline, self._look)

    async def _run(self, first: AsyncStream) -> None:
        stream: AsyncStream | None = first
        while stream is not None:
            why = await self._read(stream)
            self._status = await stream.close()
            async with self._turn:
                cause, self._cause = self._cause or Cause.ITSELF, None
                stream, ended = await self._after(cause, why)
                self._stream = stream
                self._end_if_wanted(stream)
            ended.settle()
            self._look()

    def _end_if_wanted(self, stream: AsyncStream | None) -> None:
        """Ends a new stream if its end was requested before it was made."""
        if stream is not None and self.watch.ended:
            stream.kill()
        elif stream is not None and self.watch.closing is not None:
            stream.finish_writing()

    async def _read(self, stream: AsyncStream) -> str:
        """Reads replies until the stream ends. Returns why it ended."""
        splitter = protocol.Splitter(protocol.MAX_REPLY)
        try:
            while piece := await stream.reader.read(PIECE):
                for message in splitter.feed(piece):
                    self._in_flight.replied(message).answer(message)
                front = self._in_flight.front()
                if front is not None and (front.is_dead or self._alarm is None):
                    self._look()
        except (protocol.FrameFault, KeyError) as error:
            stream.kill()
            return f"the other end is not a server ({error})"
        except OSError as error:
            return f"the stream ended ({error})"
        return "the stream ended"

    async def _after(self, cause: Cause, why: str) -> tuple[AsyncStream | None, Ended[Text]]:
        """Makes the stream that follows one that has ended, and settles its requests."""
        waiting = self._in_flight.take_all()
        if self.watch.ended:
            cause, why = Cause.CLOSED, self.watch.ended
        why = self.watch.told_end(cause, why, waiting, self._status)
        ended = after_end(cause, why, self._origin, waiting, set())
        if not self.watch.wants_stream(cause, ended):
            self.watch.end_for_good(why)
            return None, ended
        try:
            stream = await self._again()
            missing = await self._missing(stream)
        except XqError as error:
            ended.fail_all(str(error))
            self.watch.end_for_good(str(error))
            return None, ended
        if missing:
            ended = after_end(cause, why, self._origin, waiting, missing)
        self._put(stream, ended.again)
        return stream, ended

    async def _again(self) -> AsyncStream:
        """Makes another stream; tries a socket for a while. Raises Closed if there is none."""
        for delay in retry_delays():
            await asyncio.sleep(delay)
            try:
                return await self._opened()
            except Closed:
                if self.watch.is_started or self.watch.closing is not None:
                    raise
        return await self._opened()

    async def _missing(self, stream: AsyncStream) -> set[str]:
        """The documents that were stored on this connection and that the server no longer has.

        Raises Closed if the server doesn't answer.
        """
        if not self._in_flight.stored or (self._origin is not None and self._origin.keeps):
            return set()
        probe: InFlight[Text] = InFlight()
        waiting = Waiting(LIST, self._loop.create_future(), None)
        stream.send(probe.begin(waiting))
        splitter = protocol.Splitter(protocol.MAX_REPLY)
        try:
            async with asyncio.timeout(END_PATIENCE):
                while not waiting.is_dead:
                    piece = await stream.reader.read(PIECE)
                    if not piece:
                        raise ConnectionResetError
                    for message in splitter.feed(piece):
                        probe.replied(message).answer(message)
        except OSError as error:
            stream.kill()
            await stream.close()
            raise Closed("the next server doesn't answer") from error
        return self._in_flight.take_missing(waiting.future)

    async def finish(self) -> int | None:
        """Ends the connection when all replies have come. Returns the server's exit status."""
        self.watch.close()
        if self._stream is not None:
            self._stream.finish_writing()
            self._look()
        await asyncio.shield(self._task)
        self._stop_looking()
        return self._status

    async def kill(self) -> None:
        """Ends the connection at once; requests under way fail."""
        self.watch.ended = self.watch.ended or "the connection was ended"
        if self._stream is not None:
            self._stream.kill()
        await asyncio.shield(self._task)
        self._stop_looking()

    def _stop_looking(self) -> None:
        if self._alarm is not None:
            self._alarm.cancel()
