"""Requests to a server and their replies, over one stream after another, for threads.

The caller's thread sends the request; one thread reads the replies. That thread ends a server that
takes too long for a request, or works on one that nobody waits for, and goes on with another server
if nothing is lost by that (`endings` and `watch` have the rules).
"""

import threading
import time

from xqs import protocol
from xqs.changes import Changes
from xqs.endings import (
    END_PATIENCE,
    RETRY_SECONDS,
    Cause,
    Ended,
    Origin,
    after_end,
    gone,
    retry_delays,
)
from xqs.errors import Closed, Lost, TimedOut, XqError
from xqs.requests import LIST, SHOWN, InFlight, Request, TextFuture, Waiting, query_of
from xqs.streams import Stream, open_stream
from xqs.watch import Watch


class Link:
    """A connection that survives the end of its stream if another one can be made."""

    def __init__(self, stream: Stream, origin: Origin | None) -> None:
        """Without an origin no other stream follows this one."""
        self._origin = origin
        self.watch: Watch[TextFuture] = Watch(origin)
        self._in_flight = self.watch.in_flight
        self.changes = Changes()
        """The changes that were requested here, each noted before its frame is sent."""
        self._turn = threading.RLock()
        """Held while a frame is sent, so that frames stay in order, and while the stream is
        replaced."""
        self._status: int | None = None
        self._put(stream, [])
        self._begin(stream)

    @property
    def stream(self) -> Stream | None:
        """The current stream; None if it has ended."""
        return self._stream

    def send(self, request: Request, seconds: float | None,
             deadline: float | None = None) -> TextFuture:
        """Sends a request; the future gives the text of its reply.

        `seconds` is how long the server may take for it. Waits while the server takes nothing.
        Raises Closed if the stream has ended for good, TimedOut if nothing could be sent in time.
        """
        future = TextFuture()
        future.add_done_callback(self._look_at)
        wait = -1 if deadline is None else max(deadline - time.monotonic(), 0)
        if not self._turn.acquire(timeout=wait):
            raise _unsent(request)
        try:
            stream = self._ready(deadline)
            if request.changes:
                self.changes.note(request.address.encode())
            data = self._in_flight.begin(Waiting(request, future, seconds))
            stream.send(data, deadline)
        except TimeoutError:
            future.cancel()
            raise _unsent(request) from None
        except OSError:
            stream.kill()  # The thread that reads says what happens to the request.
        finally:
            self._turn.release()
        return future

    def _ready(self, deadline: float | None) -> Stream:
        """The stream to send by. At a socket it connects again if the stream has ended. The caller
        holds the turn."""
        if self.watch.ended or self.watch.closing:
            raise Closed(self.watch.ended or "the connection was closed")
        if self._stream is None:
            left = None if deadline is None else max(deadline - time.monotonic(), 0.001)
            stream = self._opened(left)
            missing = self._missing(stream)
            self._begin(stream)
            if missing:
                raise Lost(gone(missing))
        assert self._stream is not None
        return self._stream

    def _opened(self, timeout: float | None = None) -> Stream:
        """Makes another stream. Raises Closed if that is impossible."""
        assert self._origin is not None
        try:
            return open_stream(self._origin.place, self._origin.bounds, timeout)
        except OSError as error:
            raise Closed(f"the stream ended, and a new one can't be made: {error}") from error

    def _begin(self, stream: Stream) -> None:
        self._stream: Stream | None = stream
        self._reader = threading.Thread(
            target=self._run, args=(stream,), daemon=True, name="xqs replies")
        self._reader.start()

    def _put(self, stream: Stream, again: list[Waiting[TextFuture]]) -> None:
        """Sends these requests first on a new stream."""
        for waiting in (*self.watch.probes(TextFuture()), *again):
            stream.put(self._in_flight.begin(waiting))

    def _look_at(self, future: TextFuture) -> None:
        stream = self._stream
        if future.cancelled() and stream is not None:
            stream.wake()

    # ---- the thread that reads

    def _run(self, first: Stream) -> None:
        stream: Stream | None = first
        while stream is not None:
            cause, why = self._read(stream)
            stream.wait()
            with self._turn:
                self._status = stream.close()
                stream, ended = self._after(cause, why)
                self._stream = stream
                self._end_if_wanted(stream)
            ended.settle()

    def _end_if_wanted(self, stream: Stream | None) -> None:
        """Ends a new stream if its end was requested before it was made."""
        if stream is not None and self.watch.ended:
            stream.kill()
        elif stream is not None and self.watch.closing is not None:
            stream.finish_writing()

    def _read(self, stream: Stream) -> tuple[Cause, str]:
        """Reads replies until the stream ends. Returns why it ended."""
        splitter = protocol.Splitter(protocol.MAX_REPLY)
        cause: Cause | None = None
        try:
            while (piece := stream.receive(None if cause else self.watch.deadline())) != b"":
                if piece:
                    self._take(splitter, piece)
                elif cause is None and (cause := self.watch.due()):
                    stream.kill()
        except (protocol.FrameFault, KeyError) as error:
            stream.kill()
            return cause or Cause.ITSELF, f"the other end is not a server ({error})"
        except (OSError, ValueError) as error:
            return cause or Cause.ITSELF, f"the stream ended ({error})"
        return cause or Cause.ITSELF, "the stream ended"

    def _take(self, splitter: protocol.Splitter, piece: bytes) -> None:
        for message in splitter.feed(piece):
            self._in_flight.replied(message).answer(message)

    def _after(self, cause: Cause, why: str) -> tuple[Stream | None, Ended[TextFuture]]:
        """Makes the stream that follows one that has ended, and settles its requests."""
        waiting = self._in_flight.take_all()
        if self.watch.ended:
            cause, why = Cause.CLOSED, self.watch.ended
        why = self.watch.told_end(cause, why, waiting, self._status)
        ended = after_end(cause, why, self._origin, waiting, set())
        if not self.watch.wants_stream(cause, ended):
            self.watch.end_for_good(why)
            return None, ended
        try:
            stream = self._again()
            missing = self._missing(stream)
        except XqError as error:
            ended.fail_all(str(error))
            self.watch.end_for_good(str(error))
            return None, ended
        if missing:
            ended = after_end(cause, why, self._origin, waiting, missing)
        self._put(stream, ended.again)
        return stream, ended

    def _again(self) -> Stream:
        """Makes another stream; tries a socket for a while. Raises Closed if there is none."""
        for delay in retry_delays():
            time.sleep(delay)
            try:
                return self._opened(RETRY_SECONDS)
            except Closed:
                if self.watch.is_started or self.watch.closing is not None:
                    raise
        return self._opened(RETRY_SECONDS)

    def _missing(self, stream: Stream) -> set[str]:
        """The documents that were stored on this connection and that the server no longer has.

        Raises Closed if the server doesn't answer.
        """
        if not self._in_flight.stored or (self._origin is not None and self._origin.keeps):
            return set()
        probe: InFlight[TextFuture] = InFlight()
        waiting = Waiting(LIST, TextFuture(), None)
        stream.put(probe.begin(waiting))
        splitter = protocol.Splitter(protocol.MAX_REPLY)
        end = time.monotonic() + END_PATIENCE
        while not waiting.is_dead:
            piece = stream.receive(end)
            if piece == b"" or time.monotonic() > end:
                stream.kill()
                stream.close()
                raise Closed("the next server doesn't answer")
            for message in splitter.feed(piece or b""):
                probe.replied(message).answer(message)
        return self._in_flight.take_missing(waiting.future)

    def restart(self) -> set[str]:
        """Ends a server that was started here and works on a request that nobody waits for, and
        starts another one. Returns the addresses of the documents that are lost."""
        before, stream = set(self._in_flight.stored), self._stream
        self.watch.is_forced = True
        if stream is not None:
            stream.wake()
        try:
            self.send(query_of("()"), None).result()
        except Lost:
            pass
        finally:
            self.watch.is_forced = False
        return before - self._in_flight.stored

    # ---- the end

    def finish(self) -> int | None:
        """Ends the connection when all replies have come. Returns the server's exit status."""
        self.watch.close()
        stream = self._stream
        if stream is not None:
            stream.finish_writing()
        self._reader.join()
        return self._status

    def kill(self) -> None:
        """Ends the connection at once; requests under way fail."""
        self.watch.ended = self.watch.ended or "the connection was ended"
        stream = self._stream
        if stream is not None:
            stream.kill()
        self._reader.join()


def _unsent(request: Request) -> TimedOut:
    return TimedOut("not sent in time, because the server is busy with another request: "
                    f"{request.shown[:SHOWN]}")
