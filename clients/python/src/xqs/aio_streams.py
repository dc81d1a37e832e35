"""Bytes to and from a server, for asyncio: over a connected socket, or the pipes of a program that
was started."""

import asyncio
import os
import signal
from contextlib import suppress

from xqs.bounds import Bounds
from xqs.endpoints import Command, Endpoint, UnixSocket
from xqs.starting import kept
from xqs.streams import EXIT_PATIENCE, PIECE, not_connected


class GroupProcess(asyncio.subprocess.Process):
    """A process that leads a group: a keeper, with the server below it."""

    def send_signal(self, signal: int) -> None:
        """Sends the signal to the whole group."""
        with suppress(ProcessLookupError):
            if self.returncode is None:
                os.killpg(self.pid, signal)

    def terminate(self) -> None:
        """Sends SIGTERM to the whole group."""
        self.send_signal(signal.SIGTERM)

    def kill(self) -> None:
        """Sends SIGKILL to the whole group."""
        self.send_signal(signal.SIGKILL)


class AsyncStream:
    """A stream of bytes, and the process at its other end if it was started here."""

    def __init__(self, reader: asyncio.StreamReader, writer: asyncio.StreamWriter,
                 process: asyncio.subprocess.Process | None = None) -> None:
        self.reader, self.writer, self.process = reader, writer, process

    def send(self, data: bytes) -> None:
        """Sends the bytes; waits until the stream takes them."""
        if not self.writer.is_closing():
            self.writer.write(data)

    def finish_writing(self) -> None:
        """Closes the sending side once everything has been sent."""
        with suppress(OSError):
            if self.writer.can_write_eof():
                self.writer.write_eof()
            else:
                self.writer.close()

    def kill(self) -> None:
        """Ends the stream at once, and the server with all that it started."""
        if self.process is None:
            self.writer.transport.abort()
        else:
            self.process.kill()

    async def close(self) -> int | None:
        """Releases the stream after its end. Returns the exit status of its process, if it has
        one."""
        self.writer.close()
        with suppress(OSError):
            await self.writer.wait_closed()
        if self.process is None:
            return None
        try:
            return await asyncio.wait_for(self.process.wait(), EXIT_PATIENCE)
        except asyncio.TimeoutError:
            self.kill()
            return await self.process.wait()


async def open_async_stream(place: Endpoint, bounds: Bounds) -> AsyncStream:
    """A stream to a server; starts the server if the place is a command.

    Raises NotConnected (an OSError) if there is no server.
    """
    try:
        if isinstance(place, Command):
            return await _started(place, bounds)
        if isinstance(place, UnixSocket):
            return AsyncStream(*await asyncio.open_unix_connection(place.path, limit=PIECE))
        return AsyncStream(*await asyncio.open_connection(place.host, place.port, limit=PIECE))
    except OSError as error:
        raise not_connected(place, error) from error


async def _started(place: Command, bounds: Bounds) -> AsyncStream:
    process = await asyncio.create_subprocess_exec(
        *kept(place.words, bounds.memory),
        stdin=asyncio.subprocess.PIPE,
        stdout=asyncio.subprocess.PIPE,
        limit=PIECE,
        process_group=0,
    )
    assert process.stdin is not None and process.stdout is not None
    process.__class__ = GroupProcess  # (asyncio has no way to choose the class)
    return AsyncStream(process.stdout, process.stdin, process)
