"""Bytes to and from a server, for threads: over a connected socket, or the pipes of a program that
was started. Nothing here waits longer than its caller says."""

import os
import select
import socket
import subprocess
import threading
import time
from collections import deque
from contextlib import suppress

from xqs.bounds import Bounds
from xqs.endpoints import Command, Endpoint, UnixSocket
from xqs.errors import NotConnected
from xqs.starting import kept

PIECE = 1 << 18
"""The most bytes of replies that are read at once."""
EXIT_PATIENCE = 60.0
"""How many seconds a server has to end after its output has ended, before it is killed."""


class Stream:
    """Bytes to and from a server. One thread reads, any thread sends.

    Bytes that could not be sent in time stay here, and the reading thread sends them.
    """

    process: subprocess.Popen[bytes] | None = None

    def __init__(self, reading: int, writing: int) -> None:
        self._reading, self._writing = reading, writing
        for number in (reading, writing):
            os.set_blocking(number, False)
        self._rest: deque[memoryview] = deque()
        self._lock = threading.Lock()
        self._is_finishing = self._is_finished = False
        self._woken, self._waking = os.pipe2(os.O_NONBLOCK | os.O_CLOEXEC)
        self._poller = select.poll()
        for number in (reading, self._woken):
            self._poller.register(number, select.POLLIN)

    def send(self, data: bytes, deadline: float | None = None) -> None:
        """Sends the bytes. Raises TimeoutError if they have not left by the deadline, and keeps the
        rest to send later; OSError if the stream has ended."""
        self.put(data)
        while not self._flush():
            poller = select.poll()
            poller.register(self._writing, select.POLLOUT)
            if not poller.poll(_milliseconds(deadline)):
                self.wake()
                raise TimeoutError

    def put(self, data: bytes) -> None:
        """Leaves the bytes to the reading thread to send."""
        self._rest.append(memoryview(data))

    def _flush(self) -> bool:
        """Sends as much as possible at once. Returns whether that was all."""
        with self._lock:
            if self._is_finished:
                raise BrokenPipeError("the connection was closed")
            while self._rest:
                first = self._rest[0]
                try:
                    count = self._write(first)
                except BlockingIOError:
                    return False
                if count < len(first):
                    self._rest[0] = first[count:]
                else:
                    self._rest.popleft()
            if self._is_finishing:
                self._finish()
            return True

    def receive(self, deadline: float | None) -> bytes | None:
        """The next bytes, none at the end; None after the deadline, or after `wake`."""
        if self._rest and not self._is_finished:
            ready = self._send_on(deadline)
        else:
            events = self._poller.poll(_milliseconds(deadline))
            if len(events) == 1 and events[0][0] == self._reading:
                return self._read(PIECE)
            ready = dict(events)
        if self._woken in ready:
            os.read(self._woken, 1 << 12)
        if not ready.get(self._reading, 0) & ~select.POLLOUT:
            return None
        try:
            return self._read(PIECE)
        except BlockingIOError:
            return None

    def _send_on(self, deadline: float | None) -> dict[int, int]:
        """Sends what was left, as soon as it goes out. Returns what came meanwhile."""
        poller = select.poll()
        poller.register(self._woken, select.POLLIN)
        poller.register(self._writing, select.POLLOUT)
        both = select.POLLIN | (select.POLLOUT if self._reading == self._writing else 0)
        poller.register(self._reading, both)
        ready = dict(poller.poll(_milliseconds(deadline)))
        with suppress(OSError):  # (reading shows an end)
            self._flush()
        return ready

    def wake(self) -> None:
        """Wakes the reading thread."""
        with self._lock, suppress(OSError):
            os.write(self._waking, b"w")

    def finish_writing(self) -> None:
        """Closes the sending side once everything has been sent."""
        with self._lock:
            self._is_finishing = True
            if not self._rest and not self._is_finished:
                self._finish()
        self.wake()

    def _finish(self) -> None:
        """Closes the sending side. The caller holds the lock."""
        self._is_finished = True
        with suppress(OSError):
            self._end_writing()

    def kill(self) -> None:
        """Ends the stream at once."""
        raise NotImplementedError

    def wait(self) -> None:
        """After the end of the input: makes senders fail, since nothing takes their bytes."""
        self.kill()

    def close(self) -> int | None:
        """Releases the stream after its end. Returns the exit status of its process, if it has
        one."""
        with self._lock:
            self._rest.clear()
            if not self._is_finished:
                self._finish()
        status = self._close()
        with self._lock:
            for number in (self._woken, self._waking):
                with suppress(OSError):
                    os.close(number)
            self._woken = self._waking = -1
        return status

    def _write(self, data: memoryview) -> int:
        raise NotImplementedError

    def _read(self, count: int) -> bytes:
        raise NotImplementedError

    def _end_writing(self) -> None:
        raise NotImplementedError

    def _close(self) -> int | None:
        raise NotImplementedError


class SocketStream(Stream):
    """A connected socket."""

    def __init__(self, connection: socket.socket) -> None:
        self._socket = connection
        super().__init__(connection.fileno(), connection.fileno())

    def _write(self, data: memoryview) -> int:
        return self._socket.send(data)

    def _read(self, count: int) -> bytes:
        return self._socket.recv(count)

    def _end_writing(self) -> None:
        self._socket.shutdown(socket.SHUT_WR)

    def kill(self) -> None:
        """Ends the connection at once."""
        with suppress(OSError):
            self._socket.shutdown(socket.SHUT_RDWR)

    def _close(self) -> None:
        self._socket.close()


class GroupProcess(subprocess.Popen[bytes]):
    """A process that leads a group: a keeper, with the server below it."""

    def send_signal(self, sig: int) -> None:
        """Sends the signal to the whole group."""
        if self.poll() is None:
            with suppress(ProcessLookupError):
                os.killpg(self.pid, sig)


class ProcessStream(Stream):
    """The standard input and output of a program that was started."""

    process: subprocess.Popen[bytes]

    def __init__(self, command: Command, memory: int | None = None) -> None:
        """Raises OSError if it can't be started."""
        # In a group of its own: Ctrl+C at a terminal is for this program, not for the server.
        self.process = GroupProcess(
            kept(command.words, memory),
            stdin=subprocess.PIPE,
            stdout=subprocess.PIPE,
            bufsize=0,
            process_group=0,
        )
        assert self.process.stdin is not None and self.process.stdout is not None
        self._in, self._out = self.process.stdin, self.process.stdout
        super().__init__(self._out.fileno(), self._in.fileno())

    def _write(self, data: memoryview) -> int:
        return os.write(self._writing, data)

    def _read(self, count: int) -> bytes:
        return os.read(self._reading, count)

    def _end_writing(self) -> None:
        self._in.close()

    def kill(self) -> None:
        """Kills the server with all that it started."""
        self.process.kill()

    def wait(self) -> None:
        """Waits for the end of the process, and kills it if it doesn't end."""
        try:
            self.process.wait(EXIT_PATIENCE)
        except subprocess.TimeoutExpired:
            self.kill()

    def _close(self) -> int:
        self.wait()
        self._out.close()
        return self.process.wait()


def _milliseconds(deadline: float | None) -> float | None:
    return None if deadline is None else max(deadline - time.monotonic(), 0) * 1000


def open_stream(place: Endpoint, bounds: Bounds, timeout: float | None = None) -> Stream:
    """A stream to a server; starts the server if the place is a command.

    Raises NotConnected (an OSError) if there is none; a socket is tried for `seconds`.
    """
    try:
        if isinstance(place, Command):
            return ProcessStream(place, bounds.memory)
        if isinstance(place, UnixSocket):
            return SocketStream(_unix(place.path, timeout))
        return SocketStream(socket.create_connection((place.host, place.port), timeout))
    except OSError as error:
        raise not_connected(place, error) from error


def _unix(path: str, timeout: float | None) -> socket.socket:
    connection = socket.socket(socket.AF_UNIX)
    try:
        connection.settimeout(timeout)
        connection.connect(path)
    except OSError:
        connection.close()
        raise
    return connection


def not_connected(place: Endpoint, error: OSError) -> NotConnected:
    """The error for a place without a server."""
    what = place.words[0] if isinstance(place, Command) else str(place)
    return NotConnected(error.errno, error.strerror or str(error), what)
