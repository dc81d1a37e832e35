"""How to ask a running multiplexer for its status, or to give it another program.

Beside the place for clients it has a socket of its own, which only its owner can open. A request is
one line: `status`, `metrics`, `process`, `file`, `stop`, `changes` and an address, or `upgrade` and
the words of a command as JSON. The answer is lines. The last one is `done`, or `refused` and the
reason.
"""

import asyncio
import json
import os
import socket
import stat
import tempfile
from collections.abc import AsyncIterator, Awaitable, Callable, Iterator, Mapping
from contextlib import asynccontextmanager, suppress
from pathlib import Path

from xqs.endpoints import LoopbackPort, UnixSocket, endpoint
from xqs.errors import XqError
from xqs.listening import PlaceError, listen_unix, removed_at_end

MOST = 1 << 16
"""The longest line, in bytes."""
SECONDS = 10.0
"""How long the answer to a question may take, in seconds; an upgrade may take longer."""

Say = Callable[[str], Awaitable[None]]
Action = Callable[[str, Say], Awaitable[None]]
"""Carries out a request with this argument, and passes lines to `say`. Raises XqError to refuse
it."""


class NotRunning(XqError):
    """No multiplexer runs at the place."""


class Refused(XqError):
    """The multiplexer refused the request."""


def control_path(place: str) -> Path:
    """The control socket of the multiplexer that listens at a place. Raises PlaceError."""
    where = endpoint(place)
    if isinstance(where, UnixSocket):
        return Path(f"{where.path}.control")
    if isinstance(where, LoopbackPort):
        return own_folder() / f"mux-{where.port}.control"
    raise PlaceError(f"{place}: neither unix:PATH nor tcp:PORT")


def own_folder() -> Path:
    """A folder of this user for sockets. Raises PlaceError if the folder belongs to another
    user."""
    runtime = os.environ.get("XDG_RUNTIME_DIR")
    folder = Path(runtime) / "xqs" if runtime else Path(
        tempfile.gettempdir()) / f"xqs-{os.getuid()}"
    with suppress(FileExistsError):
        folder.mkdir(mode=0o700)
    status = folder.lstat()
    if not stat.S_ISDIR(status.st_mode) or status.st_uid != os.getuid() or status.st_mode & 0o077:
        raise PlaceError(f"{folder} is not a folder of this user's alone")
    return folder


@asynccontextmanager
async def listening(place: str, actions: Mapping[str, Action],
                    note: Callable[[str], None]) -> AsyncIterator[None]:
    """A context in which the multiplexer at a place answers requests. If its socket can't be made,
    a message says so, and the multiplexer serves without it."""
    try:
        listener = listen_unix(str(control_path(place)))
    except (PlaceError, OSError) as error:
        note(f"it can't be asked for its status: {error}")
        yield
        return

    async def serve(reader: asyncio.StreamReader, writer: asyncio.StreamWriter) -> None:
        # (asyncio reports that on standard error if it is cancelled at the end)
        with suppress(asyncio.CancelledError):
            await _serve(actions, reader, writer)

    with removed_at_end(listener):
        server = await asyncio.start_unix_server(serve, sock=listener, limit=MOST)
        try:
            yield
        finally:
            server.close()


async def _serve(actions: Mapping[str, Action], reader: asyncio.StreamReader,
                 writer: asyncio.StreamWriter) -> None:
    """Answers one request."""

    async def say(text: str) -> None:
        writer.write(text.rstrip("\n").encode() + b"\n")
        await writer.drain()

    try:
        with suppress(OSError):
            try:
                line = (await asyncio.wait_for(reader.readline(), SECONDS)).decode(errors="replace")
                name, _, argument = line.strip().partition(" ")
                if name not in actions:
                    raise Refused(f"there is no {name[:20]!r}")
                await actions[name](argument, say)
                await say("done")
            except (XqError, ValueError, TimeoutError) as error:
                await say(f"refused {str(error) or 'it took too long'}".replace("\n", " "))
    finally:
        writer.close()


def ask(place: str, request: str, seconds: float | None = SECONDS) -> Iterator[str]:
    """Sends a request to the multiplexer at a place. Returns the lines of its answer.

    Raises NotRunning if there is none, Refused, and TimeoutError if no answer comes in time.
    """
    path = control_path(place)
    with socket.socket(socket.AF_UNIX) as connection:
        connection.settimeout(seconds)
        try:
            connection.connect(str(path))
        except OSError as error:
            raise NotRunning(f"no multiplexer of this user runs at {place} ({path}: "
                             f"{error.strerror})") from error
        connection.sendall(request.encode() + b"\n")
        with connection.makefile("r", encoding="utf-8", errors="replace") as answers:
            for line in answers:
                word, _, rest = line.rstrip("\n").partition(" ")
                if word == "done" and not rest:
                    return
                if word == "refused":
                    raise Refused(rest)
                yield line.rstrip("\n")
    raise NotRunning("the multiplexer ended before it answered")


def command_of(argument: str) -> list[str]:
    """The words of a command in a request, from JSON. Raises ValueError."""
    words = json.loads(argument)
    if not isinstance(words, list) or not words or not all(isinstance(it, str) for it in words):
        raise ValueError("no command is given")
    return words
