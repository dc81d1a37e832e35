"""Where a server of many clients listens: at a Unix socket or a loopback port."""

import os
import pathlib
import socket
import stat
from collections.abc import Iterator
from contextlib import contextmanager, suppress

from xqs.endpoints import LOOPBACK, LoopbackPort, UnixSocket, endpoint
from xqs.errors import XqError

BACKLOG = 128
SYSTEMD = "systemd:"
"""The place of the socket that systemd passes."""
FIRST_INHERITED = 3
"""The number of the first file descriptor that systemd passes."""


class PlaceError(XqError):
    """A place where the program can't listen; the message says why."""


def listen(where: str) -> socket.socket:
    """A socket that listens at `unix:PATH`, `tcp:PORT` or `tcp:HOST:PORT`.

    Only its owner can open a Unix socket (mode 0600). The file of a socket without a listener is
    replaced. HOST must be loopback, by default 127.0.0.1. Port 0 is any free one. Raises
    PlaceError.
    """
    try:
        if where == SYSTEMD:
            return inherited()
        place = endpoint(where)
        if isinstance(place, UnixSocket):
            return listen_unix(place.path)
        if isinstance(place, LoopbackPort):
            return listen_port(place)
    except OSError as error:
        raise PlaceError(f"{where}: {error.strerror or error}") from error
    except ValueError as error:
        raise PlaceError(f"{where}: {error}") from error
    raise PlaceError(f"{where}: neither unix:PATH nor tcp:PORT")


def inherited() -> socket.socket:
    """The one socket that systemd passes at the start. Raises PlaceError."""
    if not _is_inherited(FIRST_INHERITED) or os.environ.get("LISTEN_FDS") != "1":
        raise PlaceError(f"{SYSTEMD}: systemd passed no socket, or more than one")
    os.set_inheritable(FIRST_INHERITED, False)
    listener = socket.socket(fileno=FIRST_INHERITED)
    is_own = listener.family == socket.AF_UNIX or listener.getsockname()[0] in LOOPBACK
    if listener.type != socket.SOCK_STREAM or not is_own:
        raise PlaceError(f"{SYSTEMD}: neither a Unix socket nor a port of loopback")
    return listener


def _is_inherited(number: int) -> bool:
    return number == FIRST_INHERITED and os.environ.get("LISTEN_PID") == str(os.getpid())


def notify(state: str) -> None:
    """Tells systemd the state of this program, if systemd has started it and asks for that."""
    place = os.environ.get("NOTIFY_SOCKET")
    if not place:
        return
    with suppress(OSError), socket.socket(socket.AF_UNIX, socket.SOCK_DGRAM) as connection:
        connection.connect("\0" + place[1:] if place.startswith("@") else place)
        connection.sendall(state.encode())


def listen_unix(path: str) -> socket.socket:
    """A Unix socket that listens at the path, with mode 0600. Raises PlaceError and OSError."""
    remove_stale(path)
    listener = socket.socket(socket.AF_UNIX, socket.SOCK_STREAM)
    before = os.umask(0o177)
    try:
        listener.bind(path)
        listener.listen(BACKLOG)
    except OSError:
        listener.close()
        raise
    finally:
        os.umask(before)
    return listener


def remove_stale(path: str) -> None:
    """Removes the file of a socket at which nobody listens. Raises PlaceError and OSError."""
    try:
        mode = os.lstat(path).st_mode
    except FileNotFoundError:
        return
    if not stat.S_ISSOCK(mode):
        raise PlaceError(f"unix:{path}: there is a file that is no socket")
    with socket.socket(socket.AF_UNIX, socket.SOCK_STREAM) as probe:
        try:
            probe.connect(path)
        except ConnectionRefusedError:
            os.unlink(path)
            return
    raise PlaceError(f"unix:{path}: another program listens there")


def listen_port(place: LoopbackPort) -> socket.socket:
    """A socket that listens at the port. Raises OSError."""
    family = socket.AF_INET6 if ":" in place.host else socket.AF_INET
    listener = socket.socket(family, socket.SOCK_STREAM)
    try:
        listener.setsockopt(socket.SOL_SOCKET, socket.SO_REUSEADDR, 1)
        listener.bind(("127.0.0.1" if place.host == "localhost" else place.host, place.port))
        listener.listen(BACKLOG)
    except OSError:
        listener.close()
        raise
    return listener


def name_of(listener: socket.socket) -> str:
    """The place of a listening socket, in the form that `connect` takes."""
    address = listener.getsockname()
    if listener.family == socket.AF_UNIX:
        return f"unix:{address}"
    host = f"[{address[0]}]" if listener.family == socket.AF_INET6 else address[0]
    return f"tcp:{host}:{address[1]}"


@contextmanager
def removed_at_end(listener: socket.socket) -> Iterator[None]:
    """At the end removes the file of a Unix socket if it is still the same one. A socket of systemd
    stays."""
    if listener.family != socket.AF_UNIX or _is_inherited(listener.fileno()):
        yield
        return
    path = pathlib.Path(listener.getsockname())
    identity = identity_of(path)
    try:
        yield
    finally:
        with suppress(OSError):
            if identity_of(path) == identity:
                path.unlink()


def identity_of(path: pathlib.Path) -> tuple[int, int]:
    """The device and inode of a file. Raises OSError."""
    status = path.lstat()
    return status.st_dev, status.st_ino
