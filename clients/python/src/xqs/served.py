"""A file in the background: a multiplexer serves it by a socket beside it, where each command with
that file finds it.

The socket of `x.db` is `x.db.sock`, in the folder of the file itself, after all links. It counts if
it belongs to this user or to the file's owner, and if a multiplexer answers there that serves this
file, not an earlier one of the same name.
"""

import json
import os
import socket
import stat
import time
from collections.abc import Sequence
from dataclasses import dataclass
from pathlib import Path

from xqs import control
from xqs.endpoints import Command, Endpoint, UnixSocket
from xqs.errors import NotConnected, XqError
from xqs.in_use import file_of

SUFFIX = ".sock"
LONGEST_PATH = 107
"""The longest path of a Unix socket, in bytes."""
BEGINNING = 2.0
"""How many seconds a multiplexer that listens may take until it answers requests."""
LOOK = 0.05


class NoSocket(XqError, OSError):
    """A file that can't have a socket beside it; the message says why."""


class NotThisFile(NotConnected):
    """The socket beside a file serves another one; the message says what to do."""


@dataclass(frozen=True)
class Identity:
    """The identity of a file: its device and inode, whatever its name."""

    device: int
    number: int

    @classmethod
    def of(cls, file: Path) -> "Identity | None":
        """The identity of a file; None if there is none, or it can't be read."""
        try:
            found = file.stat()
        except OSError:
            return None
        return cls(found.st_dev, found.st_ino)

    @classmethod
    def told(cls, lines: Sequence[str]) -> "Identity | None":
        """The identity in a multiplexer's answer; None if there is none."""
        try:
            device, number = json.loads(lines[0])
            return cls(int(device), int(number))
        except (IndexError, TypeError, ValueError):
            return None

    def __str__(self) -> str:
        return json.dumps([self.device, self.number])


def socket_path(file: Path) -> Path:
    """The path of a file's socket. Raises NoSocket if it would be too long."""
    whole = Path(os.path.realpath(file))
    path = whole.with_name(whole.name + SUFFIX)
    longest = len(os.fsencode(control.control_path(f"unix:{path}")))
    if longest > LONGEST_PATH:
        over = longest - LONGEST_PATH
        raise NoSocket(f"{path}: a socket's path may have {LONGEST_PATH} bytes, and this one, with "
                       f".control after it, has {over} too many: move the file to a folder with a "
                       "shorter path")
    return path


def socket_of(file: Path) -> UnixSocket | None:
    """The socket by which a file is served; None if nobody serves it, at least for this user.

    Raises NotThisFile if the server there serves another file, or doesn't say which.
    """
    try:
        path = socket_path(file)
    except NoSocket:
        return None
    if not _is_trusted(path, file) or not _listens(path):
        return None
    place = UnixSocket(str(path))
    identity = _identity_at(place)
    if identity is None:
        raise NotThisFile(f"{path}: something listens there that doesn't say which file it serves; "
                          "end it, or remove the socket")
    if identity != Identity.of(file):
        raise NotThisFile(f"{path} serves another file than {file}, which was moved or replaced "
                          f"meanwhile; `xqs stop {file}` ends that server")
    return place


def _is_trusted(path: Path, file: Path) -> bool:
    """Whether there is a socket that belongs to this user or to the owner of the file."""
    try:
        found = path.lstat()
    except OSError:
        return False
    owners = {os.getuid()}
    try:
        owners.add(file.stat().st_uid)
    except OSError:
        pass
    return stat.S_ISSOCK(found.st_mode) and found.st_uid in owners


def _listens(path: Path) -> bool:
    """Whether somebody listens at a socket that this user may connect to."""
    with socket.socket(socket.AF_UNIX) as probe:
        probe.settimeout(control.SECONDS)
        try:
            probe.connect(str(path))
        except TimeoutError:
            return True  # It has more clients waiting than it takes.
        except OSError:
            return False
    return True


def _identity_at(place: UnixSocket) -> Identity | None:
    """The file that the multiplexer at a socket says it serves; None if it says none."""
    end = time.monotonic() + BEGINNING
    while True:
        try:
            return Identity.told(list(control.ask(str(place), "file")))
        except control.NotRunning:
            if time.monotonic() > end:
                return None
        except control.Refused:
            return None
        except TimeoutError as error:
            raise NotThisFile(f"{place}: the server there did not answer within "
                              f"{control.SECONDS:g} seconds") from error
        time.sleep(LOOK)


class NotServed(XqError):
    """No multiplexer serves the file."""


def place_named(word: str) -> str:
    """The place that a word names: itself, or for a file the socket beside it.

    Raises NotServed if nobody serves the file; NoSocket, NotThisFile.
    """
    if word.startswith(("unix:", "tcp:")):
        return word
    socket_path(Path(word))
    place = socket_of(Path(word))
    if place is None:
        raise NotServed(f"{word} is not served: `xqs serve {word}` does that")
    return str(place)


def asked_at(place: Endpoint) -> Endpoint:
    """The place to connect to: the socket of the file if a command names a file that is served,
    else the place itself. Raises NotThisFile."""
    if not isinstance(place, Command):
        return place
    file = file_of(place.words)
    return (socket_of(file) if file is not None else None) or place
