"""Where a server is: a command to start, a Unix socket, or a loopback port."""

import os
import shlex
from collections.abc import Sequence
from dataclasses import dataclass
from typing import TypeAlias

from xqs.errors import NoPlace

LOOPBACK = ("127.0.0.1", "::1", "localhost")
"""The hosts that may be connected to or listened at."""


@dataclass(frozen=True)
class UnixSocket:
    """A socket of the file system."""

    path: str

    def __str__(self) -> str:
        return f"unix:{self.path}"


@dataclass(frozen=True)
class LoopbackPort:
    """A TCP port of this machine."""

    host: str
    port: int

    def __str__(self) -> str:
        return f"tcp:{self.host}:{self.port}"


@dataclass(frozen=True)
class Command:
    """A program to start, with its words; frames go to its standard input."""

    words: tuple[str, ...]

    def __str__(self) -> str:
        return shlex.join(self.words)


Endpoint: TypeAlias = UnixSocket | LoopbackPort | Command
Where: TypeAlias = Endpoint | str | os.PathLike[str] | Sequence[str | os.PathLike[str]]
"""`unix:PATH`, `tcp:PORT`, `tcp:HOST:PORT`, a command as one text or as words, or a path."""


def endpoint(where: Where) -> Endpoint:
    """The place that a text or a list of words names.

    Raises NoPlace (a ValueError) for a host that is not loopback, an invalid port, and an invalid
    command.
    """
    if isinstance(where, UnixSocket | LoopbackPort | Command):
        return where
    if isinstance(where, str):
        return _of_text(where)
    words = [where] if isinstance(where, os.PathLike) else where
    return _command(tuple(os.fspath(word) for word in words))


def _of_text(text: str) -> Endpoint:
    scheme, colon, rest = text.partition(":")
    if colon and scheme == "unix":
        if not rest:
            raise NoPlace("unix: needs the path of a socket")
        return UnixSocket(rest)
    if colon and scheme == "tcp":
        return _port(rest)
    try:
        words = shlex.split(text)
    except ValueError as error:
        raise NoPlace(f"not a command: {text!r} ({error})") from error
    return _command(tuple(words))


def _port(text: str) -> LoopbackPort:
    host, _, port = text.rpartition(":")
    host = host.strip("[]") or LOOPBACK[0]
    if host not in LOOPBACK:
        raise NoPlace(f"not this machine: {host} (the protocol has no password and no encryption)")
    if not port.isascii() or not port.isdigit() or not 0 <= int(port) < 65536:
        raise NoPlace(f"not a port: {port!r}")
    return LoopbackPort(host, int(port))


def _command(words: tuple[str, ...]) -> Command:
    if not words or not words[0] or any("\0" in word for word in words):
        raise NoPlace("no command is given")
    return Command(words)
