"""A harness for the scripts: a server that is run, frames to it, replies as (status, text).

It knows one tag and ends the script where a reply has another. Its frames and addresses may be
such that the server refuses; those of `xqs.protocol` may not, and programs use that.
"""

import contextlib
import os
import pathlib
import subprocess
import sys
from collections.abc import Iterable
from typing import IO, Any, TypeAlias

from tools.common.repository import BUILT, TOP
from xqs.protocol import framed, tag_of

LIBRARY = (b'document {element lib {element book {attribute id {"1"}, text {"A"}}, '
           b'element book {attribute id {"2"}, text {"B"}}}}')
TAG = 7
Reply: TypeAlias = tuple[int, bytes]
"""The status and the text of a reply."""


def frame(kind: bytes, body: bytes = b"") -> bytes:
    """The frame of a request: its length, tag and kind, and the body."""
    return framed(TAG.to_bytes(4, "big") + kind + body)


def store(address: bytes, text: bytes) -> bytes:
    """The body of a store: the address after its length, and the query."""
    return bytes([len(address)]) + address + text


def built() -> pathlib.Path:
    """The path of the program, which is proved and built first where it is not there."""
    if not BUILT.exists():
        subprocess.run(
            [TOP / "serve"], stdin=subprocess.DEVNULL, stdout=subprocess.DEVNULL, check=True)
    return BUILT


def _there(stream: IO[bytes] | None) -> IO[bytes]:
    assert stream is not None
    return stream


class Server:
    """A running server. It may end or be killed at any time: what is sent then is lost."""

    def __init__(self, command: Iterable[object], **how: Any) -> None:
        """The words of the command are texts or paths; `how` are further words of Popen."""
        self.process: subprocess.Popen[bytes] = subprocess.Popen(
            [str(word) for word in command], stdin=subprocess.PIPE,
            stdout=subprocess.PIPE, stderr=subprocess.PIPE, bufsize=0, **how)
        self._in = _there(self.process.stdin)
        self._out = _there(self.process.stdout)
        self._errors = _there(self.process.stderr)

    def send(self, data: bytes) -> None:
        """Sends bytes, as far as the server takes them."""
        with contextlib.suppress(BrokenPipeError):
            while data:
                data = data[os.write(self._in.fileno(), data):]

    def read(self, count: int) -> bytes:
        """So many bytes of replies, or fewer where the server ends."""
        data = bytearray()
        while len(data) < count:
            piece = os.read(self._out.fileno(), count - len(data))
            if not piece:
                break
            data += piece
        return bytes(data)

    def reply(self) -> Reply | None:
        """The next reply, status and text, or None where the server ends before its last byte."""
        head = self.read(4)
        if len(head) < 4:
            return None
        length = int.from_bytes(head, "big")
        message = self.read(length)
        if len(message) < length:
            return None
        if tag_of(message) != TAG:
            sys.exit(f"a reply with another tag: {message[:40].hex()}")
        return message[4], message[5:]

    def ask(self, kind: bytes, body: bytes = b"") -> Reply | None:
        """Sends a request, and waits for its reply."""
        self.send(frame(kind, body))
        return self.reply()

    def answer(self, kind: bytes, body: bytes = b"") -> Reply:
        """Sends a request, and gives its reply; ends the script where the server ended."""
        return self.ask(kind, body) or sys.exit("the server ended before its reply")

    def end(self) -> tuple[int, str]:
        """Ends the input, and gives the exit status and what stood on standard error."""
        self._in.close()
        self._out.read()
        line = self._errors.read().decode()
        self._out.close()
        self._errors.close()
        return self.process.wait(), line

    def kill(self) -> None:
        """Ends the process at once, wherever it is, and waits until it has ended."""
        self.process.kill()
        self.process.wait()
