"""Helpers for tests of the multiplexer: a running one, and connections to it."""

import ctypes
import os
import signal
import socket
import struct
import subprocess
import sys
import tempfile
import time
from pathlib import Path

from tests.support import server_command

SOURCES = Path(__file__).resolve().parents[1] / "src"
PATIENCE = 30.0
PR_SET_PDEATHSIG = 1
# A query that takes hours and little memory.
ENDLESS = b"every $x in 1 to 1000000, $y in 1 to 1000000 satisfies $x > 0"


def store_body(address: bytes, query: bytes = b"document {}") -> bytes:
    """The body of a store."""
    return bytes([len(address)]) + address + query


class Connection:
    """A connection that sends frames and receives replies one by one."""

    def __init__(self, place: str) -> None:
        if place.startswith("unix:"):
            self.socket = socket.socket(socket.AF_UNIX)
            self.socket.connect(place[5:])
        else:
            host, port = place[4:].rsplit(":", 1)
            self.socket = socket.create_connection((host.strip("[]"), int(port)))
        self.socket.settimeout(PATIENCE)
        self.tag = 0

    def send(self, kind: bytes, body: bytes = b"") -> int:
        """Sends a frame. Returns its tag."""
        self.tag += 1
        self.socket.sendall(struct.pack(">IIc", 5 + len(body), self.tag, kind) + body)
        return self.tag

    def read(self, count: int) -> bytes:
        """This number of bytes, or fewer if the stream ends."""
        data = bytearray()
        while len(data) < count:
            try:
                piece = self.socket.recv(count - len(data))
            except ConnectionResetError:
                break
            if not piece:
                break
            data += piece
        return bytes(data)

    def reply(self) -> tuple[int, int, bytes] | None:
        """The tag, status and text of the next reply; None at the end of the stream."""
        head = self.read(4)
        if len(head) < 4:
            return None
        message = self.read(struct.unpack(">I", head)[0])
        return struct.unpack(">I", message[:4])[0], message[4], message[5:]

    def ask(self, kind: bytes, body: bytes = b"") -> tuple[int, bytes] | None:
        """Sends a frame. Returns the status and text of its reply, or None if the stream ends."""
        tag = self.send(kind, body)
        reply = self.reply()
        if reply is None:
            return None
        assert reply[0] == tag, (reply, tag)
        return reply[1:]

    def __enter__(self) -> "Connection":
        return self

    def __exit__(self, *_: object) -> None:
        self.socket.close()


def die_with_parent() -> None:
    """Makes the calling process be killed when the test's process ends, in any way."""
    ctypes.CDLL(None).prctl(PR_SET_PDEATHSIG, signal.SIGKILL)


def children_of(process: int) -> list[int]:
    """The process ids of a process's children."""
    found = subprocess.run(["pgrep", "-P", str(process)],
                           capture_output=True, text=True, check=False)
    return [int(word) for word in found.stdout.split()]


class Running:
    """A running command of the package, and its messages."""

    process: subprocess.Popen[bytes]
    errors: Path

    def run(
        self, words: list[str], errors: Path, environment: dict[str, str] | None = None
    ) -> None:
        """Starts the command; its messages go to a file."""
        self.errors = errors
        with errors.open("ab") as said:
            self.process = subprocess.Popen(
                [sys.executable, "-m", "xqs", *words], cwd=SOURCES, stdin=subprocess.DEVNULL,
                stdout=said, stderr=said, env=os.environ | (environment or {}),
                preexec_fn=die_with_parent)

    def said(self) -> str:
        """The messages of the command and its servers so far."""
        return self.errors.read_text()

    def wait_for(self, words: str, seconds: float = PATIENCE) -> str:
        """Waits until the words appear. Returns the rest of their line."""
        end = time.monotonic() + seconds
        while words not in self.said():
            if time.monotonic() > end or self.process.poll() is not None:
                raise AssertionError(f"{words!r} was not said: {self.said()!r}")
            time.sleep(0.01)
        return self.said().split(words)[1].split("\n")[0]

    def server_ids(self) -> list[int]:
        """The process ids of the servers that run below it, each below its keeper."""
        return [it for keeper in children_of(self.process.pid) for it in children_of(keeper)]

    def terminate(self) -> int:
        """Ends it by SIGTERM. Returns its exit status."""
        self.process.send_signal(signal.SIGTERM)
        return self.process.wait(PATIENCE)

    def end(self) -> None:
        """Ends it, in order if that doesn't take long."""
        if self.process.poll() is None:
            self.process.send_signal(signal.SIGTERM)
            try:
                self.process.wait(5)
            except subprocess.TimeoutExpired:
                self.process.kill()
                self.process.wait()


class RunningMux(Running):
    """A running multiplexer, over the server of XQS_SERVER or another command.

    `options` are words before the `--`; with `on_file` the documents are in a file of `folder`.
    There is one server, unless `servers` says otherwise: 0 is the default of `xqs mux`.
    """

    def __init__(self, *options: str, on_file: bool = True, place: str = "",
                 command: list[str] | None = None, servers: int = 1) -> None:
        self._folder = tempfile.TemporaryDirectory(prefix="xqs-mux-")
        self.folder = Path(self._folder.name)
        self.place = place or f"unix:{self.folder}/xq.sock"
        self.command = command or server_command()
        if on_file:
            self.command += ["--file", str(self.folder / "x.db")]
        some = ["--servers", str(servers)] if servers else []
        self.run(["mux", self.place, *some, *options, "--", *self.command], self.folder / "errors")
        self.place = self.wait_for("listens at ").split()[0]

    def connect(self) -> "Connection":
        """A new connection."""
        return Connection(self.place)

    def kill_server(self) -> None:
        """Ends the server below with SIGKILL."""
        (server,) = self.server_ids()
        os.kill(server, signal.SIGKILL)

    def __enter__(self) -> "RunningMux":
        return self

    def __exit__(self, *_: object) -> None:
        self.end()
        said = self.said()
        self._folder.cleanup()
        assert "Traceback" not in said and "exception" not in said, said
