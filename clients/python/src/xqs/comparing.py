"""Checks that the servers give the same answers: sends one read in many to all of them."""

import asyncio
import contextlib
import os
import random
import time
from collections.abc import Callable, Sequence
from pathlib import Path

from xqs.in_use import file_of
from xqs.mux_backend import ServerEnded
from xqs.mux_peer import Request
from xqs.protocol import Status
from xqs.replicas import STOPPED, Replicas
from xqs.waiting import cancelled

SAMPLE = 60
"""How many reads the sample holds."""
LARGEST = 20_000
"""The longest request in the sample, in bytes."""
LONGEST = 0.25
"""Slower reads, in seconds, are not compared: each would occupy all servers."""


def evidence_folder(command: Sequence[str]) -> Path:
    """Where different replies are saved: beside the file of the documents, else in the user's state
    folder."""
    file = file_of(command)
    if file is not None:
        return file.absolute().parent
    state = os.environ.get("XDG_STATE_HOME") or Path.home() / ".local" / "state"
    return Path(state) / "xqs"


def write_evidence(folder: Path, payload: bytes, replies: Sequence[tuple[str, bytes]]) -> Path:
    """Saves a request and its replies in a file of its own. Raises OSError."""
    folder.mkdir(parents=True, exist_ok=True)
    name = f"xqs-differs-{time.strftime('%Y%m%d-%H%M%S')}-{os.getpid()}-{os.urandom(3).hex()}"
    path = folder / name
    number = os.open(path, os.O_WRONLY | os.O_CREAT | os.O_EXCL, 0o600)
    with open(number, "wb") as file:
        file.write(f"a request of kind {payload[:1].decode('latin-1')}, {len(payload) - 1} bytes\n"
                   .encode() + payload[1:] + b"\n")
        for name, reply in replies:
            head = f"the reply of {name}: "
            head += f"status {reply[0]}, {len(reply) - 1} bytes\n" if reply else "not known\n"
            file.write(head.encode() + reply[1:] + b"\n")
        file.flush()
        os.fsync(file.fileno())
    return path


class Comparing:
    """Compares replies, and stops all writes if two differ.

    `count` is how many reads were compared. `sample` holds some of the clients' reads.
    """

    def __init__(self, replicas: Replicas, every: int, command: Sequence[str],
                 say: Callable[[str], None]) -> None:
        self._replicas, self._every, self._command, self._say = replicas, every, command, say
        self._reads = 0
        self.count = 0
        self.sample: list[bytes] = []
        self._tasks: set[asyncio.Task[None]] = set()
        replicas.on_differ = self.differ
        replicas.on_read = self._note

    def _note(self, request: Request, reply: bytes) -> None:
        if reply[0] == Status.WANTING or time.monotonic() - request.sent >= LONGEST:
            return
        self._reads += 1
        self._keep(request.payload)
        if self._every and self._reads % self._every == 0 and not self._tasks:
            task = asyncio.create_task(self._compare(request.payload))
            self._tasks.add(task)
            task.add_done_callback(self._tasks.discard)

    def _keep(self, payload: bytes) -> None:
        """Keeps a sample that each read has an equal chance to be in."""
        if len(payload) > LARGEST:
            return
        if len(self.sample) < SAMPLE:
            self.sample.append(payload)
        elif (at := random.randrange(self._reads)) < SAMPLE:
            self.sample[at] = payload

    async def _compare(self, payload: bytes) -> None:
        with contextlib.suppress(ServerEnded):
            async with self._replicas.still():
                asked = [(it.name, it.asked(payload)) for it in self._replicas.ready()]
            replies = [(name, await it.done) for name, it in asked]
            sure = [it for it in replies if it[1][0] != Status.WANTING]
            self.count += 1
            if len({reply for _, reply in sure}) > 1:
                self.differ(payload, sure)

    def differ(self, payload: bytes, replies: Sequence[tuple[str, bytes]]) -> None:
        """Stops all writes, and saves the replies that differ."""
        if self._replicas.differs:
            return
        self._replicas.differs = "servers gave different replies to one request"
        try:
            path = write_evidence(evidence_folder(self._command), payload, replies)
            where = f"the request and the replies are in {path}"
        except OSError as error:
            where = f"they could not be saved ({error})"
        names = " and ".join(name for name, _ in replies)
        self._say(f"{names} gave different replies to one request: nothing is stored or dropped "
                  f"any more; {where}")
        self._replicas.refuse_writes(STOPPED)

    async def stop(self) -> None:
        """Ends all comparisons."""
        await cancelled(*self._tasks)
