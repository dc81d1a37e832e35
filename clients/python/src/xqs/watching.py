"""What the system says about a running server: whether it is stopped, and how much memory it
uses."""

import os
import signal
from collections.abc import Iterable
from pathlib import Path

from xqs.mux_backend import Backend
from xqs.mux_peer import TOO_LARGE, TOO_SLOW
from xqs.protocol import FRAME_LIMIT
from xqs.replica import Replica

PROCESSES = Path("/proc")
DEEPEST = 4
"""How many processes may be between the keeper and a server, as when a script starts it."""
NEARLY = 0.9
"""A server that uses this share of its memory while it is idle is started again."""
MUCH = 0.7
"""A server that ends by a signal while it uses this share of its memory is taken to have ended
because of that."""
STOPPED = "T"
MEMORY_STATUS = 1
"""The exit status of a server that had no room for a frame or its reply."""


def below(process: int) -> list[int]:
    """The process and its descendants."""
    found, last = [process], [process]
    for _ in range(DEEPEST):
        last = [it for parent in last for it in _children(parent)]
        found += last
    return found


def _children(process: int) -> list[int]:
    try:
        text = (PROCESSES / str(process) / "task" / str(process) / "children").read_text()
    except OSError:
        return []
    return [int(it) for it in text.split()]


def is_stopped(keeper: int) -> bool:
    """Whether a server, or its keeper, was stopped as a process."""
    return any(_state(it) == STOPPED for it in below(keeper))


class Stopped:
    """Servers that were stopped as processes, and not only for a moment."""

    def __init__(self) -> None:
        self._before: set[Replica] = set()

    def look(self, replicas: Iterable[Replica]) -> set[Replica]:
        """Those that were also stopped at the last check."""
        seen = {it for it in replicas if it.runs and is_stopped(it.backend.process.pid)}
        lasting, self._before = seen & self._before, seen
        return lasting


def _state(process: int) -> str:
    try:
        text = (PROCESSES / str(process) / "stat").read_text(errors="replace")
    except OSError:
        return ""
    return text.rpartition(")")[2].split()[0]


def addresses_of(keeper: int) -> int:
    """The address space, in bytes, of the largest process below a keeper; its bound limits that."""
    return max((_pages(it)[0] for it in below(keeper)[1:]), default=0)


def resident(keeper: int) -> int:
    """The bytes of memory that the server uses."""
    return sum(_pages(it)[1] for it in below(keeper)[1:])


def _pages(process: int) -> tuple[int, int]:
    try:
        fields = (PROCESSES / str(process) / "statm").read_text().split()
    except OSError:
        return 0, 0
    size = os.sysconf("SC_PAGE_SIZE")
    return int(fields[0]) * size, int(fields[1]) * size


def is_large(keeper: int, memory: int | None) -> bool:
    """Whether a server has nearly all of the memory that it may have."""
    return memory is not None and addresses_of(keeper) > memory * NEARLY


def blame(replica: Replica) -> bytes | None:
    """The reply to the request that a server worked on, if that request is known to have ended
    it."""
    if replica.backend.overdue:
        return TOO_SLOW
    if ended_by_memory(replica.backend, replica.why, replica.resident, replica.memory):
        return TOO_LARGE
    return None


def ended_by_memory(backend: Backend, why: str, seen: int, memory: int | None) -> bool:
    """Whether a server ended because memory ran out: it said so, or the system ended it while it
    used most of what it may. `why` is set if it was ended from here."""
    status = backend.process.returncode
    if why or status is None or backend.frames >= FRAME_LIMIT:
        return False
    if status == MEMORY_STATUS:
        return True
    killed = status in (-signal.SIGKILL, -signal.SIGABRT)
    return killed and memory is not None and seen > memory * MUCH
