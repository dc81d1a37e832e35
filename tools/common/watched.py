"""Commands that take minutes, and end with whoever waits for them."""

from __future__ import annotations

import contextlib
import fcntl
import os
import pathlib
import signal
import subprocess
import sys
import time
from collections.abc import Callable, Iterator, Sequence
from typing import IO, Any

SECONDS_BETWEEN_LOOKS = 0.2
# Whoever started this process, and waits for it.
PARENT = os.getppid()


def end_by_signals() -> None:
    """Lets signals end this process by SystemExit, so that what it began is ended and undone."""
    for number in (signal.SIGINT, signal.SIGTERM, signal.SIGHUP):
        signal.signal(number, lambda signal_number, _: sys.exit(128 + signal_number))


def run(
    words: Sequence[str | os.PathLike[str]],
    log: IO[bytes],
    look: Callable[[int], None] = lambda pid: None,
    **how: Any,
) -> int:
    """Runs a command on no input, with all that it says in the log, and gives its exit status.

    `look` is called with its process number about five times a second. Where this process is
    interrupted, or the one that started it has ended, the command is ended first.

    Raises OSError where the command does not start, and SystemExit where the parent has ended."""
    with subprocess.Popen(
        words, stdin=subprocess.DEVNULL, stdout=log, stderr=subprocess.STDOUT, **how
    ) as started:
        try:
            while started.poll() is None:
                if os.getppid() != PARENT:
                    sys.exit(1)
                look(started.pid)
                time.sleep(SECONDS_BETWEEN_LOOKS)
        finally:
            started.terminate()
        return started.returncode


def run_side_by_side(
    commands: Sequence[Sequence[str | os.PathLike[str]]], log: IO[bytes], at_once: int
) -> list[int]:
    """Runs commands on no input, so many at once, and gives their exit statuses in this order.

    All that they say goes into the log. Where this process is interrupted, or the one that started
    it has ended, those that still run are ended first.

    Raises OSError where one does not start, and SystemExit where the parent has ended."""
    started: list[subprocess.Popen[bytes]] = []
    left = list(commands)
    try:
        while left or any(it.poll() is None for it in started):
            if os.getppid() != PARENT:
                sys.exit(1)
            while left and sum(it.poll() is None for it in started) < at_once:
                started.append(subprocess.Popen(
                    left.pop(0), stdin=subprocess.DEVNULL, stdout=log, stderr=subprocess.STDOUT))
            time.sleep(SECONDS_BETWEEN_LOOKS)
    finally:
        for it in started:
            it.terminate()
        for it in started:
            it.wait()
    return [it.returncode for it in started]


def lone(path: pathlib.Path, wait: Callable[[], None]) -> IO[str]:
    """Waits until no other process holds this file; others wait until what is given is closed.

    The file is made where it is not there. `wait` is called first where another process holds it.
    Raises OSError where the file cannot be made."""
    path.parent.mkdir(parents=True, exist_ok=True)
    lock = open(path, "w", encoding="utf-8")  # noqa: SIM115 (it is closed by whoever waits)
    try:
        fcntl.flock(lock, fcntl.LOCK_EX | fcntl.LOCK_NB)
    except BlockingIOError:
        wait()
        fcntl.flock(lock, fcntl.LOCK_EX)
    return lock


def children(pid: int) -> list[int]:
    """The processes that a process has begun and that have not ended."""
    found = []
    for path in pathlib.Path(f"/proc/{pid}/task").glob("*/children"):
        with contextlib.suppress(OSError):
            found += [int(it) for it in path.read_text().split()]
    return found


def words_below(pid: int) -> Iterator[list[str]]:
    """The words of each process below a process."""
    left = children(pid)
    for child in left:
        left += children(child)
        with contextlib.suppress(OSError):
            yield pathlib.Path(f"/proc/{child}/cmdline").read_text(errors="replace").split("\0")
