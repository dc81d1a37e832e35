"""Why a server could not open its file: usually because another program has it open."""

import os
import re
import shlex
from collections.abc import Iterator, Sequence
from dataclasses import dataclass
from pathlib import Path

from xqs.starting import KEEPER

PROCESSES = Path("/proc")
LOCKS = PROCESSES / "locks"
_LOCK = re.compile(r" (?P<process>\d+) (?P<device>[0-9a-f]+:[0-9a-f]+):(?P<inode>\d+) ")
UNSTARTED = "the server ended as it started"
_SERVE = "serve"
"""The `xqs` command that serves a file in the background, as a word of a process's command."""
SHOWN = 100
"""How many characters of a command a message shows."""


@dataclass(frozen=True)
class Holder:
    """A process that has a file open: its number and its words, or no words if they can't be
    read."""

    process: int
    words: tuple[str, ...]

    def __str__(self) -> str:
        command = shlex.join(self.words)[:SHOWN] if self.words else "a program of another user"
        return f"process {self.process} ({command})"


def words_of(process: int) -> tuple[str, ...]:
    """The words of a process; none if they can't be read."""
    try:
        text = (PROCESSES / str(process) / "cmdline").read_bytes()
    except OSError:
        return ()
    return tuple(os.fsdecode(it) for it in text.split(b"\0")[:-1])


def parent_of(process: int) -> int:
    """The parent of a process; 0 if unknown."""
    try:
        text = (PROCESSES / str(process) / "stat").read_text(encoding="utf-8", errors="replace")
    except OSError:
        return 0
    return int(text.rpartition(")")[2].split()[1])


def holders(path: Path) -> list[Holder]:
    """The processes that have the file open or locked, as far as this user can see them."""
    try:
        wanted = path.stat()
    except OSError:
        return []
    found = {*_with_open(wanted), *_with_lock(wanted)} - {os.getpid()}
    return [Holder(it, words_of(it)) for it in sorted(found)]


def _with_open(wanted: os.stat_result) -> Iterator[int]:
    """The processes of this user that have it open."""
    for place in PROCESSES.glob("[0-9]*/fd/*"):
        try:
            if os.path.samestat(place.stat(), wanted):
                yield int(place.parts[2])
        except OSError:
            continue


def _with_lock(wanted: os.stat_result) -> Iterator[int]:
    """The processes of any user that have it locked."""
    try:
        text = LOCKS.read_text(encoding="ascii")
    except OSError:
        return
    device = f"{os.major(wanted.st_dev):02x}:{os.minor(wanted.st_dev):02x}"
    for found in _LOCK.finditer(text):
        if found["device"] == device and int(found["inode"]) == wanted.st_ino:
            yield int(found["process"])


def starter_of(holder: Holder) -> Holder | None:
    """The process above the keeper that started a server which holds a file; None if there is
    none."""
    keeper = parent_of(holder.process)
    if str(KEEPER.name) not in " ".join(words_of(keeper)):
        return None
    process = parent_of(keeper)
    return Holder(process, words_of(process)) if process else None


def file_of(command: Sequence[str]) -> Path | None:
    """The file in the words of a server's command."""
    for number, word in enumerate(command):
        if word == "--file" and number + 1 < len(command):
            return Path(command[number + 1])
        if word.startswith("--file="):
            return Path(word.removeprefix("--file="))
    return None


def why_not_opened(command: Sequence[str]) -> str:
    """Why a server could not open the file of its command, and what to do; empty if unknown."""
    path = file_of(command)
    if path is None:
        return ""
    found = holders(path)
    if found:
        starters = [starter_of(it) for it in found]
        by = [f"{it}{f', started by {starter}' if starter else ''}"
              for it, starter in zip(found, starters, strict=True)]
        served = [file_of(it.words) for it, starter in zip(found, starters, strict=True)
                  if starter is not None and _SERVE in starter.words]
        return f"{path} is in use by {' and '.join(by)}: {_advice(path, served)}"
    folder = path.parent
    if not folder.is_dir():
        return f"there is no folder {folder}"
    if path.is_dir():
        return f"{path} is a folder"
    place = path if path.exists() else folder
    if not os.access(place, os.R_OK | os.W_OK):
        return f"{place} can't be read and written by this user"
    return ""


def _advice(path: Path, served: Sequence[Path | None]) -> str:
    """What to do about the processes that hold a file; some serve it under these names."""
    if served:
        return ("`xqs serve` is opening or closing it, so try again, or serves it under another "
                f"name; `xqs stop {served[0] or path}` ends that")
    return f"end that process, or share the file (`xqs serve {path}` serves it to many clients)"


def ended_at_start(command: Sequence[str], how: str) -> str:
    """The message about a server that ended before its first reply; `how` says how it ended."""
    why = why_not_opened(command)
    return f"{UNSTARTED}: {how}" + (f"; {why}" if why else "")
