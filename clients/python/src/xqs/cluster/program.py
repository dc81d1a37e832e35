"""Which program a server's command runs: the one whose process answers, behind any scripts."""

import asyncio
import hashlib
import os
import re
from collections.abc import Sequence
from pathlib import Path

from xqs.errors import XqError
from xqs.mux_backend import Backend

SHOWN = 16
"""How many digits of a checksum name a program."""
_INTERPRETERS = re.compile(r"(python|perl|ruby|node|bash|dash|sh|busybox)[0-9.]*")
"""Interpreters, whose own bytes say nothing: the file that they run counts."""


class NoProgram(XqError):
    """A command whose program can't be read."""


async def name_of_running(command: Sequence[str]) -> str:
    """The checksum of the program that answers when the command runs, behind scripts and other
    programs that start it. Raises StartFailed, NoProgram."""
    backend = await Backend.start(command, lambda request, reply: None, None)
    try:
        return await asyncio.to_thread(name_of_process, _last_child(backend.process.pid))
    finally:
        backend.kill()
        await backend.ended.wait()


def name_of_process(process: int) -> str:
    """The checksum of the program of a process. Raises NoProgram."""
    try:
        digest = hashlib.sha256(Path(f"/proc/{process}/exe").read_bytes())
        if script := _script(process):
            digest.update(script.read_bytes())
    except OSError as error:
        raise NoProgram(f"the server's program can't be read ({error}): give its name by --program"
                        ) from error
    return f"checksum {digest.hexdigest()[:SHOWN]}"


def _last_child(process: int) -> int:
    """The last process in the chain that a process started."""
    while children := _children(process):
        process = children[-1]
    return process


def _children(process: int) -> list[int]:
    try:
        text = Path(f"/proc/{process}/task/{process}/children").read_text()
        return [int(word) for word in text.split()]
    except OSError:
        return [it for it in _processes() if _parent(it) == process]


def _processes() -> list[int]:
    return [int(it) for it in os.listdir("/proc") if it.isdigit()]


def _parent(process: int) -> int:
    try:
        fields = Path(f"/proc/{process}/stat").read_text().rpartition(")")[2].split()
        return int(fields[1])
    except (OSError, IndexError, ValueError):
        return 0


def _script(process: int) -> Path | None:
    """The file that an interpreter runs; None if the process is none."""
    name = Path(os.readlink(f"/proc/{process}/exe")).name
    if not _INTERPRETERS.fullmatch(name):
        return None
    words = Path(f"/proc/{process}/cmdline").read_bytes().split(b"\0")[1:]
    folder = Path(f"/proc/{process}/cwd")
    for word in words:
        path = folder / os.fsdecode(word)
        if word and not word.startswith(b"-") and path.is_file():
            return path
    return None
