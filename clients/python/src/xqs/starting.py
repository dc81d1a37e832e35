"""Starts servers, each below a keeper, so that it ends with this process."""

import errno
import os
import shutil
import signal
import sys
from collections.abc import Sequence
from pathlib import Path

KEEPER = Path(__file__).with_name("keeper.py")
START_DELAYS = (0.0, 0.1, 0.5, 1.0, 2.0)
"""Seconds before each new try to start a server. After the last try it is given up, unless other
servers hold its documents."""
KEPT, MOST_KEPT = 128, 1 << 20
"""The megabytes that a server's cache has unless its command says otherwise, and the most that a
command may say."""
ISOLATED = ("-I", "-S")
"""The keeper needs only the standard library, and starts sooner without the rest."""


def kept(command: Sequence[str], memory: int | None) -> list[str]:
    """The words that run a server so that it ends with this process, within this much memory.

    They must run as the leader of a process group (`process_group=0`): killing the group ends the
    server with all that it started. Raises OSError if there is no such command.
    """
    _find(command[0])
    python = sys.executable or "python3"
    return [python, *ISOLATED, str(KEEPER), str(os.getpid()), str(memory or 0), *command]


def _find(program: str) -> None:
    """Raises OSError if the program can't be run, as its `exec` would."""
    if shutil.which(program) is None:
        number = errno.EACCES if os.path.exists(program) else errno.ENOENT
        raise OSError(number, os.strerror(number), program)


def how_ended(status: int | None) -> str:
    """How a process ended, in words."""
    if status is None:
        return "it runs"
    if status < 0:
        return f"ended by {signal.Signals(-status).name}"
    return f"exit status {status}"


def is_on_file(command: Sequence[str]) -> bool:
    """Whether a server's command says that its documents are in a file."""
    return _names(command, "--file")


def keeping(command: Sequence[str], megabytes: int, servers: int) -> list[str]:
    """The words of a server's command with its equal share of the cache of all servers (0: what
    each has by itself). A command that has its own share is left as it is."""
    share = max(1, megabytes // servers)
    if not megabytes or share == KEPT or _names(command, "--kept"):
        return list(command)
    return [*command, "--kept", str(share)]


def _names(command: Sequence[str], option: str) -> bool:
    return any(word == option or word.startswith(f"{option}=") for word in command)


def in_memory(command: Sequence[str]) -> list[str]:
    """The words of a server's command without its file."""
    words: list[str] = []
    is_path = False
    for word in command:
        if is_path or word == "--file":
            is_path = not is_path
        elif not word.startswith("--file="):
            words.append(word)
    return words
