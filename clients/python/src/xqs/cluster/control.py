"""How `xqs snapshot` asks a running node: by a socket in the node's folder of snapshots.

A request is one line, as `snapshot`, `end`, `status` or `skip PLACE`. The answer is `done` or
`refused`, a space, and a line of text.
"""

import asyncio
import socket
from collections.abc import Awaitable, Callable, Mapping
from pathlib import Path

from xqs.errors import XqError

NAME = "control"
MOST = 4096
"""The longest line, in bytes."""

Action = Callable[[str], Awaitable[str]]
"""Carries out a request, with the words after its first one."""
ANSWER = 600.0
"""Seconds for an answer: a large snapshot takes time."""


class NotRunning(XqError):
    """No node runs that writes its snapshots to the folder."""


def control_path(folder: Path) -> Path:
    """The socket of the node that writes its snapshots to the folder."""
    return folder / NAME


async def serve(
    actions: Mapping[str, Action], reader: asyncio.StreamReader, writer: asyncio.StreamWriter
) -> None:
    """Answers one request."""
    try:
        line = (await reader.readline()).decode(errors="replace").strip()
        word, _, rest = line.partition(" ")
        action = actions.get(word)
        if action is None:
            answer = f"refused there is no {line[:20]!r}"
        else:
            answer = f"done {await action(rest)}"
    except (XqError, OSError, ValueError) as error:
        answer = f"refused {error}"
    try:
        writer.write(answer.replace("\n", " ").encode() + b"\n")
        await writer.drain()
    except OSError:
        pass
    finally:
        writer.close()


def ask(folder: Path, request: str) -> tuple[bool, str]:
    """Asks the node. Returns whether the request was done, and the text of the answer. Raises
    NotRunning."""
    with socket.socket(socket.AF_UNIX) as connection:
        connection.settimeout(ANSWER)
        try:
            connection.connect(str(control_path(folder)))
        except OSError as error:
            raise NotRunning(f"no node runs with the snapshots of {folder}") from error
        connection.sendall(request.encode() + b"\n")
        with connection.makefile("r", errors="replace") as answers:
            try:
                word, _, said = answers.readline().rstrip("\n").partition(" ")
            except OSError as error:
                raise NotRunning(f"the node did not answer ({error})") from error
    if not word:
        raise NotRunning("the node ended before it answered")
    return word == "done", said
