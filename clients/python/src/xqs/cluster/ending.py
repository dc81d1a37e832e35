"""The end of a process when its package leaves tasks that do not end when cancelled."""

import asyncio
import os
import sys
from collections.abc import Coroutine
from typing import Any

from xqs.errors import XqError

LEFT = 1.0
"""Seconds that the remaining tasks have to end once they are cancelled."""


def run(work: Coroutine[Any, Any, int], command: str) -> int:
    """Like `asyncio.run`, for the exit status of a command, but such tasks don't delay it.

    `asyncio.run` waits for them without limit. Here the process ends at once if there are any.
    """
    return asyncio.run(_ended(work, command))


async def _ended(work: Coroutine[Any, Any, int], command: str) -> int:
    try:
        status = await work
    except (XqError, OSError, ValueError) as error:
        if await _are_deaf():
            print(f"xqs {command}: {error}", file=sys.stderr)
            _leave(1)
        raise
    if await _are_deaf():
        _leave(status)
    return status


async def _are_deaf() -> bool:
    """Cancels all other tasks. Returns whether some have not ended."""
    others = asyncio.all_tasks() - {asyncio.current_task()}
    for task in others:
        task.cancel()
    return bool(others and (await asyncio.wait(others, timeout=LEFT))[1])


def _leave(status: int) -> None:
    sys.stdout.flush()
    sys.stderr.flush()
    os._exit(status)
