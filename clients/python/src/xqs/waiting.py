"""Waits for one of several events, and for tasks to end."""

import asyncio
from typing import Any


async def first_set(*events: asyncio.Event) -> None:
    """Waits until one of the events is set."""
    waits = [asyncio.create_task(event.wait()) for event in events]
    try:
        await asyncio.wait(waits, return_when=asyncio.FIRST_COMPLETED)
    finally:
        for task in waits:
            task.cancel()


async def cancelled(*tasks: "asyncio.Task[Any]") -> None:
    """Cancels tasks, and waits until they have ended, in any way."""
    for task in tasks:
        task.cancel()
    await asyncio.gather(*tasks, return_exceptions=True)
