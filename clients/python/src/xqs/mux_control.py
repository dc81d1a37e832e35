"""What the owner of a running multiplexer can ask it, and the commands that ask."""

import argparse
import asyncio
import json
import os
import sys
from collections.abc import Awaitable, Callable, Mapping, Sequence
from pathlib import Path
from typing import Protocol

from xqs import control
from xqs.control import Action, Say
from xqs.in_use import file_of
from xqs.metrics import Metrics, Report, prometheus, status_text
from xqs.protocol import address_bytes
from xqs.served import Identity, place_named
from xqs.upgrading import NotUpgraded, absolute

AT_ONCE = "now"
"""The argument that makes a multiplexer end without answering the requests that it has."""


class Multiplexing(Protocol):
    """A multiplexer with any number of servers."""

    @property
    def metrics(self) -> Metrics:
        """The counts of the replies."""

    def report(self) -> Report:
        """The figures of the servers and their clients."""

    def changes_of(self, address: bytes) -> str:
        """A token that stays the same as long as nobody changes the document at the address."""

    async def upgrade(self, command: Sequence[str],
                      say: Callable[[str], Awaitable[None]]) -> None:
        """Makes the servers run another command. Raises XqError if they can't."""


def figures_of(multiplexer: Multiplexing) -> str:
    """All figures in the format of Prometheus."""
    return prometheus(multiplexer.report(), multiplexer.metrics)


def lines_of(multiplexer: Multiplexing) -> str:
    """The figures in lines."""
    return status_text(multiplexer.report(), multiplexer.metrics)


def actions_of(multiplexer: Multiplexing) -> Mapping[str, Action]:
    """The requests that it answers."""

    async def status(_: str, say: Say) -> None:
        await say(lines_of(multiplexer))

    async def metrics(_: str, say: Say) -> None:
        await say(figures_of(multiplexer))

    async def changes(address: str, say: Say) -> None:
        await say(multiplexer.changes_of(address_bytes(address)))

    async def upgrade(argument: str, say: Say) -> None:
        await multiplexer.upgrade(control.command_of(argument), say)

    return {"status": status, "metrics": metrics, "changes": changes, "upgrade": upgrade}


def own_actions(command: Sequence[str], asked: asyncio.Event,
                again: asyncio.Event) -> Mapping[str, Action]:
    """Further requests of a multiplexer in its own process: its process number, the file of its
    command, and to end, in order or at once."""
    file = file_of(command)
    identity = Identity.of(file) if file is not None else None

    async def process(_: str, say: Say) -> None:
        await say(str(os.getpid()))

    async def told_file(_: str, say: Say) -> None:
        await say(str(identity) if identity else "none")

    async def stop(argument: str, _: Say) -> None:
        if argument == AT_ONCE or asked.is_set():
            again.set()
        asked.set()

    return {"process": process, "file": told_file, "stop": stop}


def ask_upgrade(place: str, command: Sequence[str]) -> int:
    """Makes the multiplexer at a place run another command. Returns the exit status. Raises
    NotUpgraded, NotRunning."""
    words = absolute(command, Path.cwd())
    try:
        for line in control.ask(place, f"upgrade {json.dumps(words)}", None):
            print(f"xqs mux: {line}", file=sys.stderr, flush=True)
    except control.Refused as error:
        raise NotUpgraded(f"the upgrade is refused, and the old program goes on: {error}"
                          ) from error
    print("xqs mux: all servers are upgraded", file=sys.stderr)
    return 0


def status_main(words: Sequence[str]) -> int:
    """Runs `xqs status`."""
    parser = argparse.ArgumentParser(
        prog="xqs status",
        description="Shows the status of the multiplexer that listens at a place: its servers, "
        "clients, queues and times.")
    parser.add_argument("place", metavar="unix:PATH|tcp:PORT|FILE",
                        help="where its clients connect, or the file that `xqs serve` serves")
    parser.add_argument("--metrics", action="store_true",
                        help="all figures, in the format that Prometheus reads")
    given = parser.parse_args(words)
    place = place_named(given.place)
    for line in control.ask(place, "metrics" if given.metrics else "status"):
        print(line)
    return 0
