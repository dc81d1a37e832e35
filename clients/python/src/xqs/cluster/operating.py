"""An operator's questions: `xqs node --status`, `--skip` and `--copies`."""

import argparse
import sys
from pathlib import Path

from xqs.cluster import control, ending
from xqs.cluster.addresses import LogAddress
from xqs.cluster.status import Status
from xqs.errors import XqError


def add_options(parser: argparse.ArgumentParser) -> None:
    """Adds the options; with any of them no node begins."""
    group = parser.add_argument_group("questions, which start no node").add_argument
    group("--status", action="store_true",
          help="the status of the node that runs with the folder of --snapshots; the exit status "
          "is 0 if it follows the log, else 1")
    group("--json", action="store_true", help="with --status: one line of JSON")
    group("--copies", action="store_true",
          help="which brokers of --log have a copy of it; the exit status is 0 if all have")
    group("--skip", type=int, metavar="PLACE",
          help="makes all nodes skip the store or drop of that place, at which the node of "
          "--snapshots stepped aside: no node will ever carry it out")


def asks(given: argparse.Namespace) -> bool:
    """Whether the words ask something, and begin no node."""
    return given.status or given.copies or given.skip is not None


def answer(given: argparse.Namespace, address: LogAddress | None) -> int:
    """Answers the question in the words. Returns the exit status. Raises XqError."""
    if address is not None:
        return ending.run(_copies(address), "node")
    if given.snapshots is None:
        raise ValueError("the folder says which node is meant: give --snapshots DIR")
    if given.skip is not None:
        return _skip(given.snapshots, given.skip)
    return _status(given.snapshots, given.json)


def _asked(folder: Path, request: str) -> str:
    is_done, said = control.ask(folder, request)
    if not is_done:
        raise XqError(said)
    return said


def _skip(folder: Path, place: int) -> int:
    print(_asked(folder, f"skip {place}"), file=sys.stderr)
    return 0


def _status(folder: Path, is_json: bool) -> int:
    status = Status.of_json(_asked(folder, "status"))
    print(status.to_json() if is_json else status.lines())
    return 0 if status.is_following else 1


async def _copies(address: LogAddress) -> int:
    # (here, so that all else works if the package is not installed)
    from xqs.cluster.amqp import AmqpLog
    from xqs.cluster.amqp_link import quiet

    quiet()
    found = await AmqpLog(address, lambda line: None).copies()
    words = {True: "has a copy", False: "has no copy", None: "does not answer"}
    for broker, has in found.items():
        print(f"{broker}: {words[has]}")
    if False in found.values():
        print("on a broker that has a copy, in /var/lib/rabbitmq: su rabbitmq -s /bin/sh -c "
              f"'/usr/lib/rabbitmq/bin/rabbitmq-streams add_replica {address.name} rabbit@HOST'",
              file=sys.stderr)
    return 0 if all(found.values()) else 1
