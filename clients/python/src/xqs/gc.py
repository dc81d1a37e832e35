"""`xqs gc`: drops temporary documents that a crash left."""

import argparse
import time
from collections.abc import Sequence

from xqs.cli import connected, connection_options
from xqs.client import Client
from xqs.temporary import age, is_temporary

HOUR = 3600


def collect(client: Client, older_than: float, is_dry: bool = False) -> list[str]:
    """Drops the temporary documents of series that began at least `older_than` seconds ago. Returns
    their addresses."""
    now = time.time()
    found = [it for it in client.list() if is_temporary(it)]
    left = [it for it in found if (age(it, now) or 0) >= older_than]
    for address in [] if is_dry else left:
        client.drop(address)
    return left


def main(words: Sequence[str]) -> int:
    """Runs the command."""
    parser = argparse.ArgumentParser(
        prog="xqs gc",
        parents=[connection_options()],
        description="Drops the parts and copies that a load or an export left when it was killed.",
    )
    parser.add_argument(
        "--older", type=float, default=HOUR, metavar="SECONDS",
        help="those that were begun at least this long ago (default 3600, which spares those of "
        "running commands)",
    )
    parser.add_argument("--all", action="store_true", help="all, of any age")
    parser.add_argument("--dry-run", action="store_true", help="print them, and drop nothing")
    given = parser.parse_args(words)
    with connected(given) as client:
        for address in collect(client, 0 if given.all else given.older, given.dry_run):
            print(address)
    return 0
