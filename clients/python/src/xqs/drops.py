"""Drops of several documents: by addresses, or by a pattern after a question."""

import sys
from collections.abc import Callable, Sequence
from dataclasses import dataclass

from xqs.client import Client
from xqs.errors import Refused
from xqs.folders import is_pattern, matching

SHOWN = 5
"""How many addresses a question names."""


@dataclass(frozen=True)
class Chosen:
    """The addresses that the words name, each once, and the patterns without a match.

    `is_by_pattern` says whether any word is a pattern.
    """

    addresses: Sequence[str]
    unmatched: Sequence[str]
    is_by_pattern: bool


def chosen(client: Client, words: Sequence[str]) -> Chosen:
    """The documents that the words name: addresses, and patterns such as `books/*`."""
    patterns = [it for it in words if is_pattern(it)]
    known = client.list() if patterns else []
    named = {it: matching(known, it) if is_pattern(it) else [it] for it in words}
    addresses = dict.fromkeys(address for some in named.values() for address in some)
    return Chosen(list(addresses), [it for it in patterns if not named[it]], bool(patterns))


def agreed(addresses: Sequence[str]) -> bool:
    """Asks the user whether to drop documents. Raises ValueError if nobody can be asked."""
    count = len(addresses)
    first = ", ".join(addresses[:SHOWN])
    first += f", and {count - SHOWN:,} more" if count > SHOWN else ""
    if not sys.stdin.isatty():
        raise ValueError(f"{count:,} documents would be dropped ({first}); nobody can be asked "
                         "here, so say --yes")
    print(f"{first}\ndrop {count:,} document{'s' * (count != 1)}? [y/N] ", end="", file=sys.stderr,
          flush=True)
    return sys.stdin.readline().strip().lower() in ("y", "yes")


def drop_all(client: Client, addresses: Sequence[str], say: Callable[[str], None]) -> int:
    """Drops documents, and reports those that can't be dropped. Returns how many were dropped."""
    dropped = 0
    for address, future in [(it, client.drop_later(it)) for it in addresses]:
        try:
            future.result()
        except Refused as error:
            say(f"{address}: {error}")
        else:
            dropped += 1
    return dropped
