"""Addresses of temporary documents: parts of a larger one, and copies that are read."""

import os
import re
import time
from collections.abc import Callable

from xqs.errors import XqError

PREFIX = "xqs.temporary/"
"""The beginning of these addresses; `xqs gc` drops those that a crash left."""
_ADDRESS = re.compile(re.escape(PREFIX) + r"(\d{1,12})-[0-9a-f]+/\d+")


class Temporary:
    """A series of addresses that no other series has."""

    def __init__(self, begins: Callable[[str], object] = str) -> None:
        """`begins` is called with the beginning of its addresses, before the first one is made."""
        self.start = f"{PREFIX}{int(time.time())}-{os.urandom(6).hex()}/"
        self.count = 0
        self._begins = begins

    def next(self) -> str:
        """A new address."""
        if not self.count:
            self._begins(self.start)
        self.count += 1
        return f"{self.start}{self.count}"

    def given(self) -> list[str]:
        """All addresses that were made."""
        return [f"{self.start}{number}" for number in range(1, self.count + 1)]


def is_temporary(address: str) -> bool:
    """Whether the address is kept for temporary documents."""
    return address.startswith(PREFIX)


class KeptAddress(XqError, ValueError):
    """An address that is kept for temporary documents."""


def check_lasting(address: str) -> None:
    """Raises KeptAddress for an address at which `xqs gc` would drop the document."""
    if is_temporary(address):
        raise KeptAddress(f"{address} is below {PREFIX}, which is kept for parts and copies; "
                          "'xqs gc' drops what is there")


def age(address: str, now: float) -> float | None:
    """How many seconds before `now` the address's series began; None if it is in none."""
    found = _ADDRESS.fullmatch(address)
    return None if found is None else now - int(found[1])
