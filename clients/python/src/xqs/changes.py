"""How often documents have changed, as one program sees it. By these counts a client knows whether
a document stayed the same while it read it in parts.

Addresses share a fixed number of counts. So a token may change although the document is the same,
but it never stays the same when the document changes.
"""

import os
import zlib

COUNTS = 1 << 16


class Changes:
    """Counts of changes. The program that passes changes on notes each one before a later read can
    see it."""

    def __init__(self) -> None:
        self.begin_anew()

    def begin_anew(self) -> None:
        """Notes that any document may have changed."""
        self._run = os.urandom(8).hex()
        self._counts: dict[int, int] = {}

    def note(self, address: bytes) -> None:
        """Notes that the document at the address has changed, or may have."""
        number = zlib.crc32(address) % COUNTS
        self._counts[number] = self._counts.get(number, 0) + 1

    def token(self, address: bytes) -> str:
        """A token that stays the same as long as the document does."""
        return f"{self._run}-{self._counts.get(zlib.crc32(address) % COUNTS, 0)}"
