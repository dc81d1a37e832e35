"""A running sum over all stores and drops of a log, with the replies to them."""

import hashlib
import struct

START = "0" * 64
"""The sum before the first entry."""

_LENGTH = struct.Struct(">I")


def after(total: str, entry: bytes, reply: bytes) -> str:
    """The sum after an entry was carried out and answered; `reply` is its status and text."""
    digest = hashlib.sha256(bytes.fromhex(total))
    digest.update(_LENGTH.pack(len(entry)))
    digest.update(entry)
    digest.update(reply)
    return digest.hexdigest()
