"""Stands in for a server whose disk is full, or whose database shuts: every store gets `store`, and
after one to `shut` so does each request."""

import struct
import sys


def replies() -> None:
    """Answers the frames of standard input."""
    is_shut = False
    while len(head := sys.stdin.buffer.read(4)) == 4:
        message = sys.stdin.buffer.read(struct.unpack(">I", head)[0])
        is_store = message[4:5] == b"S"
        is_shut = is_shut or (is_store and message[6:10] == b"shut")
        reply = message[:4] + (b"\x02store" if is_shut or is_store else b"\x00()")
        sys.stdout.buffer.write(struct.pack(">I", len(reply)) + reply)
        sys.stdout.buffer.flush()


if __name__ == "__main__":
    replies()
