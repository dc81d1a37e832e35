"""A program in place of a server: it has no document, and answers `store` to each store, unless its
text has the word `good`; it ends at the word `end`."""

import os
import sys

from xqs.protocol import MAX_REQUEST, Splitter, Status, reply, tag_of


def answer(message: bytes) -> bytes:
    """The reply to a request."""
    if b"end" in message:
        sys.exit()
    if message[4:5] == b"L":
        return reply(tag_of(message), Status.DONE, b"()")
    if message[4:5] == b"S" and b"good" not in message:
        return reply(tag_of(message), Status.WANTING, b"store")
    return reply(tag_of(message), Status.DONE, b"stored")


def main() -> None:
    """Answers the frames of standard input."""
    splitter = Splitter(MAX_REQUEST)
    while piece := os.read(0, 1 << 16):
        for message in splitter.feed(piece):
            sys.stdout.buffer.write(answer(message))
        sys.stdout.buffer.flush()


if __name__ == "__main__":
    main()
