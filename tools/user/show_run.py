"""Sends requests to a server, and prints each with its reply, then the end.

    show_run.py SERVER FILE     of request frames, or with the ending .txt of requests as text

A text has an empty line after each request. Its first line is `store ADDRESS`, `drop ADDRESS`,
`query` or `list`, and the lines below are the query.
"""

import argparse
import pathlib
import struct
import subprocess
import sys
from collections.abc import Iterator

STATUS = {0: "answer", 1: "refused", 2: "wanting"}


def frames(data: bytes) -> Iterator[bytes]:
    """The rest of each whole frame of the bytes."""
    at = 0
    while at + 4 <= len(data):
        (length,) = struct.unpack_from(">I", data, at)
        yield data[at + 4 : at + 4 + length]
        at += 4 + length


def body_of(request: str) -> bytes:
    """The kind and the body of a request that is written as text."""
    first, _, query = request.partition("\n")
    word, _, address = first.partition(" ")
    if word == "store":
        return b"S" + bytes([len(address)]) + address.encode() + query.encode()
    if word == "drop":
        return b"D" + address.encode()
    return b"Q" + query.encode() if word == "query" else b"L"


def frames_of(text: str) -> bytes:
    """The frames of the requests that are written as text."""
    requests = text.strip().split("\n\n")
    bodies = [struct.pack(">I", tag) + body_of(request) for tag, request in enumerate(requests, 1)]
    return b"".join(struct.pack(">I", len(body)) + body for body in bodies)


def shown_request(body: bytes) -> tuple[int, str]:
    """The tag of a request, and what it asks as text, or its bytes where it is none.

    Raises struct.error where the body has no whole tag, UnicodeDecodeError where a text in it is
    not UTF-8.
    """
    (tag,), kind, rest = struct.unpack_from(">I", body), body[4:5], body[5:]
    if kind == b"S" and rest:
        address, text = rest[1 : 1 + rest[0]], rest[1 + rest[0] :]
        return tag, f"store under {address.decode()}: {text.decode()}"
    if kind == b"Q":
        return tag, "query: " + rest.decode()
    if kind == b"D":
        return tag, "drop " + rest.decode()
    if kind == b"L":
        return tag, "list the addresses"
    return tag, "bytes " + body.hex()


def shown_reply(body: bytes) -> tuple[int, str]:
    """The tag of a reply, and its status with its text.

    Raises struct.error where the body has no whole tag, IndexError where it has no status, and
    UnicodeDecodeError where its text is not UTF-8.
    """
    (tag,), status, text = struct.unpack_from(">I", body), body[4], body[5:]
    return tag, f"{STATUS.get(status, f'status {status}')}: {text.decode()}"


def main() -> int:
    """Shows the run; gives the server's status."""
    words = argparse.ArgumentParser(
        description=__doc__, formatter_class=argparse.RawDescriptionHelpFormatter)
    words.add_argument("server")
    words.add_argument("file", type=pathlib.Path)
    given = words.parse_args()
    data = given.file.read_bytes()
    if given.file.suffix == ".txt":
        data = frames_of(data.decode())
    done = subprocess.run([given.server], input=data, stdout=subprocess.PIPE)
    replies = [shown_reply(body) for body in frames(done.stdout)]
    for number, body in enumerate(frames(data)):
        tag, request = shown_request(body)
        print("request %d  %s" % (tag, request.replace("\n", "\n           ")))
        if number < len(replies):
            print("  reply %d  %s" % replies[number])
        else:
            print("  no reply")
    print(f"end: status {done.returncode}")
    return done.returncode


if __name__ == "__main__":
    sys.exit(main())
