"""Frames per second over a pipe, in memory and on a file; and how long a file of 100,000 rows takes
to open.

    tools/run serve [SECONDS]      2 seconds for each figure where none are named

`L` lists one address, `doc("b")` reads a document of 8 nodes, and `S` stores that document, which
each time replaces it. One at a time: each frame after the reply to the one before; 64 in flight: so
many frames, and then their replies.
"""
import os
import sys
import tempfile
import time
from collections.abc import Sequence

from tools.common import command_line
from tools.common.harness import LIBRARY, Server, built, frame, store

REQUESTS = [("L", b"L", b""), ('doc("b")', b"Q", b'doc("b")'), ("S", b"S", store(b"b", LIBRARY))]
ROWS = 50_000


def rate(command: Sequence[str | os.PathLike[str]], request: tuple[bytes, bytes], flight: int,
         seconds: float) -> float:
    """Frames per second with so many in flight."""
    server = Server(command)
    server.ask(b"S", store(b"b", LIBRARY))
    server.ask(*request)
    expected = server.answer(*request)
    size = len(expected[1]) + 9
    data = frame(*request) * flight
    count, begin = 0, time.perf_counter()
    while time.perf_counter() - begin < seconds and count < 990_000:
        server.send(data)
        if len(server.read(size * flight)) < size * flight:
            sys.exit("the server ended")
        count += flight
    found = count / (time.perf_counter() - begin)
    server.end()
    return found


def rates(what: str, words: Sequence[str], seconds: float) -> None:
    """A line for each request."""
    for name, kind, body in REQUESTS:
        one, many = (rate([built(), *words], (kind, body), flight, seconds) for flight in (1, 64))
        print(f"{what:10} {name:10} {one:14,.0f} {many:14,.0f}", flush=True)


def large_document() -> bytes:
    """A document of so many rows, as it is printed."""
    return b"document {element rows {" + b", ".join([b"element r {}"] * (ROWS - 2)) + b"}}"


def opening(path: str) -> float:
    """Milliseconds from the start of the server to its first reply, in the middle of five."""
    times = []
    for _ in range(5):
        begin = time.perf_counter()
        server = Server([built(), "--file", path])
        server.ask(b"L")
        times.append((time.perf_counter() - begin) * 1000)
        server.end()
    return sorted(times)[2]


def main() -> None:
    """Measures the program that ./serve built."""
    words = command_line.parser(__doc__)
    words.add_argument("seconds", nargs="?", type=float, default=2.0, help="for each figure")
    seconds = words.parse_args().seconds
    print(f"{'':10} {'request':10} {'one at a time':>14} {'64 in flight':>14}   frames per second")
    rates("memory", [], seconds)
    with tempfile.TemporaryDirectory() as folder:
        rates("file", ["--file", f"{folder}/x.db"], seconds)
        print(f"a file without rows opens in {opening(f'{folder}/empty.db'):.0f} ms")
        server = Server([built(), "--file", f"{folder}/large.db"])
        for address in (b"a", b"b"):
            server.ask(b"S", store(address, large_document()))
        server.end()
        print(f"a file of {2 * ROWS} rows opens in {opening(f'{folder}/large.db'):.0f} ms")


if __name__ == "__main__":
    main()
