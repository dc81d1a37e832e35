"""Measures what the multiplexer costs: requests a second without it and behind it.

    tools/run mux_cost [SERVER WORDS]     the server is ./serve where none is named

Each row is `1`, asked 20,000 times: sent ahead, one after the other, and by 20 clients with one
request under way each. The median of three runs; direct and behind `xqs mux` in turn.
"""

import argparse
import os
import socket
import statistics
import subprocess
import sys
import tempfile
import threading
import time
from collections.abc import Callable

from tools.common import command_line
from tools.common.repository import TOP
from xqs.protocol import Kind, frame

COUNT, CLIENTS, RUNS = 20_000, 20, 3
FRAME = frame(1, Kind.QUERY, b"1")
REPLY = 10


class Stream:
    """Bytes to a server, and from it."""

    def __init__(self, write: Callable[[bytes], object], read: Callable[[int], bytes]) -> None:
        self.write, self.read = write, read

    def take(self, count: int) -> None:
        """Reads so many bytes."""
        while count > 0:
            count -= len(self.read(min(count, 1 << 16)))


def ahead(streams: list[Stream]) -> None:
    """All requests of one client, sent ahead."""
    thread = threading.Thread(target=streams[0].take, args=(COUNT * REPLY,))
    thread.start()
    for _ in range(COUNT):
        streams[0].write(FRAME)
    thread.join()


def in_turn(streams: list[Stream]) -> None:
    """Each request after the reply to the one before, of each client."""
    for _ in range(COUNT // len(streams)):
        ask_all(streams)


def ask_all(streams: list[Stream]) -> None:
    """A request of each client, and then the replies."""
    for stream in streams:
        stream.write(FRAME)
    for stream in streams:
        stream.take(REPLY)


def rate(work: Callable[[list[Stream]], None], streams: list[Stream]) -> float:
    """Requests a second."""
    begin = time.perf_counter()
    work(streams)
    return COUNT / (time.perf_counter() - begin)


def direct(command: list[str], work: Callable[[list[Stream]], None]) -> float:
    """The rate of one client that has a server for itself."""
    with subprocess.Popen(command, stdin=-1, stdout=-1, bufsize=0) as server:
        assert server.stdin is not None and server.stdout is not None
        out = server.stdout.fileno()
        measured = rate(work, [Stream(server.stdin.write, lambda count: os.read(out, count))])
        server.stdin.close()
    return measured


def connected(path: str) -> socket.socket:
    """A connection to the multiplexer."""
    connection = socket.socket(socket.AF_UNIX)
    connection.connect(path)
    return connection


def multiplexed(command: list[str], work: Callable[[list[Stream]], None], clients: int) -> float:
    """The rate of so many clients behind the multiplexer."""
    with tempfile.TemporaryDirectory() as folder:
        path = f"{folder}/s"
        words = [sys.executable, str(TOP / "xqs"), "mux", f"unix:{path}", "--", *command]
        mux = subprocess.Popen(words, stderr=subprocess.DEVNULL)
        while not os.path.exists(path):
            time.sleep(0.05)
        sockets = [connected(path) for _ in range(clients)]
        measured = rate(work, [Stream(it.sendall, it.recv) for it in sockets])
        mux.terminate()
        mux.wait()
    return measured


def main() -> None:
    """Prints the rows."""
    words = command_line.parser(__doc__)
    words.add_argument("server", nargs=argparse.REMAINDER, help="its words (./serve)")
    command = words.parse_args().server or [str(TOP / "serve")]
    rows: list[tuple[str, list[Callable[[], float]]]] = [
        ("sent ahead", [lambda: direct(command, ahead), lambda: multiplexed(command, ahead, 1)]),
        ("one by one", [lambda: direct(command, in_turn),
                        lambda: multiplexed(command, in_turn, 1)]),
        (f"of {CLIENTS} clients", [lambda: multiplexed(command, in_turn, CLIENTS)]),
    ]
    print("| Requests | a second, direct and behind xqs mux |\n|---|---|")
    for name, measures in rows:
        runs = [[measure() for measure in measures] for _ in range(RUNS)]
        medians = [f"{statistics.median(column):,.0f}" for column in zip(*runs, strict=True)]
        print(f"| {name} | {', '.join(medians)} |", flush=True)


if __name__ == "__main__":
    main()
