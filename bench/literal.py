"""Stores document literals of 0.25, 0.5 and 1 MB through the server and reads them back; prints
times and ratios.

    tools/run literal [SERVER]     ./serve where none is named

A run's time is that of the whole program, from its start to its end, less that of a run of an empty
input; the time of one read is a tenth of ten reads'.
"""

import subprocess
import sys
import time

from tools.common import command_line
from tools.common.repository import TOP
from xqs.protocol import Kind, Status, frame, reply, store_body

READS = 10


def literal(size: int) -> str:
    """A document of about so many bytes: books with an attribute and a text."""
    books: list[str] = []
    length, number = len("document {element lib {}}"), 0
    while True:
        book = f'element book {{attribute id {{"{number}"}}, text {{"title {number}"}}}}'
        if length + len(book) + 2 > size:
            return f"document {{element lib {{{', '.join(books)}}}}}"
        books.append(book)
        length += len(book) + 2
        number += 1


def timed(server: str, data: bytes) -> tuple[float, bytes]:
    """The least seconds of five runs of the server over an input, and the output of the last.

    Raises CalledProcessError where the server ends with another status than 0.
    """
    best: float | None = None
    for _ in range(5):
        start = time.perf_counter()
        output = subprocess.run([server], input=data, stdout=subprocess.PIPE, check=True).stdout
        took = time.perf_counter() - start
        best = took if best is None else min(best, took)
    assert best is not None
    return best, output


def main() -> None:
    """Measures, and prints the table."""
    words = command_line.parser(__doc__)
    words.add_argument("server", nargs="?", default=str(TOP / "serve"), help="(./serve)")
    server = words.parse_args().server
    empty, _ = timed(server, b"")
    before: tuple[float, ...] = ()
    heads = ("bytes", "nodes", "store ms", "read ms", "ratio", "ratio")
    print("{:>10} {:>8} {:>12} {:>12} {:>8} {:>8}".format(*heads))
    for size in (262_144, 524_288, 1_048_576):
        text = literal(size).encode()
        nodes = text.count(b"{")
        store = frame(1, Kind.STORE, store_body("x", text.decode()))
        stored, _ = timed(server, store)
        both, output = timed(server, store + READS * frame(2, Kind.QUERY, b'doc("x")'))
        told = reply(1, Status.DONE, b"stored") + READS * reply(2, Status.DONE, text)
        if output != told:
            sys.exit("the document did not come back as it was stored")
        times = ((stored - empty) * 1000, (both - stored) * 1000 / READS)
        ratios = [f"{now / then:8.2f}" for now, then in zip(times, before, strict=False)]
        print(f"{len(text):10} {nodes:8} {times[0]:12.1f} {times[1]:12.1f} {' '.join(ratios)}")
        before = times


if __name__ == "__main__":
    main()
