"""What many documents cost: stores, and the queries after them, in memory and on a file.

    tools/run many [--server WORDS] [--documents N] [--rows N]

Documents of 99 nodes are stored one after another (10,000, or --documents). The script shows the
stores per second, the median over batches of 100, up to 100, 500, 1,000 .. documents; then the
median time of a lookup in another document and of a count over the whole collection, each by itself
and right after a store; the same beside a document of 100,000 elements; and how long files of up to
1,000,000 rows take to open, with the peak of the process's memory. Each bound is checked; the exit
status is 1 if one doesn't hold.
"""
from __future__ import annotations

import argparse
import functools
import pathlib
import statistics
import sys
import tempfile
import time
from collections.abc import Callable, Sequence

from tools.common.harness import Server, built, store

BATCH = 100
TURNS = 21
ELEMENTS = 100_000
SHELF = 1_000
CHILDREN = ", ".join(f'element f {{attribute n {{{n}}}, text {{"value {n}"}}}}' for n in range(32))
LOOKUP = 'string(doc("d00050")/file/f[@n = "7"])'
COUNT = "count(collection()//f)"
LARGE = (f'document {{element lib {{for $s in 1 to {ELEMENTS // SHELF} return element shelf '
         f'{{for $b in 1 to {SHELF - 1} return element b {{}}}}}}}}')
ON_LARGE = 'count(doc("large")//b)'


class Faults:
    """The bounds that didn't hold."""

    def __init__(self) -> None:
        self.lines: list[str] = []

    def judge(self, what: str, ratio: float, most: float) -> None:
        """A ratio that has to be at most so much; a tenth more is met."""
        if ratio > most * 1.1:
            self.lines.append(f"{what}: {ratio:.2f}, wanted at most {most:.2f}")


def document(number: int) -> bytes:
    """The constructor of a document of 99 nodes."""
    return f'document {{element file {{attribute id {{{number}}}, {CHILDREN}}}}}'.encode()


def put(server: Server, address: str, text: bytes) -> None:
    """Stores a document; anything but an accepted store ends the script."""
    status, reply = server.ask(b"S", store(address.encode(), text)) or (2, b"the server ended")
    if status:
        sys.exit(f"{address}: {reply.decode()}")


def ask(server: Server, query: str) -> bytes:
    """The text of a reply; a refusal ends the script."""
    status, reply = server.ask(b"Q", query.encode()) or (2, b"the server ended")
    if status:
        sys.exit(f"{query}: {reply.decode()}")
    return reply


def seconds(call: Callable[[], object]) -> float:
    """How long a call takes."""
    begin = time.perf_counter()
    call()
    return time.perf_counter() - begin


def filled(server: Server, count: int) -> list[float]:
    """Stores documents up to so many; gives the seconds of each batch."""
    def batch(first: int) -> None:
        for number in range(first, first + BATCH):
            put(server, f"d{number:05}", document(number))
    return [seconds(functools.partial(batch, first)) for first in range(0, count, BATCH)]


def medians(server: Server, query: str, changed: str) -> tuple[float, float, float]:
    """Milliseconds of a query by itself, right after a store, and of the store itself."""
    alone, after, stores = [], [], []
    ask(server, query)
    for turn in range(TURNS):
        alone.append(seconds(lambda: ask(server, query)))
        # (each is called at once)
        stores.append(seconds(lambda: put(server, changed, document(turn))))  # noqa: B023
        after.append(seconds(lambda: ask(server, query)))
    whole, beside, stored = (statistics.median(them) * 1e3 for them in (alone, after, stores))
    return whole, beside, stored


def show_stores(name: str, batches: Sequence[float], faults: Faults) -> None:
    """Stores a second, as documents grow in number: medians over ten batches at most."""
    marks = [count for count in (100, 500, 1_000, 2_000, 5_000, 10_000)
             if count <= len(batches) * BATCH]
    rates = [BATCH / statistics.median(batches[max(0, mark // BATCH - 10):mark // BATCH])
             for mark in marks]
    print(f"{name}: stores a second at " + ", ".join(
        f"{mark:,}: {rate:,.0f}" for mark, rate in zip(marks, rates, strict=True)), flush=True)
    faults.judge(f"{name}: stores slow down", rates[0] / rates[-1], 1 / 0.7)


def show_queries(name: str, server: Server, count: int, faults: Faults) -> None:
    """Queries over the documents that are there, by themselves and right after a store."""
    for what, query, most in (("lookup", LOOKUP, 2.0), ("count of all", COUNT, 1.3)):
        alone, after, stored = medians(server, query, f"d{count // 2:05}")
        print(f"{name}: {what} {alone:.2f} ms, after a store {after:.2f}, the store {stored:.2f}",
              flush=True)
        faults.judge(f"{name}: {what} after a store", after / alone, most)


def show_large(name: str, command: Sequence[object], faults: Faults) -> None:
    """A query on a large document, by itself and right after a store of a small one."""
    server = Server(command)
    put(server, "large", LARGE.encode())
    alone, after, _ = medians(server, ON_LARGE, "small")
    print(f"{name}: beside {ELEMENTS:,} elements {alone:.2f} ms, after a store {after:.2f}",
          flush=True)
    faults.judge(f"{name}: a large document after a store", after / alone, 1.3)
    server.end()


def most_memory(server: Server) -> float:
    """The most memory that the process has held, in MB."""
    path = pathlib.Path(f"/proc/{server.process.pid}/status")
    line = next(it for it in path.read_text().splitlines() if it.startswith("VmHWM"))
    return int(line.split()[1]) / 1024


def show_openings(program: Sequence[object], folder: pathlib.Path, most_rows: int) -> None:
    """How long files of more and more rows take to open, and the most memory that it takes."""
    path = folder / "rows.db"
    rows, part = 0, 100_000
    for wanted in (100_000, 300_000, 1_000_000):
        if wanted > most_rows:
            return
        server = Server([*program, "--file", path])
        while rows < wanted:
            body = f"document {{element rows {{for $i in 1 to {part - 2} return element r {{}}}}}}"
            put(server, f"r{rows:07}", body.encode())
            rows += part
        server.end()
        server = Server([*program, "--file", path])
        spent = seconds(lambda: server.ask(b"L"))  # noqa: B023
        print(f"opening a file of {wanted:,} rows: {spent:.2f} s, {most_memory(server):,.0f} MB",
              flush=True)
        server.end()


def main() -> int:
    """Measures all, and prints the bounds that don't hold; gives the status."""
    words = argparse.ArgumentParser(description=__doc__.split("\n")[0])
    words.add_argument("--server", help="the program, instead of the one that ./serve proves")
    words.add_argument("--documents", type=int, default=10_000)
    words.add_argument("--rows", type=int, default=1_000_000, help="of the largest file")
    given = words.parse_args()
    program = given.server.split() if given.server else [built()]
    faults = Faults()
    with tempfile.TemporaryDirectory() as room:
        folder = pathlib.Path(room)
        options: dict[str, list[str]] = {"memory": [], "file": ["--file", f"{folder}/many.db"]}
        for name, extra in options.items():
            server = Server([*program, *extra])
            show_stores(name, filled(server, given.documents), faults)
            show_queries(name, server, given.documents, faults)
            server.end()
            beside = ["--file", folder / "large.db"] if extra else []
            show_large(name, [*program, *beside], faults)
        show_openings(program, folder, given.rows)
    for line in faults.lines:
        print(line)
    return 1 if faults.lines else 0


if __name__ == "__main__":
    sys.exit(main())
