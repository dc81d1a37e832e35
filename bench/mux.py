"""Measures several servers below `xqs mux` beside one, and refuses what is beyond its bound.

    tools/run mux [--rows N] [--runs N] [NAME ..] [-- SERVER WORDS]

NAME is `reads`, `lookups`, `restart` or `stores`; without one all are measured. The server is
./serve where none is named, and each other one has its settings of the allocator. What is compared
is measured in turn, one after the other, and the table has the median of the ratios with the least
and the most: a machine that is busy with other things shows itself by these. Status 1 where a
figure misses its bound. bench/mux_cost.py has what the multiplexer itself costs.

- reads: queries with an `order by` a second, of six clients, with 3 servers and with 1
- lookups: the median time of a lookup beside a client that asks queries of five seconds one after
  the other, and without it, with 3 servers
- restart: the longest time of a read, while the server with the file is killed and opened again
  over so many rows (2,000,000), and while one in memory is killed and filled again; how much of it
  the machine ran is printed beside, and not judged
- stores: stores a second in a file, of four clients, with 3 servers and with 1
"""

import argparse
import os
import pathlib
import signal
import socket
import statistics
import subprocess
import sys
import tempfile
import threading
import time
from collections.abc import Callable, Iterator
from contextlib import contextmanager

from tools.common.repository import TOP
from tools.common.workspace import use_allocator
from xqs.protocol import Kind, frame, store_body

Span = tuple[float, float]
"""When something began and ended, by the clock that all processes share."""
SERVERS = 3
SECONDS = 4.0
"""How long each rate is measured."""
SLICE = 0.8
"""How long one of two rates is measured before the other one has its turn."""
PAUSE = 100
"""A read may take so many milliseconds beside a restart."""
DOCUMENT_ROWS = 20_000
"""Rows of a document of the large store; a few more than a frame's constructors have."""
ORDERED = b'count(for $x in doc("a")/r/x order by $x/@k descending return $x)'
LOOKUP = b'doc("a")/r/x[@k = "77"]/@n/string()'
FIVE = b"count(for $x in 1 to %d, $y in 1 to 1000 return $x + $y)"


class Connection:
    """A connection to a multiplexer."""

    def __init__(self, path: str) -> None:
        self._socket = socket.socket(socket.AF_UNIX)
        self._socket.connect(path)

    def send(self, kind: bytes, body: bytes) -> None:
        """Sends a frame."""
        self._socket.sendall(frame(1, Kind(kind), body))

    def reply(self) -> bytes:
        """The status and text of the next reply."""
        return self._take(int.from_bytes(self._take(4), "big"))[4:]

    def _take(self, count: int) -> bytes:
        data = bytearray()
        while len(data) < count:
            piece = self._socket.recv(count - len(data))
            if not piece:
                raise ConnectionError("the stream ended")
            data += piece
        return bytes(data)

    def ask(self, kind: bytes, body: bytes) -> bytes:
        """The text of a reply whose status is 0."""
        self.send(kind, body)
        reply = self.reply()
        if reply[:1] != b"\0":
            raise RuntimeError(f"{kind!r} was answered by {reply!r}")
        return reply[1:]

    def store(self, address: str, text: str) -> None:
        """Stores a document."""
        self.ask(b"S", store_body(address, text))


class Mux:
    """A multiplexer that runs over a file."""

    def __init__(self, command: list[str], servers: int, file: str, folder: str) -> None:
        self.path, self._errors = f"{folder}/s{servers}", pathlib.Path(folder, f"e{servers}")
        words = [sys.executable, str(TOP / "xqs"), "mux", f"unix:{self.path}", "--servers",
                 str(servers), "--seconds", "0", "--", *command, "--file", file]
        with open(self._errors, "wb") as errors:
            self.process = subprocess.Popen(words, stderr=errors)
        self.wait_for("listens at")
        for number in range(2, servers + 1):
            self.wait_for(f"server {number} holds")

    def wait_for(self, words: str, count: int = 1) -> None:
        """Waits until the words were said so often."""
        while self._errors.read_text().count(words) < count:
            if self.process.poll() is not None:
                raise RuntimeError(self._errors.read_text())
            time.sleep(0.02)

    def said(self) -> str:
        """What it said."""
        return self._errors.read_text()

    def server(self, has_file: bool) -> int:
        """The process of a server with the file, or of one without."""
        for keeper in children(self.process.pid):
            for it in children(keeper):
                if (b"--file" in pathlib.Path(f"/proc/{it}/cmdline").read_bytes()) == has_file:
                    return it
        raise RuntimeError("there is no such server")

    def connect(self) -> Connection:
        """A connection."""
        return Connection(self.path)

    def end(self) -> None:
        """Ends it."""
        self.process.terminate()
        self.process.wait()


def children(process: int) -> list[int]:
    """The processes that a process has started."""
    path = pathlib.Path(f"/proc/{process}/task/{process}/children")
    return [int(it) for it in path.read_text().split()]


@contextmanager
def running(command: list[str], servers: int) -> Iterator[Mux]:
    """A multiplexer over a new file."""
    with tempfile.TemporaryDirectory() as folder:
        mux = Mux(command, servers, f"{folder}/x.db", folder)
        try:
            yield mux
        finally:
            mux.end()


def rows_of(count: int, seed: int) -> str:
    """A document of about so many rows: three of an element, with an attribute and a text."""
    items = ",".join(f'element x{{attribute k{{"{(n * 7919 + seed) % 10007}"}},'
                     f'attribute n{{"{n}"}},"t{n}"}}' for n in range(count // 4))
    return f"document{{element r{{{items}}}}}"


def in_slices(many: Mux, one: Mux, clients: int,
              work: Callable[[Connection, int], None]) -> tuple[float, float]:
    """The rates of two multiplexers, measured in turn in short slices."""
    rates = [(rate(many, clients, work, SLICE), rate(one, clients, work, SLICE))
             for _ in range(int(2 * SECONDS / SLICE))]
    return statistics.mean(it for it, _ in rates), statistics.mean(it for _, it in rates)


def rate(mux: Mux, clients: int, work: Callable[[Connection, int], None],
         seconds: float = SECONDS) -> float:
    """How often a second so many clients get the work done."""
    counts = [0] * clients
    until = time.perf_counter() + seconds

    def run(number: int) -> None:
        connection = mux.connect()
        while time.perf_counter() < until:
            work(connection, number)
            counts[number] += 1

    begin = time.perf_counter()
    threads = [threading.Thread(target=run, args=(number,)) for number in range(clients)]
    for thread in threads:
        thread.start()
    for thread in threads:
        thread.join()
    return sum(counts) / (time.perf_counter() - begin)


def ratio_row(name: str, pairs: list[tuple[float, float]], unit: str, least: float = 0,
              most: float = float("inf")) -> bool:
    """Prints a row of two figures that were measured in turn; whether their ratio is in bounds."""
    ratios = [many / one for many, one in pairs]
    many, one = (statistics.median(it) for it in zip(*pairs, strict=True))
    wanted = f"at least {least}" if least else f"at most {most}"
    print(f"| {name} | {many:,.1f} and {one:,.1f} {unit} | {statistics.median(ratios):.2f} "
          f"({min(ratios):.2f} to {max(ratios):.2f}) | {wanted} |", flush=True)
    return least <= statistics.median(ratios) <= most


def measure_reads(command: list[str], runs: int, rows: int) -> bool:
    """Ordered reads a second."""
    with running(command, SERVERS) as many, running(command, 1) as one:
        for mux in (many, one):
            mux.connect().store("a", rows_of(DOCUMENT_ROWS, 1))
            rate(mux, 6, lambda it, _: void(it.ask(b"Q", ORDERED)))
        pairs = [in_slices(many, one, 6, lambda it, _: void(it.ask(b"Q", ORDERED)))
                 for _ in range(runs)]
    return ratio_row("`order by`, 6 clients", pairs, "a second", least=2.4)


def void(_: object) -> None:
    """Nothing."""


def measure_lookups(command: list[str], runs: int, rows: int) -> bool:
    """Lookups beside long queries."""
    with running(command, SERVERS) as mux:
        client = mux.connect()
        client.store("a", rows_of(DOCUMENT_ROWS, 1))
        size = 500
        begin = time.perf_counter()
        client.ask(b"Q", FIVE % size)
        size = max(1, int(size * 5 / (time.perf_counter() - begin)))
        pairs = []
        for _ in range(runs):
            alone = median_lookup(client)
            stop = threading.Event()
            thread = threading.Thread(target=ask_until, args=(mux, FIVE % size, stop))
            thread.start()
            time.sleep(0.5)
            pairs.append((1000 * median_lookup(client), 1000 * alone))
            stop.set()
            thread.join()
    return ratio_row("a lookup beside queries of 5 s, and alone", pairs, "ms", most=2)


def ask_until(mux: Mux, query: bytes, stop: threading.Event) -> None:
    """Asks a query again and again."""
    connection = mux.connect()
    while not stop.is_set():
        connection.ask(b"Q", query)


def median_lookup(client: Connection) -> float:
    """The median time of a lookup, over some seconds."""
    times: list[float] = []
    until = time.perf_counter() + 2 * SECONDS
    while time.perf_counter() < until:
        begin = time.perf_counter()
        client.ask(b"Q", LOOKUP)
        times.append(time.perf_counter() - begin)
    return statistics.median(times)


class Reader(threading.Thread):
    """Asks lookups one after the other, and keeps when each began and ended."""

    def __init__(self, mux: Mux) -> None:
        super().__init__(daemon=True)
        self._client = mux.connect()
        self.is_ended = False
        self.spans: list[Span] = []

    def run(self) -> None:
        """Asks a lookup, and waits a millisecond, again and again until `end` is called.

        Raises RuntimeError where a lookup is refused, ConnectionError where the stream ends.
        """
        while not self.is_ended:
            begin = time.monotonic()
            self._client.ask(b"Q", LOOKUP)
            self.spans.append((begin, time.monotonic()))
            time.sleep(0.001)

    def end(self) -> list[Span]:
        """When the lookups began and ended."""
        self.is_ended = True
        self.join()
        return self.spans


class Stalls:
    """When the machine did not run a program that was due, on any of its processors.

    On each processor a program sleeps for a millisecond again and again, at a priority above all
    others (which root alone may have). Only the host of a virtual machine holds it up: where it
    gives a processor to another machine, no server can answer.
    """

    LOOP = """
import os, select, sys, time
os.sched_setaffinity(0, {int(sys.argv[1])})
try:
    os.sched_setscheduler(0, os.SCHED_FIFO, os.sched_param(50))
except PermissionError:
    sys.exit()
while not select.select([sys.stdin], [], [], 0)[0]:
    begin = time.monotonic()
    time.sleep(0.001)
    end = time.monotonic()
    if end - begin > 0.003:
        print(begin + 0.001, end)
"""

    def __init__(self) -> None:
        self._begin = time.monotonic()
        self._sleepers = [
            subprocess.Popen([sys.executable, "-c", self.LOOP, f"{it}"], stdin=-1, stdout=-1,
                             text=True)
            for it in os.sched_getaffinity(0)]

    def end(self) -> "Stalled":
        """What was seen until now."""
        spans = [tuple(map(float, line.split()))
                 for it in self._sleepers for line in it.communicate()[0].splitlines()]
        return Stalled([(begin, end) for begin, end in spans], time.monotonic() - self._begin)


class Stalled:
    """The spans of time in which the machine stood still, each moment once."""

    def __init__(self, spans: list[Span], seconds: float) -> None:
        self.spans: list[Span] = []
        self._seconds = seconds
        for begin, end in sorted(spans):
            if self.spans and begin <= self.spans[-1][1]:
                self.spans[-1] = (self.spans[-1][0], max(end, self.spans[-1][1]))
            else:
                self.spans.append((begin, end))

    def within(self, span: Span) -> float:
        """Seconds of this span in which the machine stood still."""
        return sum(max(0.0, min(end, span[1]) - max(begin, span[0])) for begin, end in self.spans)

    def share(self) -> float:
        """The part of the time in which it did, from 0 to 1."""
        return sum(end - begin for begin, end in self.spans) / self._seconds


def measure_restart(command: list[str], runs: int, rows: int) -> bool:
    """The longest pause of a read beside restarts."""
    with running(command, SERVERS) as mux:
        client = mux.connect()
        client.store("a", rows_of(DOCUMENT_ROWS, 1))
        for number in range(rows // DOCUMENT_ROWS - 1):
            client.store(f"d{number}", rows_of(DOCUMENT_ROWS, number))
        found = [pause(mux, has_file, what) for has_file, what in RESTARTS for _ in range(runs)]
    return all(found)


RESTARTS: list[tuple[bool | None, str]] = [
    (None, "no restart"), (True, "the one with the file"), (False, "one in memory")]


def pause(mux: Mux, has_file: bool | None, what: str) -> bool:
    """Prints the longest pause of a read beside one restart, or beside none; whether it is short,
    where there is a restart. How much of it is not the host's is printed, too."""
    words = "has its file open again" if has_file else "holds the documents"
    before = mux.said().count(words)
    reader, stalls, begin = Reader(mux), Stalls(), time.monotonic()
    reader.start()
    time.sleep(1)
    if has_file is None:
        time.sleep(3 * SECONDS)
    else:
        os.kill(mux.server(has_file), signal.SIGKILL)
        mux.wait_for(words, before + 1)
    took = time.monotonic() - begin - 1
    spans, stalled = reader.end(), stalls.end()
    whole = 1000 * max(end - begin for begin, end in spans)
    own = 1000 * max(end - begin - stalled.within((begin, end)) for begin, end in spans)
    median = 1000 * statistics.median(end - begin for begin, end in spans)
    print(f"| {what}: longest read in {took:.1f} s | {whole:,.1f} ms, {own:,.1f} of it while the "
          f"machine ran, median {median:,.2f}; it stood still for {100 * stalled.share():.0f} % | |"
          f" {'' if has_file is None else f'under {PAUSE}'} |", flush=True)
    return has_file is None or whole < PAUSE


def measure_stores(command: list[str], runs: int, rows: int) -> bool:
    """Stores a second in a file."""
    def store(it: Connection, number: int) -> None:
        it.store(f"d{number}", 'document{element a{"x"}}')

    with running(command, SERVERS) as many, running(command, 1) as one:
        pairs = [in_slices(many, one, 4, store) for _ in range(runs)]
    return ratio_row("stores in a file, 4 clients", pairs, "a second", least=0.7)


MEASURES = {"reads": measure_reads, "lookups": measure_lookups, "restart": measure_restart,
            "stores": measure_stores}


def main() -> int:
    """Prints the rows; gives the exit status."""
    words = sys.argv[1:]
    at = words.index("--") if "--" in words else len(words)
    parser = argparse.ArgumentParser(description=(__doc__ or "").split("\n")[0])
    parser.add_argument("--rows", type=int, default=2_000_000)
    parser.add_argument("--runs", type=int, default=3)
    parser.add_argument("names", nargs="*", choices=[*MEASURES, []], metavar="NAME")
    given = parser.parse_args(words[:at])
    command = words[at + 1:] or [str(TOP / "serve")]
    use_allocator()
    print(f"load {os.getloadavg()[0]:.1f} on {len(os.sched_getaffinity(0))} processors")
    print(f"| What | {SERVERS} servers and 1 | Ratio | Wanted |\n|---|---|---|---|")
    found = [MEASURES[name](command, given.runs, given.rows) for name in given.names or MEASURES]
    print(f"load {os.getloadavg()[0]:.1f} at the end")
    return 0 if all(found) else 1


if __name__ == "__main__":
    sys.exit(main())
