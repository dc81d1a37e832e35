"""What a replicated log costs, and what nodes over it bring: three brokers and nodes, on loopback.

    tools/run cluster [--server WORDS] [--seconds N] [--runs N] [--elements N] [NAME ..]

It needs rabbitmq-server and python3-aio-pika of Debian, and therefore Debian's python3. It measures
in turn, as medians of the runs: stores with 64 in flight, by one server on a file, by one node over
three brokers, and by one of three nodes that all follow; the `order by` of bench/queries.py, asked
by six clients of one node, of three nodes, and of one node of three servers; how long it takes to
restore documents of 100,000 rows, and until a node that begins from a snapshot of them follows
again; and the longest pause of single stores while a node of two servers takes a snapshot of 25 MB.
Each bound is checked; the exit status is 1 if one doesn't hold.
"""

from __future__ import annotations

import argparse
import os
import pathlib
import shlex
import statistics
import subprocess
import sys
import tempfile
import time
from collections import deque
from collections.abc import Sequence
from concurrent.futures import ThreadPoolExecutor

from bench.queries import QUERIES, document
from brokers import SCRIPT, Brokers, missing
from clusters import RunningNode
from tools.common.harness import LIBRARY
from tools.common.repository import TOP
from tools.common.workspace import use_allocator
from xqs import Client, connect
from xqs.cluster import control

FLIGHT, CLIENTS = 64, 6
ELEMENTS = 100_000
DOCUMENTS, ROWS = 100, 1_000
ORDER_BY = next(query for name, query in QUERIES if name == "order by")
STORES, READS, FOLLOWS, PAUSE = 0.3, 2.2, 3.0, 0.1
"""The bounds: of stores through the log to those without, of reads of three nodes to those of one,
of the time to follow again to that of a restore, and of a pause of stores, in seconds."""
LARGE, MEGABYTES = 25, 1_000_000
"""Documents of a megabyte each that a snapshot has whose pause is measured."""


def changed(text: str, number: int) -> str:
    """The library with another text in each of its books."""
    return text.replace('{"A"}', f'{{"A{number}"}}').replace('{"B"}', f'{{"B{number}"}}')


def stores(place: str | Sequence[str], seconds: float) -> float:
    """Stores a second of one client that has so many in flight: a document that is another one each
    time, since a server writes nothing where it is the same."""
    text = LIBRARY.decode()
    with connect(place) as client:
        client.store("b", text)
        waiting = [client.store_later("b", changed(text, it)) for it in range(FLIGHT)]
        count, begin = 0, time.perf_counter()
        while time.perf_counter() - begin < seconds:
            waiting.pop(0).result()
            waiting.append(client.store_later("b", changed(text, count)))
            count += 1
        taken = time.perf_counter() - begin
    return count / taken


def reads(places: Sequence[str], seconds: float) -> float:
    """Queries a second of several clients, which have one in flight each."""
    begin = time.perf_counter()

    def work(number: int) -> int:
        count = 0
        with connect(places[number % len(places)]) as client:
            while time.perf_counter() < begin + seconds:
                client.query_text(ORDER_BY)
                count += 1
        return count

    with ThreadPoolExecutor(CLIENTS) as pool:
        count = sum(pool.map(work, range(CLIENTS)))
    return count / (time.perf_counter() - begin)


class Bench:
    """Brokers, a log and nodes, and what was measured of them."""

    def __init__(self, brokers: Brokers, server: list[str], folder: pathlib.Path,
                 given: argparse.Namespace) -> None:
        self.brokers, self.server, self.folder, self.given = brokers, server, folder, given
        self.faults: list[str] = []
        self._logs = 0

    def nodes(self, count: int, *options: str) -> list[RunningNode]:
        """So many nodes over a log of their own."""
        self._logs += 1
        found = [RunningNode(f"n{self._logs}.{number}", self.brokers, f"log{self._logs}",
                             self.folder, "--servers", "1", *options, first=number % 3,
                             command=self.server)
                 for number in range(count)]
        for node in found:
            node.begin(is_awaited=False)
        deque(map(RunningNode.wait_until_it_listens, found), 0)
        return found

    def judge(self, what: str, holds: bool, said: str) -> None:
        """Prints a bound, and notes it where it does not hold."""
        print(f"{what}: {said}: {'holds' if holds else 'does NOT hold'}", flush=True)
        if not holds:
            self.faults.append(what)

    def measure_stores(self) -> None:
        """Stores without a log, by one node, and by one of three."""
        alone, three = self.nodes(1), self.nodes(3)
        rows: list[list[float]] = []
        for run in range(self.given.runs):
            path = self.folder / f"alone-{run}.db"
            places = [[*self.server, "--file", str(path)], alone[0].place, three[0].place]
            rows.append([stores(place, self.given.seconds) for place in places])
        file, one, of_three = (statistics.median(column) for column in zip(*rows, strict=True))
        print(f"stores a second with {FLIGHT} in flight: one server on a file {file:,.0f}, one "
              f"node {one:,.0f}, one of three nodes {of_three:,.0f}")
        for name, found in (("one node", one), ("one of three nodes", of_three)):
            self.judge(f"stores through the log, {name}", found / file >= STORES,
                       f"{found / file:.2f} of those without, wanted {STORES}")
        end(alone + three)

    def measure_reads(self) -> None:
        """The `order by` at one node, at three, and at one of three servers."""
        groups = [self.filled(1), self.filled(3), self.filled(1, "--servers", "3")]
        rows = [[reads([it.place for it in group], self.given.seconds * 2) for group in groups]
                for _ in range(self.given.runs)]
        one, three, servers = (statistics.median(column) for column in zip(*rows, strict=True))
        print(f"`order by` a second, {CLIENTS} clients: one node {one:.1f}, three nodes "
              f"{three:.1f}, one node of three servers {servers:.1f}")
        self.judge("reads of three nodes", three / one >= READS,
                   f"{three / one:.2f} times those of one, wanted {READS}")
        end([node for group in groups for node in group])

    def filled(self, count: int, *options: str) -> list[RunningNode]:
        """So many nodes, each of whose servers has answered the query."""
        group = self.nodes(count, *options)
        with connect(group[0].place) as client:
            client.store("lib", document(self.given.elements))
        reads([it.place for it in group] * CLIENTS, 0.1)
        return group

    def measure_beginning(self) -> None:
        """How long rows take to restore, and to begin from."""
        [node] = self.nodes(1)
        backup = self.folder / "x.backup"
        with connect(node.place) as client:
            fill(client)
        command([*self.words("backup"), str(backup), "--server", node.place])
        node.terminate()
        rows = []
        for _ in range(self.given.runs):
            restored = command([*self.words("restore"), str(backup), "--server",
                                shlex.join(self.server)])
            begin = time.perf_counter()
            node.begin()
            rows.append((restored, time.perf_counter() - begin))
            node.kill()
        restored, begun = (statistics.median(column) for column in zip(*rows, strict=True))
        print(f"{DOCUMENTS * ROWS:,} rows in {DOCUMENTS} documents: restored in {restored:.2f} s; "
              f"a node that begins from a snapshot of them follows after {begun:.2f} s")
        self.judge("beginning", begun / restored <= FOLLOWS,
                   f"{begun / restored:.2f} times the restore, wanted at most {FOLLOWS}")

    def measure_pauses(self) -> None:
        """The longest pause of stores while a snapshot is taken, and that without one."""
        [node] = self.nodes(1, "--servers", "2")
        with connect(node.place) as client:
            for number in range(LARGE):
                client.store(f"large{number}", "document {element a {text {string-join((1 to "
                             f"{MEGABYTES // 10}) ! \"0123456789\")}}}}}}")
            without = longest_pause(client, self.given.seconds, None)
            pauses = [longest_pause(client, self.given.seconds, node) for _ in
                      range(self.given.runs)]
        found = statistics.median(pauses)
        print(f"longest pause of stores one by one: {without * 1000:,.0f} ms without a snapshot, "
              f"{found * 1000:,.0f} ms during one of {LARGE} MB")
        self.judge("pause of a snapshot", found <= PAUSE, f"{found:.3f} s, wanted {PAUSE}")
        end([node])

    @staticmethod
    def words(name: str) -> list[str]:
        """How a command of the client is run."""
        return [sys.executable, str(TOP / "xqs"), name]


def fill(client: Client) -> None:
    """Stores the rows."""
    futures = [
        client.store_later(f"d{number}", "document {element rows {for $n in 1 to "
                           f"{(ROWS - 2) // 2} return element r {{text {{$n + {number}}}}}}}}}")
        for number in range(DOCUMENTS)]
    for future in futures:
        future.result()


def longest_pause(client: Client, seconds: float, node: RunningNode | None) -> float:
    """The longest store, one by one, until a snapshot of the node is taken, or for some seconds."""
    text, longest = LIBRARY.decode(), 0.0
    with ThreadPoolExecutor(1) as pool:
        taking = pool.submit(control.ask, node.snapshots, "snapshot") if node else None
        until = time.perf_counter() + seconds
        while (not taking.done()) if taking else time.perf_counter() < until:
            begin = time.perf_counter()
            client.store("b", text)
            longest = max(longest, time.perf_counter() - begin)
        if taking and not taking.result()[0]:
            sys.exit(f"cluster: {taking.result()[1]}")
    return longest


def end(nodes: Sequence[RunningNode]) -> None:
    """Ends nodes in order."""
    for node in nodes:
        node.end()


def command(words: list[str]) -> float:
    """Runs a command, which has to end well; its seconds."""
    begin = time.perf_counter()
    done = subprocess.run(words, capture_output=True, text=True, check=False)
    if done.returncode:
        sys.exit(f"{shlex.join(words)}: {done.stderr}")
    return time.perf_counter() - begin


def versions() -> str:
    """The versions of the two packages."""
    names = ["rabbitmq-server", "python3-aio-pika"]
    done = subprocess.run(["dpkg-query", "-W", "-f", "${Package} ${Version}  ", *names],
                          capture_output=True, text=True, check=False)
    return done.stdout.strip() or f"{SCRIPT}, not of a Debian package"


def main() -> int:
    """Measures and judges; gives the exit status."""
    parser = argparse.ArgumentParser(description=(__doc__ or "").splitlines()[0])
    parser.add_argument("--server", default=os.environ.get("XQS_SERVER") or str(TOP / "serve"))
    parser.add_argument("--seconds", type=float, default=5.0)
    parser.add_argument("--runs", type=int, default=5)
    parser.add_argument("--elements", type=int, default=ELEMENTS)
    parser.add_argument("names", nargs="*", metavar="stores|reads|beginning|pauses")
    given = parser.parse_args()
    if why := missing():
        sys.exit(f"cluster: {why}")
    use_allocator()
    print(f"{versions()}; the load of the machine is {os.getloadavg()[0]:.1f}")
    with Brokers() as brokers, tempfile.TemporaryDirectory(prefix="xqs-bench-") as room:
        bench = Bench(brokers, shlex.split(given.server), pathlib.Path(room), given)
        for name in given.names or ("stores", "reads", "beginning", "pauses"):
            getattr(bench, f"measure_{name}")()
    return 1 if bench.faults else 0


if __name__ == "__main__":
    sys.exit(main())
