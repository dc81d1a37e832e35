"""The server and other engines over one document, timed in turn in one run.

Saxon-HE is Debian's libsaxonhe-java, BaseX its basex; a JDK compiles what drives them, the files of
bench/peers, in a temporary folder. Each makes the document by the query that makes it for the
server, and keeps it in memory: Saxon as its tree, BaseX as the nodes that the query makes, and, as
a third engine, as its database with indexes. A run of an engine is from the text of a query to the
text of its result, within its process; a run of the server from a request to the last byte of its
reply, over a pipe. The processor's time is that of the thread which answers: what Java's collector
and its compiler do in threads of theirs is not in it.
"""

from __future__ import annotations

import contextlib
import os
import pathlib
import shutil
import subprocess
import sys
import time
from collections.abc import Iterator, Mapping, Sequence
from dataclasses import dataclass
from typing import NamedTuple, Protocol

from tools.common.harness import Server, store
from tools.common.repository import TOP
from tools.common.workspace import use_allocator
from xqs.values import values
from xqs.xml_out import xml

SOURCES = TOP / "bench" / "peers"
JARS = pathlib.Path("/usr/share/java")
JAVA = ("java", "-Xmx2g")
Command = Sequence[str | os.PathLike[str]]
"""The words that start a server."""
RUNS, TURNS = 5, 3
"""Engines take turns of so many runs, and each has so many turns, after a first to warm up."""


class Spent(NamedTuple):
    """Milliseconds of a run by the clock, those of them in which the query was read, and those in
    which it had a processor, whatever else the machine did."""

    whole: float
    reading: float
    processor: float


class Engine(Protocol):
    """What answers queries over the document `lib`."""

    name: str

    def run(self, query: str, count: int) -> list[Spent]:
        """Runs a query so many times, one after another."""

    def text(self) -> str:
        """The last result: nodes as XML, each item on a line of its own."""

    def end(self) -> None:
        """Ends it."""


class Program:
    """A server; how long it takes to read a query isn't told apart."""

    def __init__(
        self, name: str, command: Command, added: Mapping[str, str] | None = None
    ) -> None:
        """Starts the server, with `added` to the environment, as ./serve has it."""
        use_allocator()
        self.name, self._reply = name, b""
        self._server = Server(command, env={**os.environ, **(added or {})})
        self._scheduled = pathlib.Path(f"/proc/{self._server.process.pid}/schedstat")

    def ask(self, kind: bytes, body: bytes) -> Spent:
        """The time to a reply, which has to be an answer."""
        worked, begin = self._worked(), time.perf_counter()
        status, self._reply = self._server.ask(kind, body) or (2, b"the server ended")
        spent = (time.perf_counter() - begin) * 1e3
        if status:
            sys.exit(f"{self.name}: {self._reply.decode()}: {body[:80]!r}")
        return Spent(spent, 0.0, self._worked() - worked)

    def _worked(self) -> float:
        """The milliseconds in which it has had a processor."""
        return int(self._scheduled.read_text().split()[0]) / 1e6

    def put(self, query: str, address: str = "lib") -> Spent:
        """Stores what a query gives."""
        return self.ask(b"S", store(address.encode(), query.encode()))

    def run(self, query: str, count: int) -> list[Spent]:
        """Asks a query so many times."""
        return [self.ask(b"Q", query.encode()) for _ in range(count)]

    def printed(self) -> str:
        """The last reply."""
        return self._reply.decode()

    def text(self) -> str:
        """The last reply as the engines write it."""
        return plain(self.printed())

    def end(self) -> None:
        """Ends the server."""
        self._server.end()


@dataclass(frozen=True)
class Peer:
    """An engine of another make: its package and jar of Debian's, and what drives it."""

    name: str
    package: str
    jars: str
    driver: str
    words: tuple[str, ...] = ()

    def missing(self) -> str:
        """What it wants and isn't there."""
        wanted = [it for it in ("java", "javac") if shutil.which(it) is None]
        return ", ".join(wanted + [self.package] * (not self.path()))

    def path(self) -> str:
        """The jars to which it belongs, as a path of classes; empty where there is none."""
        return os.pathsep.join(map(str, sorted(JARS.glob(self.jars))))


SAXON = Peer("Saxon", "libsaxonhe-java", "Saxon-HE.jar", "SaxonPeer")
NODES = Peer("BaseX", "basex", "basex.jar", "BaseXPeer", ("nodes",))
DATABASE = Peer("BaseX database", "basex", "basex.jar", "BaseXPeer", ("memory",))
ON_DISK = Peer("BaseX on disk", "basex", "basex.jar", "BaseXPeer", ("disk",))


class Driven:
    """A peer's process, which holds the document that a query makes."""

    def __init__(self, peer: Peer, make: str, room: pathlib.Path) -> None:
        self.name, self._text = peer.name, b""
        classes, home = room / peer.driver, room / peer.name.replace(" ", "-")
        path = os.pathsep.join((str(classes), peer.path()))
        if not classes.exists():
            files = [SOURCES / f"{name}.java" for name in ("Peer", peer.driver)]
            subprocess.run(["javac", "-d", classes, "-cp", path, *files], check=True)
        home.mkdir()
        self._said = home / "said"
        words = [*JAVA, f"-Dorg.basex.path={home}", "-cp", path, peer.driver, *peer.words, make]
        with open(self._said, "w") as said:
            self._process = subprocess.Popen(
                words, stdin=subprocess.PIPE, stdout=subprocess.PIPE, stderr=said, cwd=home)

    def run(self, query: str, count: int) -> list[Spent]:
        """Has it run a query so many times."""
        given, found = self._process.stdin, self._process.stdout
        assert given and found
        given.write(f"{count} {one_line(query)}\n".encode())
        given.flush()
        spent = spent_of(found.readline().decode())
        if len(spent) != count:
            sys.exit(f"{self.name} ended: {query[:80]}\n{self._said.read_text()[:2000]}")
        self._text = found.read(int(found.readline()))
        return spent

    def text(self) -> str:
        """The last result."""
        return self._text.decode()

    def end(self) -> None:
        """Ends the process."""
        self._process.communicate()


def one_line(query: str) -> str:
    """A query on one line; its literals have no line feed."""
    return query.replace("\n", " ")


def spent_of(line: str) -> list[Spent]:
    """The times of a reply's first line, which are nanoseconds."""
    return [Spent(*(int(part) / 1e6 for part in word.split("/"))) for word in line.split()]


def plain(reply: str) -> str:
    """A printed value, nodes as XML and each item on a line of its own."""
    return "\n".join(map(xml, values(reply)))


@contextlib.contextmanager
def driven(peers: Sequence[Peer], make: str, room: pathlib.Path) -> Iterator[list[Driven]]:
    """Those engines that are there, with the document; prints which are left out."""
    found: list[Driven] = []
    for peer in peers:
        if missing := peer.missing():
            print(f"{peer.name} is left out: {missing} not installed", flush=True)
        else:
            found.append(Driven(peer, make, room))
    try:
        yield found
    finally:
        for engine in found:
            engine.end()


def warm_up(engines: Sequence[Engine], queries: Sequence[str]) -> None:
    """Runs all queries, before any is timed, so that Java's compiler is done with most of them."""
    for query in queries:
        for engine in engines:
            engine.run(query, RUNS)


def in_turn(
    engines: Sequence[Engine], query: str, turns: int = TURNS
) -> dict[str, list[Spent]]:
    """The runs of a query by each engine, which take turns."""
    found: dict[str, list[Spent]] = {engine.name: [] for engine in engines}
    for _ in range(turns):
        for engine in engines:
            found[engine.name] += engine.run(query, RUNS)
    return found


def differing(texts: Mapping[str, str]) -> list[str]:
    """The engines whose result isn't that of the first."""
    first = next(iter(texts.values()), "")
    return [name for name, text in texts.items() if text != first]
