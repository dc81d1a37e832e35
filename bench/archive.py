"""An archive of documents of 2,000 rows, with more documents than the cache holds.

    tools/run archive [--server WORDS] [--base WORDS] [--rows N] [--kept MB ..] [--peer]

Documents are stored in a file until there are N rows (12,000,000); the script shows the stores per
second for each million rows. Then it opens the file with `--kept` 128 and 1024, and measures each
time: the opening and its peak of memory; the first reading of a row, for documents that the opening
didn't keep; three passes over all rows; a count of all elements with a name, three times; look-ups
in single documents; and the peak of memory of all this. With --base an older program opens the same
file in turn. With --peer BaseX, over the same documents on a disk, counts by name, finds one value
and groups over all, three times each.

Times are milliseconds of the processor, except for the stores. The bounds are shown: the status is
1 if one is missed, or if BaseX finds something else.
    tools/run archive --rows 200000 --kept 1 --kept 16       a trial of a minute
"""

from __future__ import annotations

import argparse
import os
import pathlib
import random
import shlex
import statistics
import sys
import tempfile
import time
from collections.abc import Iterator, Sequence
from dataclasses import dataclass, field

from bench.bounds import Bound, figure, said, table
from bench.engines import ON_DISK, Command, Driven, Program, driven
from tools.common.harness import built

ELEMENTS = 499
ROWS = 4 * ELEMENTS + 4
"""The rows of a document: the root, its element with two attributes, and four for each element
below: itself, its attributes, and a text."""
MILLION = 1_000_000
MOST = 12 * MILLION
LOOKUPS = 101
FIRST = 50
"""Of how many documents the first reading is measured."""
TURNS = 3
MEGABYTE = 1 << 20
BYTES_OF_A_ROW = 24
"""What a row takes where it is kept, beside its value."""
OURS, BASE = "xqs", "base"
PASS, NAMED = "a pass over all rows", "all elements with a name"
SCANS = {PASS: "count({all}//text())", NAMED: "count({all}//f)"}
ALL = {
    NAMED: "count({all}//f)",
    "one value over all": 'count({all}//f[@n = "7-7"])',
    "a group over all": 'string-join(for $f in {all}//f group by $g := string($f/@g) order by $g '
                        'return concat($g, " ", count($f)), " ")',
}
"""What is compared with BaseX."""


def address(number: int) -> str:
    """That of a document."""
    return f"d{number:06}"


def made(number: int) -> str:
    """The query that makes a document."""
    return (f'document {{element file {{attribute id {{"{number}"}}, attribute kind {{"k"}}, '
            f'for $i in 1 to {ELEMENTS} return element f {{'
            f'attribute n {{concat("{number}-", $i)}}, '
            'attribute g {$i mod 10}, text {concat("value ", $i)}}}}')


def written(number: int) -> str:
    """The same document as XML."""
    below = "".join(f'<f n="{number}-{i}" g="{i % 10}">value {i}</f>'
                    for i in range(1, ELEMENTS + 1))
    return f'<file id="{number}" kind="k">{below}</file>'


def bytes_of(number: int) -> int:
    """What the rows of a document take where they are kept."""
    each = range(1, ELEMENTS + 1)
    values = sum(len(f"{number}-{i}") + 1 + len(f"value {i}") for i in each)
    return BYTES_OF_A_ROW * ROWS + values + len(str(number)) + 1


@dataclass
class Figures:
    """What was measured of a program with a file open."""

    opening: float = 0.0
    opened: float = 0.0
    """The most memory of the opening, in MB."""
    row: float = 0.0
    """Microseconds of the first reading of a row; 0 where all are kept by the opening."""
    scans: dict[str, list[float]] = field(default_factory=dict)
    lookup: float = 0.0
    most: float = 0.0
    """The most memory after the opening, in MB."""

    def cells(self) -> dict[str, str]:
        """The figures as cells of a table."""
        found = {"opened": figure(self.opening), "MB then": figure(self.opened),
                 "µs a row": figure(self.row), "look-up": figure(self.lookup)}
        for what, times in self.scans.items():
            found[what] = ", ".join(map(figure, times))
        return {**found, "MB later": figure(self.most)}


class Opened(Program):
    """A server over a file that is there."""

    def __init__(self, name: str, command: Command, path: pathlib.Path, kept: int) -> None:
        super().__init__(name, [*command, "--file", path, "--kept", str(kept)])
        self._folder = pathlib.Path(f"/proc/{self._server.process.pid}")
        self.opening = self.ask(b"Q", b"1")
        self.opened = self.most()

    def most(self) -> float:
        """The most memory since this was asked before, in MB."""
        lines = (self._folder / "status").read_text().splitlines()
        most = next(it for it in lines if it.startswith("VmHWM"))
        (self._folder / "clear_refs").write_text("5")
        return int(most.split()[1]) / 1024

    def time(self, query: str) -> float:
        """The milliseconds of the processor for a query."""
        return self.run(query, 1)[0].processor

    def worked_in_all(self) -> float:
        """The milliseconds in which it has had a processor since it began."""
        return int((self._folder / "schedstat").read_text().split()[0]) / 1e6


def stored(command: Command, path: pathlib.Path, documents: int) -> list[float]:
    """Stores the documents; the stores a second of each million rows, or of all where there are
    fewer."""
    server = Program(OURS, [*command, "--file", path])
    batch = min(documents, MILLION // ROWS)
    rates = []
    for first in range(0, documents - documents % batch, batch):
        begin = time.perf_counter()
        for number in range(first, first + batch):
            server.put(made(number), address(number))
        rates.append(batch / (time.perf_counter() - begin))
        print(f"{(first + batch) * ROWS:,} rows: {rates[-1]:,.0f} stores a second", flush=True)
    server.end()
    return rates


def unkept(documents: int, kept: int) -> int:
    """How many of the documents don't fit where so many MB are kept."""
    room = kept * MEGABYTE
    return max(0, documents - room // bytes_of(documents // 2))


def measured(server: Opened, documents: int, kept: int) -> Figures:
    """Measures a server."""
    found = Figures(server.worked_in_all(), server.opened)
    last = min(FIRST, unkept(documents, kept))
    if last:
        times = [server.time(f'count(doc("{address(number)}")//text())')
                 for number in range(documents - last, documents)]
        found.row = sum(times) / (last * ROWS) * 1e3
    for what, query in SCANS.items():
        found.scans[what] = [server.time(query.format(all="collection()")) for _ in range(TURNS)]
    chosen = random.Random(7)
    numbers = [chosen.randrange(documents) for _ in range(LOOKUPS)]
    found.lookup = statistics.median(
        server.time(f'string(doc("{address(number)}")/file/f[@n = "{number}-7"])')
        for number in numbers)
    found.most = server.most()
    return found


def compared(server: Opened, peers: Sequence[Driven]) -> dict[str, dict[str, float]]:
    """The times of what is compared with BaseX, the medians; ends where it finds something else."""
    found: dict[str, dict[str, float]] = {}
    engines: list[Program | Driven] = [server, *peers]
    for what, query in ALL.items():
        for engine in engines:
            place = "collection()" if engine is server else 'collection("lib")'
            spent = [engine.run(query.format(all=place), 1)[0].processor for _ in range(TURNS)]
            found.setdefault(what, {})[engine.name] = statistics.median(spent)
            if engine.text() != server.text():
                sys.exit(f"{what}: {engine.name} finds something else: {engine.text()[:80]}")
    return found


def bounds(documents: int, rates: Sequence[float],
           of: dict[str, dict[int, Figures]]) -> Iterator[Bound]:
    """The bounds on the stores and on those figures that were measured."""
    if len(rates) > 1:
        yield Bound("stores a second, the most by the least", max(rates) / min(rates), None, 1.2)
    for kept, ours in of[OURS].items():
        what = f"--kept {kept}"
        least = unkept(documents, kept) * ROWS * ours.row / 1e3
        if least:
            yield Bound(f"{what}: the second pass, by the first reading of rows that don't fit",
                        ours.scans[PASS][1] / least, None, 1.2)
        base = of.get(BASE, {}).get(kept)
        if base:
            if ours.row and base.row:
                yield Bound(f"{what}: the first reading, to the {BASE}", ours.row / base.row,
                            None, 0.6)
            yield Bound(f"{what}: a look-up, to the {BASE}", ours.lookup / base.lookup, None, 1.0)
        if kept == 1024 and documents * ROWS >= MOST:
            yield Bound(f"{what}: GB after the opening", ours.most / 1024, None, 1.6)


def beside(times: dict[str, dict[str, float]]) -> Iterator[Bound]:
    """The bounds beside BaseX."""
    for what, of in times.items():
        for name, spent in of.items():
            if name != OURS:
                yield Bound(f"{what}, to {name}", of[OURS] / spent, None, 1.5)


def show(of: dict[str, dict[int, Figures]]) -> None:
    """Prints the figures of the programs."""
    rows = {f"{name} --kept {kept}": found.cells()
            for name, figures in of.items() for kept, found in figures.items()}
    heads = list(dict.fromkeys(head for cells in rows.values() for head in cells))
    print(*table(["Milliseconds", *heads], rows), sep="\n", flush=True)


def beside_peer(server: Opened, documents: int, room: pathlib.Path) -> bool:
    """Compares a server with BaseX; whether each bound is kept."""
    folder = room / "xml"
    folder.mkdir()
    for number in range(documents):
        (folder / f"{address(number)}.xml").write_text(written(number))
    with driven([ON_DISK], f'"{folder}"', room) as peers:
        times = compared(server, peers)
    print(*table(["Milliseconds", *next(iter(times.values()))],
                 {what: {name: figure(it) for name, it in of.items()}
                  for what, of in times.items()}), sep="\n", flush=True)
    return said(beside(times))


def main() -> int:
    """Stores the archive, measures each opening, and judges the bounds; gives the status."""
    words = argparse.ArgumentParser(description=__doc__.partition("\n")[0])
    words.add_argument("--server", default="", help="the server; the built one else")
    words.add_argument("--base", default="", help="the command of an older server, beside")
    words.add_argument("--rows", type=int, default=MOST)
    words.add_argument("--kept", type=int, action="append", help="MB, once or more: 128 and 1024")
    words.add_argument("--peer", action="store_true", help="compares with BaseX")
    given = words.parse_args()
    servers: dict[str, Command] = {OURS: shlex.split(given.server) or [str(built())]}
    if given.base:
        servers[BASE] = shlex.split(given.base)
    documents = given.rows // ROWS
    print(f"the load of the machine is {os.getloadavg()[0]:.1f}", flush=True)
    with tempfile.TemporaryDirectory() as name:
        room = pathlib.Path(name)
        path = room / "archive.db"
        rates = stored(servers[OURS], path, documents)
        of: dict[str, dict[int, Figures]] = {name: {} for name in servers}
        is_kept = True
        wanted = given.kept or [128, 1024]
        for kept in wanted:
            for who, command in servers.items():
                server = Opened(who, command, path, kept)
                of[who][kept] = measured(server, documents, kept)
                if given.peer and who == OURS and kept == max(wanted):
                    is_kept = beside_peer(server, documents, room)
                server.end()
        show(of)
        is_kept = said(bounds(documents, rates, of)) and is_kept
    return 0 if is_kept else 1


if __name__ == "__main__":
    sys.exit(main())
