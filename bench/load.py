"""What it costs to store literal documents, and to store a document again that changed little.

    tools/run load [--server WORDS] [--base WORDS] [--rounds N] [literals|edits ..]

`literals`: three shapes of a literal of one frame, in memory: microseconds a row to read the query
and evaluate nothing, to read it and make the document, to store it, and to store another of that
shape in its place. `edits`: milliseconds for the document of bench/queries.py, in memory
and on a file: made, stored, replaced by itself, and by copies in which one text is changed, four
times, and in which a node more stands at the front, each copy also by itself, not stored; and the
pages of log. On a file the first of these edits waits until the engine has copied the log of the
document's first store into the database: it is also shown by itself.

The server, an older one where --base names it, BaseX where it is installed, which replaces the same
by `db:replace`, and the inserts of C SQLite (python3's sqlite3) take N turns (3). The script prints
medians, with the least times in brackets, by the clock and of the processor. The processor's time
has no waiting in it, for other programs or for the disk. The bounds are shown by both. The status
is 1 if a bound on the processor's time or on the pages is missed, or if documents come out
different.
"""

from __future__ import annotations

import argparse
import os
import pathlib
import shlex
import sqlite3
import sys
import tempfile
import time
from collections.abc import Iterator, Mapping, Sequence

from bench.bounds import Bound, Times, ratio, said, table
from bench.engines import (
    DATABASE,
    ON_DISK,
    RUNS,
    Command,
    Driven,
    Program,
    Spent,
    differing,
    driven,
)
from bench.queries import BASE, LARGE, OURS, document
from bench.shapes import SHAPES, Row, pages, rows_of
from tools.common.harness import built

MAKE = document(LARGE)
ONE_TEXT = """document {element lib {
  for $s in doc("lib")/lib/shelf return
    if ($s/@id = "450") then element shelf {$s/@*, for $b in $s/book return
      if ($b/@id = "8990")
      then element book {$b/@*, $b/title, $b/author, element year {"%d"}, $b/price, $b/note}
      else $b}
    else $s,
  doc("lib")/lib/pad
}}"""
FRONT = 'document {element lib {element pad {}, doc("lib")/lib/node()}}'
SEEN = 'string-join((doc("lib")//book[@id = "8990"]/year/string(), ' \
       'string(count(doc("lib")//node())), name(doc("lib")/lib/*[1])), " ")'
TABLES = (
    "CREATE TABLE label (id INTEGER PRIMARY KEY, name TEXT NOT NULL UNIQUE) STRICT",
    "CREATE TABLE node2 (address TEXT NOT NULL, pre INTEGER NOT NULL, size INTEGER NOT NULL,"
    " level INTEGER NOT NULL, kind INTEGER NOT NULL, label INTEGER NOT NULL, value TEXT NOT NULL,"
    " PRIMARY KEY (address, pre)) STRICT")
INSERT = "INSERT INTO node2 VALUES ('lib', ?1, ?2, ?3, ?4, ?5, ?6)"
C_SQLITE, ON_FILE = "C SQLite", " on a file"
MOST_PAGES = 20
EDITS = 4
"""How many times in a turn a text of the document is changed."""
TEXT = "one text changed"
CHANGED = f"{TEXT}, stored"
FIRST_TEXT = f"{TEXT} for the first time, stored"
"""On a file it waits for the engine, which first copies the log of the document's first store into
the database: one of the edits that are judged, and shown by itself besides."""
Measures = dict[str, dict[str, list[float]]]
"""The figures of the turns, by what was measured and by engine."""


class Found:
    """The times of the turns, by the clock and of the processor, and what was counted."""

    def __init__(self) -> None:
        self.clock: Measures = {}
        self.worked: Measures = {}
        self.scale = 1.0

    def note(self, what: str, engine: str, spent: Spent) -> None:
        """Adds a time, in units of the scale."""
        for measures, time_of in ((self.clock, spent.whole), (self.worked, spent.processor)):
            measures.setdefault(what, {}).setdefault(engine, []).append(time_of * self.scale)

    def count(self, what: str, engine: str, number: int) -> None:
        """Adds a number."""
        for measures in (self.clock, self.worked):
            measures.setdefault(what, {}).setdefault(engine, []).append(number)


def inserted(rows: Sequence[Row], path: str) -> Spent:
    """The time of C SQLite to insert the rows into new tables, in one transaction."""
    base = sqlite3.connect(path, isolation_level=None)
    for text in ("PRAGMA journal_mode=WAL", "PRAGMA synchronous=FULL", *TABLES):
        base.execute(text)
    worked, begin = time.process_time(), time.perf_counter()
    names = {name: number for number, name in enumerate({row.name: None for row in rows})}
    base.execute("BEGIN")
    base.executemany("INSERT INTO label VALUES (?2, ?1)", names.items())
    base.executemany(INSERT, ((*row[:4], names[row.name], row.value) for row in rows))
    base.execute("COMMIT")
    spent, worked = time.perf_counter() - begin, time.process_time() - worked
    base.close()
    return Spent(spent * 1e3, 0.0, worked * 1e3)


def made(engine: Program | Driven, query: str) -> Spent:
    """Makes a document that isn't stored."""
    [spent] = engine.run(f"count(({query})/node())", 1)
    return spent


def replaced(engine: Program | Driven, query: str) -> Spent:
    """Stores a document over the one that is there."""
    if isinstance(engine, Program):
        return engine.put(query)
    [spent] = engine.run(f'db:replace("lib", "lib.xml", {query})', 1)
    return spent


def literal_turn(found: Found, shape: str, turn: int, engines: Sequence[Program | Driven],
                 rows: Sequence[Row]) -> None:
    """A turn of each engine with two literals of a shape."""
    first, second = SHAPES[shape](2 * turn), SHAPES[shape](2 * turn + 1)
    for engine in engines:
        if isinstance(engine, Program):
            [reading] = engine.run(f"if (empty(())) then 0 else {first}", 1)
            found.note(f"{shape}: read", engine.name, reading)
            found.note(f"{shape}: and made", engine.name, made(engine, first))
            found.note(f"{shape}: stored", engine.name, engine.put(first))
        found.note(f"{shape}: replaced", engine.name, replaced(engine, second))
        if isinstance(engine, Program):
            engine.ask(b"D", b"lib")
    found.note(f"{shape}: stored", C_SQLITE, inserted(rows, ":memory:"))


def literals(servers: Mapping[str, Command], others: Sequence[Driven], rounds: int) -> Found:
    """Microseconds a row of each shape."""
    programs = [Program(name, command) for name, command in servers.items()]
    found = Found()
    for shape, literal in SHAPES.items():
        programs[0].put(literal(0))
        programs[0].run('doc("lib")', 1)
        rows = rows_of(programs[0].printed())
        programs[0].ask(b"D", b"lib")
        print(f"{shape}: {len(rows):,} rows, {len(literal(0)) / 1e3:.0f} kB of text", flush=True)
        found.scale = 1e3 / len(rows)
        warm_up(others, [(literal(0), True)])
        for turn in range(rounds):
            literal_turn(found, shape, turn, [*programs, *others], rows)
    for program in programs:
        program.end()
    return found


def warm_up(others: Sequence[Driven], tasks: Sequence[tuple[str, bool]]) -> None:
    """Has engines of Java make documents some times, or replace theirs by them."""
    for _ in range(RUNS):
        for query, is_stored in tasks:
            for engine in others:
                (replaced if is_stored else made)(engine, query)


class Place(Program):
    """A server with its documents in memory, or on a file."""

    def __init__(self, name: str, command: Command, file: pathlib.Path | None) -> None:
        words: Command = ["--file", file] if file else []
        super().__init__(name, [*command, *words])
        self.log = pathlib.Path(f"{file}-wal") if file else None

    def written(self) -> bytes:
        """The log as it is."""
        return self.log.read_bytes() if self.log and self.log.exists() else b""


def steps(turn: int) -> list[tuple[str, str, bool]]:
    """What is done to the document: its name, the query, and whether its document is stored."""
    texts = [ONE_TEXT % (2000 + EDITS * turn + edit) for edit in range(EDITS)]
    return [("made", MAKE, False), ("stored", MAKE, True), ("the same stored again", MAKE, True),
            *(step for text in texts for step in (
                (f"{TEXT}, made", text, False),
                (FIRST_TEXT if text == texts[0] else CHANGED, text, True))),
            ("a node at the front, made", FRONT, False),
            ("a node at the front, stored", FRONT, True)]


def step(found: Found, what: str, engine: Program | Driven, query: str, is_stored: bool) -> None:
    """A step of one engine; those of Java have a document already, which "stored" replaces."""
    before = engine.written() if isinstance(engine, Place) else b""
    spent = (replaced if is_stored else made)(engine, query)
    for name in (CHANGED, FIRST_TEXT) if what == FIRST_TEXT else (what,):
        if name != "stored" or isinstance(engine, Place):
            found.note(name, engine.name, spent)
        if is_stored and isinstance(engine, Place) and engine.log:
            found.count(f"{name}: pages of log", engine.name, pages(before, engine.written()))


def edit_turn(found: Found, turn: int, places: Sequence[Place], others: Sequence[Driven]) -> bool:
    """A turn of each engine with the document and copies of it; whether they come out the same."""
    engines: list[Program | Driven] = [*places, *others]
    for what, query, is_stored in steps(turn):
        for engine in engines:
            step(found, what, engine, query, is_stored)
    for engine in engines:
        engine.run(SEEN, 1)
    texts = {engine.name: engine.text() for engine in engines}
    if others_of := differing(texts):
        print(f"ANOTHER DOCUMENT of {', '.join(others_of)}: {texts}")
    return not others_of


def edits(servers: Mapping[str, Command], others: Sequence[Driven], rounds: int) -> Found:
    """Milliseconds of the steps."""
    found = Found()
    warm_up(others, [(query, is_stored) for _, query, is_stored in steps(0)])
    rows: list[Row] = []
    for turn in range(rounds):
        with tempfile.TemporaryDirectory() as room:
            folder = pathlib.Path(room)
            places = [Place(f"{name}{where}", command, folder / f"{name}.db" if where else None)
                      for name, command in servers.items() for where in ("", ON_FILE)]
            if not edit_turn(found, turn, places, others):
                sys.exit(1)
            if not rows:
                places[0].run('doc("lib")', 1)
                rows = rows_of(places[0].printed())
            for where, path in (("", ":memory:"), (ON_FILE, f"{room}/c.db")):
                found.note("stored", C_SQLITE + where, inserted(rows, path))
            for place in places:
                place.end()
    return found


def bounds(of: Mapping[str, Mapping[str, Times]]) -> Iterator[Bound]:
    """The bounds on those times that were measured."""
    for shape, most in (("records: stored", 0.58), ("records: read", 0.5)):
        if BASE in of.get(shape, {}):
            yield ratio(f"{shape}, to the {BASE}", of[shape][OURS], of[shape][BASE], most)
    for where in ("", ON_FILE) if "made" in of else ():
        ours, base = OURS + where, BASE + where
        again, changed = of["the same stored again"], of[CHANGED]
        front = of["a node at the front, stored"]
        yield ratio(f"{TEXT}{where}, to its making", changed[ours], of[f"{TEXT}, made"][ours], 1.3)
        yield ratio(f"the same stored again{where}, to its making", again[ours],
                    of["made"][ours], 1.2)
        if base in front:
            yield ratio(f"a node at the front{where}, to the {BASE}", front[ours], front[base],
                        0.65)
    if written := of.get(f"{CHANGED}: pages of log"):
        found = written[OURS + ON_FILE]
        yield Bound(f"{TEXT}, pages of log", found.median, found.least, MOST_PAGES)


def show(unit: str, measures: Measures) -> bool:
    """Prints a table and its bounds; whether each is kept."""
    times = {what: {name: Times.of(spent) for name, spent in of.items()}
             for what, of in measures.items()}
    heads = list(dict.fromkeys(name for of in times.values() for name in of))
    print(*table([unit, *heads], times), "", sep="\n")
    return said(bounds(times))


def measure(what: str, servers: Mapping[str, Command], rounds: int) -> bool:
    """Measures one of both, and shows it; whether the bounds of the processor's time are kept."""
    is_edits = what == "edits"
    with tempfile.TemporaryDirectory() as room:
        wanted = (DATABASE, ON_DISK) if is_edits else (DATABASE,)
        with driven(wanted, MAKE, pathlib.Path(room)) as others:
            found = (edits if is_edits else literals)(servers, others, rounds)
    unit = "Milliseconds" if is_edits else "Microseconds a row"
    show(f"{unit} by the clock", found.clock)
    return show(f"{unit} of the processor", found.worked)


def main() -> int:
    """Measures what is named, or all; gives the status."""
    words = argparse.ArgumentParser(description=__doc__.partition("\n")[0])
    words.add_argument("--server", default="", help="the server; the built one else")
    words.add_argument("--base", default="", help="the command of an older server, beside")
    words.add_argument("--rounds", type=int, default=3)
    words.add_argument("what", nargs="*", metavar="literals|edits")
    given = words.parse_args()
    servers: dict[str, Command] = {OURS: shlex.split(given.server) or [str(built())]}
    if given.base:
        servers[BASE] = shlex.split(given.base)
    kept = True
    for what in given.what or ("literals", "edits"):
        print(f"the load of the machine is {os.getloadavg()[0]:.1f}", flush=True)
        kept = measure(what, servers, given.rounds) and kept
    return 0 if kept else 1


if __name__ == "__main__":
    sys.exit(main())
