"""Times of queries through the program, over a document of 10,000 and of 100,000 elements.

    tools/run queries [--server WORDS] [ROUNDS]     7 repetitions where none are named
    tools/run queries [--server WORDS] --engines [--base WORDS]

The document is stored by its constructor, in memory and on a file. For each query: the time of its
first reply on a fresh server, the median of the repeated ones, and how many times as long ten times
the elements take.

With --engines, over 100,000 elements in memory: milliseconds of the server, of Saxon-HE and of
BaseX, as far as they are installed (bench/engines.py), and of an older program of the server where
--base names it: the median of 15 runs and the least. They take three turns of five runs, after five
of each query to warm up; each turn is of new servers. The last query makes the document. The same
follows by the processor's time of each, which changes least where the machine has much else to do.
All results are compared with one another, and the bounds beside the others are
shown by both. The status is 1 where a result differs, or a bound is missed of the processor's time.
"""

from __future__ import annotations

import argparse
import os
import pathlib
import shlex
import statistics
import sys
import tempfile
from collections.abc import Iterator, Mapping, Sequence
from dataclasses import dataclass, field, replace

from bench.allocations import of_queries
from bench.bounds import Bound, Times, lesser, ratio, said, table
from bench.engines import (
    DATABASE,
    NODES,
    SAXON,
    TURNS,
    Command,
    Engine,
    Program,
    Spent,
    differing,
    driven,
    in_turn,
    warm_up,
)
from tools.common.harness import built

OURS, BASE = "xqs", "base"

ELEMENTS_OF_A_SHELF = 109
DOCUMENT = """document {element lib {
  for $s in 1 to %d return element shelf {
    attribute id {$s}, attribute room {concat("r", $s mod 7)},
    for $b in 1 to 20
    let $k := ($s - 1) * 20 + $b
    return element book {
      attribute id {$k}, attribute lang {("en", "de", "fr", "it")[$k mod 4 + 1]},
      attribute room {concat("r", $k mod 7)},
      element title {concat("Title ", $k * 7919 mod 1000)},
      element author {concat("A", $k * 31 mod 97)},
      element year {1900 + $k * 17 mod 120},
      element price {$k * 37 mod 5000},
      (if ($b mod 5 = 0)
       then element note {"see ", element em {concat("no. ", $k * 13 mod 500)}, " there"}
       else ())
    }
  },
  for $i in 1 to %d return element pad {}
}}"""

QUERIES = [
    ("descendant by name", 'count(doc("lib")//title)'),
    ("chain of children", 'count(doc("lib")/lib/shelf/book/title)'),
    ("[n]", 'string-join(doc("lib")/lib/shelf/book[3]/title/string(), ",")'),
    ("[last()]", 'count(doc("lib")//book[last()])'),
    ("attribute filter", 'count(doc("lib")//book[@lang = "de"])'),
    ("attribute point", 'doc("lib")//book[@id = "77"]/title'),
    ("following", 'count(doc("lib")/lib/shelf[2]/book[1]/following::author)'),
    ("preceding", 'count(doc("lib")/lib/shelf[last()]/book[1]/preceding::title)'),
    ("ancestor", 'count(doc("lib")//em/ancestor::shelf)'),
    (
        "order by",
        '(for $b in doc("lib")/lib/shelf/book order by xs:integer($b/year) descending, '
        "string($b/title) return string($b/@id))[position() <= 10]",
    ),
    (
        "group by",
        'for $b in doc("lib")//book group by $l := string($b/@lang) order by $l '
        'return concat($l, ":", count($b), ":", sum(for $x in $b return xs:integer($x/price)))',
    ),
    ("string-join", 'string-length(string-join(doc("lib")//author/string(), "|"))'),
    ("distinct values", 'count(distinct-values(doc("lib")//author/string()))'),
    (
        "join of two `for`",
        'count(for $a in doc("lib")/lib/shelf[position() <= 2]/book, $b in doc("lib")/lib/shelf '
        "where $b/@room = $a/@room return $b)",
    ),
    ("copy and count", 'count(document {doc("lib")/node()}//node())'),
    ("print all", 'doc("lib")'),
]
MAKING = "making the document"
LARGE = 100_000
HALVED = 12
"""Wanted: all queries take at most what the lesser of Saxon and BaseX takes, and so many of
them at most half of that."""
INDEXED, MOST_INDEXED = ("descendant by name", "chain of children", "attribute point"), 1.5
"""The queries that BaseX's database answers from its indexes, and the most times as long as it that
they may take."""
HALF = ("chain of children", "[last()]", "attribute point")
"""Those that may take at most half of what the older program takes."""
SLOWER = 1.1
"""The most that any may take, beside the older program."""
BOOKS, MOST_ALLOCATIONS = 20, 8
"""The tuples of `order by` in a shelf, and the allocations that each may take at most."""


def document(elements: int) -> str:
    """The query that makes a document of so many elements."""
    shelves = (elements - 1) // ELEMENTS_OF_A_SHELF
    return DOCUMENT % (shelves, elements - 1 - shelves * ELEMENTS_OF_A_SHELF)


def compared() -> list[tuple[str, str]]:
    """What is asked of all engines: the queries, and one that makes the document and counts."""
    return [*QUERIES, (MAKING, f"count(({document(LARGE)})/node())")]


def times(command: Command, elements: int, rounds: int
          ) -> tuple[float, list[tuple[float, float]]]:
    """Milliseconds of the store, and of each query: the first, and the median of the others."""
    server = Program("the server", command)
    stored = server.put(document(elements)).whole
    found = []
    for _, query in QUERIES:
        first, *again = (spent.whole for spent in server.run(query, rounds + 1))
        found.append((first, statistics.median(again)))
    server.end()
    return stored, found


def show_growth(command: Command, rounds: int) -> None:
    """Prints the times at both sizes, in memory and on a file."""
    with tempfile.TemporaryDirectory() as folder:
        for where in ("memory", "file"):
            (small, few), (large, many) = (
                times([*command, *(["--file", f"{folder}/{size}.db"] if where == "file" else [])],
                      size, rounds) for size in (LARGE // 10, LARGE))
            print(f"{where}: stored in {small:.0f} and {large:.0f} ms, "
                  f"{large / small:.1f} times as long")
            print(f"{'milliseconds':20} {'10,000':>15} {'100,000':>17} {'growth':>7}")
            for (name, _), (first, again), (slow, repeated) in zip(
                    QUERIES, few, many, strict=True):
                print(f"{name:20} {first:7.1f} {again:7.1f} {slow:9.1f} {repeated:7.1f}"
                      f" {repeated / again:7.1f}", flush=True)


@dataclass
class Measured:
    """By query and engine the runs, and the results that differ."""

    runs: dict[str, dict[str, list[Spent]]] = field(default_factory=dict)
    faults: list[str] = field(default_factory=list)

    def add(self, name: str, query: str, engines: Sequence[Engine]) -> None:
        """A turn of each engine with a query."""
        for engine, runs in in_turn(engines, query, 1).items():
            self.runs.setdefault(name, {}).setdefault(engine, []).extend(runs)
        if others := differing({engine.name: engine.text() for engine in engines}):
            self.faults.append(f"{name}: ANOTHER RESULT of {', '.join(others)}")

    def times(self, part: str) -> dict[str, dict[str, Times]]:
        """The times of a part of each run."""
        return {name: {engine: Times.of([getattr(run, part) for run in runs])
                       for engine, runs in of.items()} for name, of in self.runs.items()}

    def show(self, heads: Sequence[str]) -> None:
        """Prints the tables, how long engines read the query, and the results that differ."""
        print(*table(["Milliseconds by the clock", *heads], self.times("whole")), "", sep="\n")
        print(*table(["Of the processor", *heads], self.times("processor")), "", sep="\n")
        for engine in heads:
            reading = [of[engine].median for of in self.times("reading").values()]
            if any(reading):
                print(f"of the times of {engine}, reading the query took {min(reading):.2f} to "
                      f"{max(reading):.2f} ms")
        print(*self.faults or ["All results are the same."], sep="\n")


def beside_engines(times: Mapping[str, Mapping[str, Times]]) -> list[Bound]:
    """The bounds beside those of Saxon and BaseX that are there, one of each query."""
    bounds = []
    for query, _ in QUERIES:
        of = times[query]
        if there := [name for name in (SAXON.name, NODES.name) if name in of]:
            bounds.append(ratio(f"{query}, beside {', '.join(there)}", of[OURS],
                                lesser(of[name] for name in there), 1.0))
    return bounds


def halved(bounds: Sequence[Bound]) -> Iterator[Bound]:
    """The bound of the query that is number HALVED by its ratio, from the bounds of all queries."""
    for last in sorted(bounds, key=lambda bound: bound.ratio)[HALVED - 1:HALVED]:
        yield replace(last, what=f"number {HALVED} of {len(bounds)}, {last.what}", most=0.5)


def beside_database(times: Mapping[str, Mapping[str, Times]]) -> Iterator[Bound]:
    """The bounds beside BaseX's database, if it is there."""
    for query in INDEXED:
        of = times[query]
        if DATABASE.name in of:
            yield ratio(f"{query}, beside {DATABASE.name}", of[OURS], of[DATABASE.name],
                        MOST_INDEXED)


def making(times: Mapping[str, Mapping[str, Times]]) -> Iterator[Bound]:
    """The bound of making the document, beside BaseX."""
    of = times[MAKING]
    if there := [name for name in (NODES.name, DATABASE.name) if name in of]:
        yield ratio(f"{MAKING}, beside {', '.join(there)}", of[OURS],
                    lesser(of[name] for name in there), 1.0)


def beside_base(times: Mapping[str, Mapping[str, Times]]) -> Iterator[Bound]:
    """The bounds beside the older program, if it is there."""
    for query, of in times.items():
        if BASE in of:
            most = 0.5 if query in HALF else SLOWER
            yield ratio(f"{query}, beside the {BASE}", of[OURS], of[BASE], most)


def judged(times: Mapping[str, Mapping[str, Times]]) -> list[Bound]:
    """All bounds of times."""
    ahead = beside_engines(times)
    return [*ahead, *halved(ahead), *beside_database(times), *making(times), *beside_base(times)]


def allocations(command: Command) -> Iterator[Bound]:
    """The bound of the allocations of a tuple, where there is a C compiler."""
    for count in of_queries(command, document(LARGE // 5), [dict(QUERIES)["order by"]]):
        each = count / (BOOKS * ((LARGE // 5 - 1) // ELEMENTS_OF_A_SHELF))
        yield Bound("order by, allocations a tuple", each, None, MOST_ALLOCATIONS)


def measured(servers: Mapping[str, Command], others: Sequence[Engine]) -> Measured:
    """The runs of all; each turn is of new servers, since one has its memory in luckier places."""
    found = Measured()
    for _ in range(TURNS):
        programs = [Program(name, command) for name, command in servers.items()]
        engines: list[Engine] = [*programs, *others]
        for program in programs:
            program.put(document(LARGE))
        warm_up(engines, [query for _, query in compared()])
        for name, query in compared():
            found.add(name, query, engines)
        for program in programs:
            program.end()
    return found


def compare(servers: Mapping[str, Command], are_engines_wanted: bool) -> bool:
    """Prints the tables of one run; whether results are the same and bounds are kept."""
    wanted = (SAXON, NODES, DATABASE) if are_engines_wanted else ()
    print(f"the load of the machine is {os.getloadavg()[0]:.1f}", flush=True)
    with tempfile.TemporaryDirectory() as room, \
            driven(wanted, document(LARGE), pathlib.Path(room)) as others:
        found = measured(servers, others)
    found.show([*servers, *(engine.name for engine in others)])
    print(f"the load of the machine is {os.getloadavg()[0]:.1f}")
    print("By the clock:")
    said(judged(found.times("whole")))
    print("By the processor's time:")
    are_kept = said([*judged(found.times("processor")), *allocations(servers[OURS])])
    return are_kept and not found.faults


def main() -> int:
    """Shows how the times grow and gives 0, or compares the engines and gives the status."""
    words = argparse.ArgumentParser(
        description=__doc__, formatter_class=argparse.RawTextHelpFormatter)
    words.add_argument("rounds", nargs="?", type=int, default=7)
    words.add_argument(
        "--server", help="the server's command; the built program where none is named")
    words.add_argument("--engines", action="store_true", help="times of other engines beside")
    words.add_argument("--base", default="", help="the command of an older server, beside")
    given = words.parse_args()
    command = shlex.split(given.server) if given.server else [str(built())]
    if given.engines or given.base:
        base: dict[str, Command] = {BASE: shlex.split(given.base)} if given.base else {}
        return 0 if compare({OURS: command, **base}, given.engines) else 1
    show_growth(command, given.rounds)
    return 0


if __name__ == "__main__":
    sys.exit(main())
