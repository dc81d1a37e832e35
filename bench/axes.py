"""Times the axes over documents of ten thousand and of a hundred thousand elements, from each
source of rows.

    tools/run axes [--runs N] [FOLDER]     builds its program there, unless an earlier call did

The documents have the shape of the library that queries are measured on, made as rows. They are
read from trees in memory ("memory"), from a view of a store that has read nothing of them ("first")
and from a view whose rows the store kept from the one before ("kept"); the stores lie on disks in
memory. Steps go from every second element. Each time is the least of five, and of N runs of the
program; beside it stand how many nodes were given, how many rows of ranges were read, how many
times the plain loop over all rows it took, and how many times as long ten times the elements take.
Ten thousand elements lie in the processor's caches from one turn to the next, and a hundred
thousand don't, so growth is judged where each turn begins with empty caches ("far").
A list of a tenth as many items below one element shows steps from all of its items, and one parent
of each.

Below that stands the first reading of all rows by a view, as a multiple of the statement by which
it reads them alone: run once for all rows, and once for each 1,024 rows, as the view runs it; the
rows that it gives are dropped. These three are timed in turn, five times.
"""

import argparse
import subprocess
import sys
import tempfile
from typing import TypeAlias

from tools.common.workspace import bench_program

USES = (
    "xq_atoms", "xq_trees", "xq_sources", "xq_memory_disk", "xq_store", "xq_expressions",
    "xq_meaning", "xq_axes", "sqlite", "anyhow",
)
SIZES = (10_000, 100_000)
# Those whose growth is judged, and those that lie in the caches.
SOURCES = ("first", "memory, far", "kept, far")
NEAR = ("memory", "kept")
LOOP, WHOLE, PARTS, LONG_PARTS, FIRST = (
    "plain loop", "statement", "statements for 1,024 rows", "statements for 8,192 rows",
    "first reading")
# The most that a time may grow for ten times the elements.
MOST = 13
# The most that the first reading may take, in times of the bare statement.
MOST_FIRST = 1.3
# Microseconds too few for a ratio.
SHORT = 50
# Steps from one node after another, which the bound leaves out: from the children of an element
# with many they take the square.
SINGLY = ("one parent of each tenth element", "siblings after each tenth element")

# By the source and the name of each task: nodes given, microseconds, rows read.
Table: TypeAlias = dict[tuple[str, str], tuple[int, int, int]]


def once(program: str, size: int) -> Table:
    """By the source and the name of each task: nodes given, microseconds, rows read."""
    done = subprocess.run([program], input=b"%d" % size, stdout=subprocess.PIPE, check=True)
    table: Table = {}
    for line in done.stdout.decode().splitlines():
        source, name, *numbers = line.split("\t")
        if len(numbers) != 3:
            sys.exit(line)
        given, time, read = map(int, numbers)
        table[source, name] = (given, time, read)
    return table


def times(program: str, size: int, runs: int) -> Table:
    """The same, the least microseconds of so many runs."""
    tables = [once(program, size) for _ in range(runs)]
    least: Table = {}
    for key, (given, _, read) in tables[0].items():
        least[key] = (given, min(table[key][1] for table in tables), read)
    return least


def table_of(source: str, few: Table, many: Table) -> bool:
    """Prints the table of a source, and tells whether each growth is within the bound."""
    within = True
    print(f"{source:<34} {'nodes':>8} {'rows':>8} {'ms':>9} {'ms':>9} {'loops':>7} {'growth':>7}")
    plain = many["bare", LOOP][1]
    for (one, name), (given, time, read) in many.items():
        if one != source:
            continue
        before = few[one, name][1]
        growth = time / before if before > SHORT else None
        within = within and (growth is None or growth <= MOST or name in SINGLY)
        print(f"{name:<34} {given:8d} {read:8d} {before / 1000:9.2f} {time / 1000:9.2f} "
              f"{time / max(plain, 1):7.1f} {'' if growth is None else round(growth, 1):>7}")
    return within


def first_reading(table: Table) -> bool:
    """Prints what the first reading takes beside the bare statement, and whether that is within
    the bound."""
    given, time, _ = table["bare", FIRST]
    whole = table["bare", WHOLE][1]
    ratio = time / whole
    print(f"first reading of {given} rows: {time / 1000:.1f} ms; the statement alone "
          f"{whole / 1000:.1f} ms, {ratio:.2f} times")
    for name in (PARTS, LONG_PARTS):
        parts = table["bare", name][1]
        print(f"  {name}: {parts / 1000:.1f} ms, {time / parts:.2f} times")
    return ratio <= MOST_FIRST


def report(few: Table, many: Table) -> int:
    """Prints the tables, and whether each growth and the first reading are within the bounds."""
    print(f"plain loop over {few['bare', LOOP][2]} rows: {few['bare', LOOP][1] / 1000:.2f} ms, "
          f"{many['bare', LOOP][2]}: {many['bare', LOOP][1] / 1000:.2f} ms")
    for source in NEAR:
        table_of(source, few, many)
    grown = [table_of(source, few, many) for source in SOURCES]
    print(f"each growth at most {MOST} times: {'yes' if all(grown) else 'no'}")
    first = [first_reading(table) for table in (few, many)]
    print(f"the first reading at most {MOST_FIRST:.1f} times the statement: "
          f"{'yes' if first[-1] else 'no'}")
    return 0 if all(grown) and first[-1] else 1


def main() -> int:
    """Builds and measures; status 1 where a growth or the first reading misses its bound."""
    parser = argparse.ArgumentParser(
        description=__doc__, formatter_class=argparse.RawTextHelpFormatter)
    parser.add_argument("--runs", type=int, default=1)
    parser.add_argument("folder", nargs="?")
    arguments = parser.parse_args()
    with tempfile.TemporaryDirectory() as scratch:
        program = bench_program(arguments.folder or scratch, "axes", USES)
        few, many = (times(program, size, arguments.runs) for size in SIZES)
        return report(few, many)


if __name__ == "__main__":
    sys.exit(main())
