#!/usr/bin/env python3
"""Compares tables of edition 2 with those of edition 1, in files, in one run, in turn.

    bench/store/editions.py OLD NEW [FOLDER]

OLD and NEW are the programs that bench/store/build.sh builds over a clone at a commit of edition 1
and over this one. For documents of 100,000 rows with 2, 20 and 2,000 names: a put, a load, a range
by the old SELECT and by the join, and how large the files get, each time as the least and the
median of some runs. Of 1,000,000 rows: a put, the opening of a file of edition 1, which carries it
over, and the openings after and before that, with the most memory that each took. FOLDER has room
for the files (a new one is taken).
"""

import argparse
import os
import shutil
import statistics
import subprocess
import sys
import tempfile
from collections.abc import Hashable, Mapping, Sequence
from typing import TypeAlias

ROWS, MANY_ROWS = 100_000, 1_000_000
NAMES = (2, 20, 2_000)
RUNS, MANY_RUNS = 7, 3
OLD_RANGE = ("SELECT pre, size, level, kind, name, value FROM node"
             " WHERE address = ?1 AND pre >= ?2 AND pre <= ?3 ORDER BY pre")
NEW_RANGE = ("SELECT pre, size, level, kind, name, value FROM node2 INNER JOIN label ON label = id"
             " WHERE address = ?1 AND pre >= ?2 AND pre <= ?3 ORDER BY pre")
RANGE, PUT, CARRY = 1.6, 1.15, 2

# By the keys of the runs, what each took.
Times: TypeAlias = dict[Hashable, list[int]]


def run(*words: str | int) -> dict[str, int]:
    """The times that a program prints, in microseconds by their names, and its most memory."""
    process = subprocess.Popen([str(word) for word in words], stdout=subprocess.PIPE)
    assert process.stdout
    lines = process.stdout.read().decode().splitlines()
    _, status, usage = os.wait4(process.pid, 0)
    if status:
        sys.exit(f"{words} ended with {status}")
    times = {name: int(time) for name, time in map(str.split, lines)}
    return times | {"memory": usage.ru_maxrss * 1024}


def absent(path: str) -> str:
    """The path, with nothing there."""
    for name in (path, f"{path}-wal"):
        if os.path.exists(name):
            os.remove(name)
    return path


def add(times: Times, found: Mapping[str, int], names: Mapping[str, Hashable]) -> None:
    """Adds what was found to the lists of times."""
    for name, key in names.items():
        times.setdefault(key, []).append(found[name])


def ratio(times: Times, key: str, old: Hashable, new: Hashable,
          limit: float | None = None) -> None:
    """Prints the least and the median of both, and how many times as long the second takes."""
    least = min(times[new]) / min(times[old])
    median = statistics.median(times[new]) / statistics.median(times[old])
    beyond = f"   BEYOND THE BOUND {limit}" if limit and min(least, median) > limit else ""
    print(f"{key}: {least:.2f} by the least, {median:.2f} by the median;"
          f" ms {min(times[old]) / 1000:.1f} and {min(times[new]) / 1000:.1f} at least{beyond}",
          flush=True)


def of_names(programs: Sequence[str], folder: str, names: int) -> None:
    """A document of so many names."""
    old, new = programs
    paths = [os.path.join(folder, name) for name in ("old.db", "new.db")]
    times: Times = {}
    for _ in range(RUNS):
        for which, (program, path) in enumerate(zip(programs, paths, strict=True)):
            found = run(program, "named", ROWS, absent(path), names)
            add(times, found, {"put": ("put", which), "load": ("load", which)})
        for which, (path, text) in enumerate(zip(paths, (OLD_RANGE, NEW_RANGE), strict=True)):
            found = run(new, "query", 0, path, text)
            assert found["rows"] == ROWS, found
            add(times, found, {"query": ("range", which)})
    sizes = [os.path.getsize(path) for path in paths]
    print(f"{ROWS} rows, {names} names: files of {sizes[0] / 1e6:.2f} and {sizes[1] / 1e6:.2f} MB,"
          f" {sizes[1] / sizes[0]:.2f} times")
    for name, limit in (("put", PUT), ("load", None), ("range", RANGE)):
        ratio(times, f"  {name}", (name, 0), (name, 1), limit)


def carried_over(programs: Sequence[str], folder: str) -> None:
    """A file of edition 1 that is opened."""
    old, new = programs
    written = os.path.join(folder, "written.db")
    before = run(old, "named", MANY_ROWS, absent(written), 20)
    print(f"{MANY_ROWS} rows, edition 1: put in {before['put'] / 1e6:.2f} s,"
          f" {os.path.getsize(written) / 1e6:.1f} MB", flush=True)
    times: Times = {}
    for _ in range(MANY_RUNS):
        put = run(new, "named", MANY_ROWS, absent(os.path.join(folder, "put.db")), 20)
        add(times, put, {"put": "put"})
        path = shutil.copy(written, absent(os.path.join(folder, "carried.db")))
        add(times, run(old, "open", 0, path), {"open": "old", "memory": "old memory"})
        path = shutil.copy(written, absent(path))
        add(times, run(new, "open", 0, path), {"open": "carried", "memory": "carried memory"})
        size = os.path.getsize(path)
        add(times, run(new, "open", 0, path), {"open": "again", "memory": "again memory"})
    ratio(times, "  carried over, of a put", "put", "carried", CARRY)
    ratio(times, "  opened before it by edition 1, of a put", "put", "old")
    ratio(times, "  opened after it, of a put", "put", "again")
    for name in ("old", "carried", "again"):
        print(f"  {name}: at most {max(times[name + ' memory']) / 1e6:.0f} MB")
    print(f"  the file after it: {size / 1e6:.1f} MB;"
          f" a new one: {os.path.getsize(os.path.join(folder, 'put.db')) / 1e6:.1f} MB")


def main() -> None:
    """Measures, and prints what was found."""
    words = argparse.ArgumentParser(
        description=__doc__, formatter_class=argparse.RawDescriptionHelpFormatter)
    words.add_argument("old")
    words.add_argument("new")
    words.add_argument("folder", nargs="?")
    given = words.parse_args()
    programs = [given.old, given.new]
    with tempfile.TemporaryDirectory(dir=given.folder) as folder:
        for names in NAMES:
            of_names(programs, folder, names)
        carried_over(programs, folder)


if __name__ == "__main__":
    main()
