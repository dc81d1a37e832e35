"""Times the store beside C SQLite (python3's sqlite3), which replaces a document by one DELETE and
the same INSERTs, in one run, and measures the memory that a store on disks in memory holds.

    python3 bench/store/compare.py times PROGRAM FOLDER            as bench/store/run.sh calls it
    python3 bench/store/compare.py memory PROGRAM FOLDER [COUNTER]  after it

Each time is the median of some runs, ours and C's in turn, more of them where there are few rows.
It is given as a multiple of C SQLite's in memory, and for a file also of C SQLite's in a file.
COUNTER is held.c's library, which counts what the process has allocated and not freed.
"""

import argparse
import itertools
import os
import pathlib
import statistics
import subprocess
from collections.abc import Mapping

C_SQLITE = str(pathlib.Path(__file__).resolve().with_name("csqlite.py"))
RUNS = {1_000: 31, 10_000: 11, 100_000: 3}
ROWS = tuple(RUNS)
SINGLE = 100
CALLS = ("put", "load", "replace", "drop", "single")
LIMITS = {"put": 3.5, "load": 3.5, "replace": 3.5, "drop": 12}
GROWTH = 14
HELD = 3
LIMITED = ("put", "replaces")
PAGE = os.sysconf("SC_PAGE_SIZE")


def lines_of(*words: str, **environment: str) -> list[list[str]]:
    """The lines of a program, as words."""
    done = subprocess.run(words, check=True, capture_output=True, text=True,
                          env={**os.environ, **environment})
    return [line.split() for line in done.stdout.splitlines()]


def run_once(times: dict[str, list[int]], folder: pathlib.Path, *words: str) -> None:
    """Adds the microseconds of each call of one run, in new files."""
    for path in folder.glob("*.db*"):
        path.unlink()
    for name, time in lines_of(*words):
        times.setdefault(name, []).append(max(int(time), 1))


def times_of(program: str, folder: pathlib.Path,
             rows: int) -> dict[tuple[str, str], dict[str, float]]:
    """Microseconds of each call, the median of some runs: C's in memory and in a file, and ours on
    both kinds."""
    words = {("c", "memory"): ("python3", C_SQLITE, str(rows), ":memory:"),
             ("c", "file"): ("python3", C_SQLITE, str(rows), str(folder / "c.db")),
             ("ours", "disks"): (program, "disks", str(rows), ""),
             ("ours", "file"): (program, "file", str(rows), str(folder / "ours.db"))}
    times: dict[tuple[str, str], dict[str, list[int]]] = {key: {} for key in words}
    for _ in range(RUNS[rows]):
        for key, these in words.items():
            run_once(times[key], folder, *these)
    return {key: {name: statistics.median(all_of) for name, all_of in these.items()}
            for key, these in times.items()}


def report(kind: str, rows: int, ours: Mapping[str, float], theirs: Mapping[str, float],
           there: str) -> None:
    """Prints a line: ours as a multiple of C SQLite's there."""
    ratios = {name: ours[name] / theirs[name] for name in CALLS}
    beyond = [name for name, limit in LIMITS.items()
              if there == "memory" and kind == "disks" and ratios[name] > limit]
    print(f"{kind:6} {rows:7}   " + "   ".join(f"{name} {ratios[name]:5.2f}" for name in CALLS)
          + f"   times C in {'a file' if there == 'file' else 'memory'}"
          + (f"   BEYOND THE LIMIT: {', '.join(beyond)}" if beyond else ""))


def show_growth(times: Mapping[tuple[str, int], Mapping[str, float]]) -> None:
    """Prints how replaces and drops grow with the rows."""
    for kind in ("disks", "file"):
        for name in ("replace", "drop"):
            for few, many in itertools.pairwise(ROWS):
                growth = times[kind, many][name] / times[kind, few][name]
                print(f"{kind:6} {name} from {few} to {many} rows: {growth:.1f} times"
                      + (f"   BEYOND THE LIMIT {GROWTH}" if growth > GROWTH else ""))


def compare(program: str, folder: pathlib.Path) -> None:
    """Prints the times, and how they grow."""
    times: dict[tuple[str, int], dict[str, float]] = {}
    for rows in ROWS:
        found = times_of(program, folder, rows)
        for kind, others in (("disks", ("memory",)), ("file", ("memory", "file"))):
            ours = times[kind, rows] = found["ours", kind]
            for there in others:
                report(kind, rows, ours, found["c", there], there)
            print(f"{kind:6} {rows:7}   " + "   ".join(
                f"{name} {ours[name] / (SINGLE if name == 'single' else 1) / 1000:.2f} ms"
                for name in CALLS)
                + f"   first write after the put {ours['first'] / 1000:.2f} ms")
    show_growth(times)


def resident(program: str) -> dict[str, int]:
    """The bytes that the process has resident, by the name of the moment."""
    lines = lines_of(program, "held", str(ROWS[-1]), "")
    return {words[0]: int(words[2]) * PAGE for words in lines}


def allocated(program: str, counter: str) -> dict[str, tuple[int, int]]:
    """The bytes allocated and not freed, and those in blocks of 64 KiB, by the moment's name."""
    lines = lines_of(program, "held", str(ROWS[-1]), "", LD_PRELOAD=counter)
    return {words[6]: (int(words[1]), int(words[5])) for words in lines}


def memory(program: str, folder: pathlib.Path, counter: str | None) -> None:
    """Prints what a store holds.

    The database is the one that the last run in a file left, without its log; it never gets
    shorter."""
    size = (folder / "ours.db").stat().st_size
    print(f"memory {ROWS[-1]} rows: the database has {size / 1e6:.1f} MB")
    found = resident(program)
    counted = allocated(program, counter) if counter else {}
    for name in ("small", "put", "replaces", "load"):
        words = []
        if counter:
            held = counted[name][0] - counted["document"][0]
            disks = counted[name][1] - counted["document"][1]
            beyond = name in LIMITED and held > HELD * size
            words += [f"{held / 1e6:.1f} MB or {held / size:.2f} databases allocated and not freed"
                      f", {disks / 1e6:.1f} MB of it in blocks of the disks"
                      + (f" BEYOND THE LIMIT {HELD}" if beyond else "")]
        more = found[name] - found["document"]
        words += [f"{more / 1e6:.1f} MB or {more / size:.2f} databases resident"]
        print(f"memory after {name}, above what was there before the store: " + "; ".join(words))


def main() -> None:
    """Measures what is named."""
    words = argparse.ArgumentParser(
        description=__doc__, formatter_class=argparse.RawDescriptionHelpFormatter)
    words.add_argument("what", choices=("times", "memory"))
    words.add_argument("program")
    words.add_argument("folder", type=pathlib.Path)
    words.add_argument("counter", nargs="?")
    given = words.parse_args()
    if given.what == "times":
        compare(given.program, given.folder)
    else:
        memory(given.program, given.folder, given.counter)


if __name__ == "__main__":
    main()
