"""Builds, copies and prints elements of some 10^5 and 10^6 items; prints times, ratios and MB/s.

    tools/run build [FOLDER]     builds its program there, unless an earlier call did

A time is the least of fifteen runs, and begins with empty caches; the two sizes are run in turn,
since the machine's speed changes.
"""

import subprocess
import sys
from collections.abc import Sequence
from typing import TypeAlias

from bench.command_line import folder
from tools.common.workspace import bench_program

USES = (
    "xq_atoms", "xq_expressions", "xq_trees", "xq_sources", "xq_meaning", "xq_build",
    "sqlite_items", "indexmap",
)
RUNS = 15
# as many attributes as a reply of 16 MB has room for
KINDS = (
    ("atoms", (99_999, 999_990)), ("texts", (99_999, 999_990)), ("elements", (99_999, 999_990)),
    ("attributes", (60_000, 600_000)),
)

# The rows of the element, the bytes that it prints as, and the times in milliseconds.
Turn: TypeAlias = tuple[int, int, list[float]]


def once(program: str, kind: str, size: int) -> Turn:
    """The rows of the element, the bytes that it prints as, and the times in milliseconds."""
    given = f"{kind} {size}".encode()
    ran = subprocess.run([program], input=given, stdout=subprocess.PIPE, check=True)
    words = ran.stdout.decode().split()
    if words[0] == "refused":
        sys.exit(f"{kind} {size}: refused")
    return int(words[0]), int(words[1]), [int(word) / 1000 for word in words[2:]]


def least(turns: Sequence[Turn]) -> Turn:
    """The rows and the bytes, and the least times, of several turns of one size."""
    rows, length, _ = turns[0]
    return rows, length, [min(times) for times in zip(*(turn[2] for turn in turns), strict=True)]


def measure(program: str) -> None:
    """Prints the table."""
    heads = ("items", "count", "rows", "build ms", "copy ms", "print ms", "MB/s")
    print("%-11s %8s %8s %9s %9s %9s %9s   ratios" % heads)
    for kind, sizes in KINDS:
        rounds = [[once(program, kind, size) for size in sizes] for _ in range(RUNS)]
        before: list[float] = []
        for size, turns in zip(sizes, zip(*rounds, strict=True), strict=True):
            rows, length, times = least(turns)
            ratios = " ".join(f"{now / then:5.1f}"
                              for now, then in zip(times, before, strict=False))
            print(f"{kind:<11} {size:8d} {rows:8d} {times[0]:9.1f} {times[1]:9.1f} "
                  f"{times[2]:9.1f} {length / times[2] / 1000:9.1f}   {ratios}", flush=True)
            before = times


def main() -> None:
    """Builds and measures."""
    with folder(__doc__) as room:
        measure(bench_program(room, "build", USES))


if __name__ == "__main__":
    main()
