"""How many allocations each query of bench/queries.py takes, over a document of 20,000 elements.

    tools/run allocations [--server WORDS]

A preloaded library counts them (tools/trials/refuse.c, which wants a C compiler): those of a server
that is asked a query twice, less those of one that is asked it once.
"""

from __future__ import annotations

import argparse
import pathlib
import shlex
import subprocess
import tempfile
from collections.abc import Sequence

from bench.engines import Command, Program
from tools.common.repository import TOP

ELEMENTS = 20_000


def counted(command: Command, library: pathlib.Path, make: str, query: str, times: int) -> int:
    """The allocations of a server that stores a document and is asked a query so many times."""
    report = library.with_suffix(".count")
    added = {"LD_PRELOAD": str(library), "REPORT": str(report)}
    server = Program("counted", command, added)
    server.put(make)
    server.run(query, times)
    server.end()
    return int(report.read_text())


def of_queries(command: Command, make: str, queries: Sequence[str]) -> list[int]:
    """The allocations of each query, after a first reply to it; none without a C compiler."""
    with tempfile.TemporaryDirectory() as room:
        library = pathlib.Path(room) / "refuse.so"
        source = TOP / "tools" / "trials" / "refuse.c"
        words = ["cc", "-shared", "-fPIC", "-O1", "-o", str(library), str(source), "-ldl"]
        try:
            subprocess.run(words, check=True)
        except (OSError, subprocess.CalledProcessError):
            return []
        return [counted(command, library, make, query, 2)
                - counted(command, library, make, query, 1) for query in queries]


def main() -> None:
    """Prints the allocations of each query; nothing without a C compiler."""
    from bench.queries import QUERIES, document
    from tools.common.harness import built

    words = argparse.ArgumentParser(description=__doc__.partition("\n")[0])
    words.add_argument("--server", default="", help="the server; the built one else")
    given = words.parse_args()
    command = shlex.split(given.server) or [str(built())]
    found = of_queries(command, document(ELEMENTS), [query for _, query in QUERIES])
    for (name, _), count in zip(QUERIES, found, strict=False):
        print(f"{name:20} {count:9,}")


if __name__ == "__main__":
    main()
