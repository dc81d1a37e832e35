"""Runs benchmarks, one after another, over one workspace: the libraries are proved once.

    tools/run benches NAME ..      tools/run benches all      tools/run benches --list
    tools/run benches --write NAME ..

Those of the libraries are built in out/bench; those of the program take the one that `./serve` has
proved, or that --server names. What each prints goes to standard output, below its name. With
--write its last table goes into docs/MEASURES.md as well, between the marks of its name, with the
day, the commit and the machine; `queries` then runs beside the other engines. Status 1 where one
fails or misses a bound of its own. Beside a gate, or after one: tools/run over_gate CLONE tools/run
benches ..
"""

import argparse
import datetime
import os
import subprocess
import sys

from bench import figures
from tools.common.repository import TOP
from tools.common.workspace import bench_program

# Benchmarks of the libraries that are a script of their own, and those that are a program alone.
OF_LIBRARIES = ("lexer", "parser", "statics", "planning", "build", "functions", "evaluation",
                "axes", "memory", "stack")
PROGRAMS = {"regions": ("xq_trees", "anyhow"),
            "tuples": ("xq_atoms", "xq_trees", "xq_tuples", "anyhow")}
# Benchmarks of the program; those that stop at --server take the proved one of this clone.
OF_PROGRAM = ("queries", "load", "many", "hostile", "limits")
OF_CLONE = ("literal", "serve")
# The words of a benchmark for what the page has of it.
FOR_THE_PAGE = {"queries": ("--engines",)}
NAMES = (*PROGRAMS, *OF_LIBRARIES, *OF_PROGRAM, *OF_CLONE)


def command_of(name: str, server: str | None, is_written: bool) -> list[str]:
    """What runs the benchmark."""
    if name in PROGRAMS:
        return [bench_program("", name, PROGRAMS[name])]
    words = [sys.executable, "-m", f"bench.{name}"]
    if is_written:
        words += FOR_THE_PAGE.get(name, ())
    return [*words, "--server", server] if server and name in OF_PROGRAM else words


def run(name: str, server: str | None, is_written: bool) -> bool:
    """Runs a benchmark; whether it ended well. What it prints is shown as it comes."""
    command = command_of(name, server, is_written)
    if not is_written:
        return subprocess.run(command, cwd=TOP).returncode == 0
    printed = []
    with subprocess.Popen(command, cwd=TOP, stdout=subprocess.PIPE, text=True) as bench:
        assert bench.stdout is not None
        for line in bench.stdout:
            print(line, end="", flush=True)
            printed.append(line)
    head = figures.heading(figures.commit_of(), datetime.date.today(), os.getloadavg()[0])
    page = figures.PAGE.read_text(encoding="utf-8")
    figures.PAGE.write_text(figures.written(page, name, head, "".join(printed)), encoding="utf-8")
    return bench.returncode == 0


def main() -> int:
    """Carries out the command."""
    parser = argparse.ArgumentParser(description=__doc__.partition("\n")[0])
    parser.add_argument("names", nargs="*", metavar="NAME", choices=[*NAMES, "all", []])
    parser.add_argument("--list", action="store_true", help="prints the names")
    parser.add_argument("--server", metavar="COMMAND")
    parser.add_argument("--write", action="store_true", help="into docs/MEASURES.md as well")
    given = parser.parse_args()
    if given.list or not given.names:
        print(*NAMES)
        return 0
    os.environ["XQ_WORKSPACE"] = str(TOP / "out" / "bench")
    os.makedirs(os.environ["XQ_WORKSPACE"], exist_ok=True)
    failed = []
    for name in NAMES if "all" in given.names else given.names:
        print(f"== {name}", flush=True)
        try:
            is_good = run(name, given.server, given.write)
        except figures.NoMark as error:
            print(f"benches: {error}")
            is_good = False
        if not is_good:
            failed.append(name)
    if failed:
        print("failed:", *failed)
    return 1 if failed else 0


if __name__ == "__main__":
    sys.exit(main())
