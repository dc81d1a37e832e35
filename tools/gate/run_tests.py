"""Runs the modules of a folder of tests side by side, each in a process of its own.

    tools/run run_tests FOLDER [MODULE ..] [--jobs N] [--minutes N]

FOLDER is where `python3 -m unittest` would run. Without MODULEs all of its tests are run: the files
`test_*.py` there, in its package `tests`, and in those of its packages, so that `tools/run
run_tests .` runs those of tools/ and bench/. Prints a line for each module as it ends, and all that
a module said in which a test failed. Such a module runs once more, with nothing beside it, since
tests of time limits can fail on a machine that is busy; both runs are told. Status 1 where a module
failed twice, or did not end in its time.
"""

from __future__ import annotations

import argparse
import concurrent.futures
import dataclasses
import os
import pathlib
import re
import subprocess
import sys
import time
from collections.abc import Iterable, Sequence

from tools.common.repository import environment

RAN = re.compile(r"^Ran (\d+) tests? in", re.MULTILINE)
PLACES = ("", "tests/", "*/tests/")
SKIPPED = re.compile(r"skipped=(\d+)")


@dataclasses.dataclass(frozen=True)
class Outcome:
    """What became of a module of tests, and what it said."""

    module: str
    status: int
    seconds: float
    said: str

    @property
    def tests(self) -> int:
        """How many tests ran."""
        found = RAN.search(self.said)
        return int(found[1]) if found else 0

    @property
    def skipped(self) -> int:
        """How many of them were left out."""
        found = SKIPPED.search(self.said)
        return int(found[1]) if found else 0

    def line(self) -> str:
        """The outcome in a line."""
        word = "ok" if self.status == 0 else "FAILED"
        return f"{self.module}: {self.tests} tests, {self.seconds:.0f} s, {word}"


def modules(folder: pathlib.Path) -> list[str]:
    """The modules of tests, the largest files first: they tend to take longest."""
    files = [it for place in PLACES for it in folder.glob(f"{place}test_*.py")]
    files.sort(key=lambda it: it.stat().st_size, reverse=True)
    return [".".join(it.relative_to(folder).with_suffix("").parts) for it in files]


def run(module: str, folder: pathlib.Path, seconds: float) -> Outcome:
    """Runs a module; status -1 where it does not end in its time."""
    words = [sys.executable, "-m", "unittest", module]
    begin = time.monotonic()
    try:
        ended = subprocess.run(
            words, cwd=folder, env=environment(), stdin=subprocess.DEVNULL, capture_output=True,
            text=True, errors="replace", timeout=seconds)
        status, said = ended.returncode, ended.stdout + ended.stderr
    except subprocess.TimeoutExpired as error:
        said = f"{text_of(error.stdout)}{text_of(error.stderr)}\nit did not end in its time\n"
        status = -1
    return Outcome(module, status, time.monotonic() - begin, said)


def text_of(said: bytes | str | None) -> str:
    """What a process said before it was ended, as text."""
    return said.decode(errors="replace") if isinstance(said, bytes) else said or ""


def tell(outcomes: Iterable[Outcome]) -> list[Outcome]:
    """Prints each outcome as it comes, and gives all."""
    told = []
    for outcome in outcomes:
        print(outcome.line(), flush=True)
        if outcome.status:
            print(outcome.said, flush=True)
        told.append(outcome)
    return told


def main(words: Sequence[str] | None = None) -> int:
    """Carries out the command."""
    parser = argparse.ArgumentParser(description="Runs modules of tests side by side.")
    parser.add_argument("folder", type=pathlib.Path)
    parser.add_argument("modules", nargs="*", metavar="MODULE")
    parser.add_argument("--jobs", type=int, default=max(2, (os.cpu_count() or 1) - 1),
                        help="modules at a time (the processors less one, at least two)")
    parser.add_argument("--minutes", type=float, default=15.0)
    given = parser.parse_args(words)
    begin = time.monotonic()
    seconds = given.minutes * 60
    with concurrent.futures.ThreadPoolExecutor(given.jobs) as pool:
        names = given.modules or modules(given.folder)
        running = [pool.submit(run, it, given.folder, seconds) for it in names]
        told = tell(it.result() for it in concurrent.futures.as_completed(running))
    wrong = [it.module for it in told if it.status]
    if wrong:
        print(f"once more, one after the other: {', '.join(wrong)}", flush=True)
        wrong = [it.module for it in tell(run(it, given.folder, seconds) for it in wrong)
                 if it.status]
    print(f"{sum(it.tests for it in told)} tests, {sum(it.skipped for it in told)} skipped, "
          f"{len(wrong)} modules failed, {time.monotonic() - begin:.0f} s")
    return 1 if wrong else 0


if __name__ == "__main__":
    sys.exit(main())
