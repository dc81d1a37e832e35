"""Checks types and style of the Python files of this repository.

    tools/run check_python

mypy, strict, goes over tools/, bench/ and ./xqs in the root, and in clients/python over the client
and its tests, each time with the pyproject.toml of that folder. ruff goes over all of these by the
same files; without it pycodestyle and pyflakes do, and a line with `# noqa` stays as it is. A check
whose program is not installed is left out by name. The status is 1 where there is a finding.
"""

from __future__ import annotations

import argparse
import dataclasses
import pathlib
import re
import shutil
import subprocess
import sys
from collections.abc import Sequence

from tools.common.repository import TOP

INSTALL = "apt-get install mypy pycodestyle pyflakes3"
# Imports after a line that changes the path, blanks in slices, a line of `def` with its `...`, and
# breaks beside operators: pycodestyle refuses either side.
ALLOWED = "E203,E402,E704,W503,W504"
# What is checked in the root.
SCRIPTS = ("tools", "bench", "xqs")
# The last line of mypy, which counts the others.
SUM = re.compile(r"Found \d+ errors? in ")
# The names that a program has, in Debian or elsewhere.
PYFLAKES = ("pyflakes3", "pyflakes")


@dataclasses.dataclass(frozen=True)
class Check:
    """A command and the folder that it runs in."""

    programs: Sequence[str]
    words: Sequence[str]
    folder: pathlib.Path


def checks(top: pathlib.Path) -> list[Check]:
    """The checks of the repository in this folder."""
    client = top / "clients" / "python"
    cache = ("--cache-dir", str(top / "out" / "mypy"))
    types = [
        Check(("mypy",), cache, top),
        Check(("mypy",), (*cache, "xqs"), top),
        Check(("mypy",), (*cache, "src", "tests"), client),
        Check(("mypy",), (*cache, "with_packages"), client),
    ]
    return [*types, *(by_ruff(top, client) if shutil.which("ruff") else without_ruff(top, client))]


def by_ruff(top: pathlib.Path, client: pathlib.Path) -> list[Check]:
    """The checks of style where ruff is installed."""
    words = ("check", "--quiet", "--output-format=concise", "--cache-dir", f"{top}/out/ruff")
    return [Check(("ruff",), (*words, *SCRIPTS), top), Check(("ruff",), (*words, "."), client)]


def without_ruff(top: pathlib.Path, client: pathlib.Path) -> list[Check]:
    """Those where it is not."""
    words = (f"--ignore={ALLOWED}", "--max-line-length=100")
    return [
        Check(("pycodestyle",), (*words, *SCRIPTS), top), Check(PYFLAKES, SCRIPTS, top),
        Check(("pycodestyle",), (*words, "."), client), Check(PYFLAKES, (".",), client),
    ]


def program_of(check: Check) -> str | None:
    """The path of the program of a check, or None where it is not installed."""
    return next(filter(None, map(shutil.which, check.programs)), None)


def is_excused(line: str, folder: pathlib.Path) -> bool:
    """Whether a finding is about a line of a file that has `# noqa`."""
    path, _, rest = line.partition(":")
    number, _, _ = rest.partition(":")
    file = folder / path
    if not number.isdigit() or not file.is_file():
        return False
    lines = file.read_text(encoding="utf-8").splitlines()
    return 0 < int(number) <= len(lines) and "# noqa" in lines[int(number) - 1]


def findings(check: Check, program: str) -> list[str]:
    """What the program says against the files, line by line."""
    done = subprocess.run(
        [program, *check.words], cwd=check.folder, stdin=subprocess.DEVNULL,
        capture_output=True, text=True)
    if done.returncode == 0:
        return []
    said = (done.stdout + done.stderr).splitlines() or [f"{program}: status {done.returncode}"]
    if check.programs == ("mypy",):
        return [line for line in said if not SUM.match(line)]
    return [line for line in said if not is_excused(line, check.folder)]


def main() -> int:
    """Runs the checks that are there and prints what they find."""
    argparse.ArgumentParser(description=__doc__.partition("\n")[0]).parse_args()
    found: list[str] = []
    absent: set[str] = set()
    for check in checks(TOP):
        program = program_of(check)
        if program is None:
            absent.add(check.programs[0])
        else:
            found += findings(check, program)
    print("\n".join(found), end="\n" if found else "")
    if absent:
        print(f"check_python: not installed: {', '.join(sorted(absent))} ({INSTALL})")
    print(f"check_python: {len(found)} findings")
    return 1 if found else 0


if __name__ == "__main__":
    sys.exit(main())
