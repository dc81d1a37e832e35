"""The figures of docs/MEASURES.md that a benchmark writes itself, between two marks."""

from __future__ import annotations

import datetime
import itertools
import pathlib
import platform
import re
import subprocess

from tools.common.repository import TOP

PAGE = TOP / "docs" / "MEASURES.md"


class NoMark(Exception):
    """The page has no marks for a benchmark."""


def commit_of(top: pathlib.Path = TOP) -> str:
    """The last commit, and whether the work tree differs from it."""
    def said(*words: str) -> str:
        return subprocess.run(["git", *words], cwd=top, capture_output=True, text=True,
                              check=True).stdout.strip()
    changes = " and changes" if said("status", "--short") else ""
    return said("rev-parse", "--short=12", "HEAD") + changes


def heading(commit: str, day: datetime.date, load: float) -> str:
    """The line above a table: day, commit, processor and load of the benchmark."""
    return f"{day}, commit {commit}, {processor()}, load {load:.0f}"


def processor() -> str:
    """The processor's name."""
    try:
        found = re.search(r"^model name\s*: (.+)$", pathlib.Path("/proc/cpuinfo").read_text(),
                          re.MULTILINE)
    except OSError:
        found = None
    return " ".join(found[1].split()) if found else platform.machine()


def block(printed: str) -> str:
    """What a benchmark printed, as it stands in a page: its last table, or all of it as it is.

    Of a benchmark that prints two tables the last one has the processor's times."""
    lines = [it.rstrip() for it in printed.strip().splitlines()]
    groups = itertools.groupby(lines, lambda line: line.startswith("|"))
    tables = [[*group] for is_table, group in groups if is_table]
    return "\n".join(tables[-1] if tables else ["```", *lines, "```"])


def written(page: str, name: str, head: str, printed: str) -> str:
    """The page with what the benchmark printed between its marks; NoMark."""
    marks = re.compile(rf"(<!-- bench {re.escape(name)} -->\n).*?(<!-- end -->)", re.DOTALL)
    if not marks.search(page):
        raise NoMark(f"docs/MEASURES.md has no marks <!-- bench {name} --> .. <!-- end -->")
    return marks.sub(lambda it: f"{it[1]}{head}\n\n{block(printed)}\n{it[2]}", page)
