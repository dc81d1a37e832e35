"""Measures what a view holds of a document of a million rows, and what the store keeps of it.

    tools/run memory [FOLDER]     builds its program there, unless an earlier call did

One process stores the document in a file, another opens it and reads all rows through a view, and
again through a second one; then all elements are found by their names, and all attributes by their
values; then what is kept is let go. Of the opening the engine's own part, which takes each table as
a list, and the adoption of the store are shown apart. For each stage: the megabytes that the
process has resident as it ends, and the most since the stage before; and with a C compiler the
megabytes that are allocated and not freed, the most since the stage before, and how many bytes a
row that is above the opened store. What opening the store frees stays resident, and the rows take
its place. Last: what a row takes with its names and values found, and how many such rows of all
documents together are kept at most, by the bound that the store's source has.
"""

import dataclasses
import os
import re
import subprocess
import sys
import tempfile
from collections.abc import Sequence

from bench.axes import USES
from bench.command_line import folder
from tools.common.repository import TOP
from tools.common.workspace import bench_program

# The library of so many elements has a million rows.
ELEMENTS = 414_491

# Where the store's source says how many bytes are kept at most, as 128 << 20.
ROOM = TOP / "crates" / "xq_store" / "src" / "room.rt"
MOST_KEPT = re.compile(r"^pub\(crate\) const USUAL_BOUND: usize = (\d+) << (\d+);$",
                       re.MULTILINE)


@dataclasses.dataclass
class Stage:
    """A stage with the bytes that are resident as it ends, and the most since the one before.

    `held` has the same of what is allocated, or nothing where that isn't counted."""

    name: str
    resident: int = 0
    most: int = 0
    held: tuple[int, int] | None = None


def counter(folder: str) -> str | None:
    """The library that counts what is allocated, if there is a C compiler."""
    path = os.path.join(folder, "held.so")
    source = str(TOP / "bench" / "store" / "held.c")
    words = ["cc", "-shared", "-fPIC", "-O1", "-o", path, source, "-ldl"]
    try:
        subprocess.run(words, check=True)
    except (OSError, subprocess.CalledProcessError):
        return None
    return path


def answer(program: str, words: str, library: str | None = None) -> str:
    """What the program writes."""
    added = {"LD_PRELOAD": library} if library else {}
    done = subprocess.run([program], input=words.encode(), stdout=subprocess.PIPE, check=True,
                          env={**os.environ, **added})
    return done.stdout.decode()


def stages(text: str) -> list[Stage]:
    """The stages that the program tells, in their order."""
    found: list[Stage] = []
    for line in text.splitlines():
        words = line.split()
        if "stage" in words:
            held = (int(words[1]), int(words[3])) if words[0] == "held" else None
            found.append(Stage(" ".join(words[words.index("stage") + 1:]), held=held))
        elif "VmRSS:" in words:
            found[-1].resident = int(words[words.index("VmRSS:") + 1]) * 1024
        elif "VmHWM:" in words:
            found[-1].most = int(words[words.index("VmHWM:") + 1]) * 1024
    return found


def report(rows: int, found: Sequence[Stage]) -> None:
    """Prints the stages."""
    opened = next(stage.held for stage in found if stage.name == "opened")
    for stage in found:
        line = (f"{stage.name:<8} resident {stage.resident / 1e6:7.1f} MB, at most "
                f"{stage.most / 1e6:7.1f} MB")
        held = stage.held
        if held and opened:
            a_row = [(it - opened[0]) / rows for it in held]
            line += (f"   allocated {held[0] / 1e6:7.1f} MB, at most {held[1] / 1e6:7.1f} MB; "
                     f"a row {a_row[0]:6.1f} and {a_row[1]:6.1f}")
        print(line)


def most_kept() -> int:
    """How many bytes are kept of all documents together at most."""
    found = MOST_KEPT.search(ROOM.read_text())
    if found is None:
        sys.exit(f"{ROOM} does not say how many bytes are kept")
    return int(found.group(1)) << int(found.group(2))


def report_bound(rows: int, found: Sequence[Stage]) -> None:
    """Prints what a row takes with names and values found, and how many of them are kept."""
    held = {stage.name: stage.held for stage in found}
    opened, values = held["opened"], held["values"]
    if opened and values:
        taken = (values[0] - opened[0]) / rows
        print(f"a row with names and values: {taken:.1f} bytes; at most {most_kept() >> 20} MB are "
              f"kept, some {most_kept() / taken / 1e6:.1f} million")


def measure(program: str) -> None:
    """Stores the document, scans it in another process, and prints the stages and the bound.

    Raises CalledProcessError where the program fails.
    """
    with tempfile.TemporaryDirectory() as folder:
        path = os.path.join(folder, "rows.db")
        rows = int(answer(program, f"fill {ELEMENTS} {path}"))
        size = sum(os.path.getsize(os.path.join(folder, name)) for name in os.listdir(folder))
        print(f"{rows} rows in a database of {size / 1e6:.1f} MB, its log counted", flush=True)
        found = stages(answer(program, f"scan {path}", counter(folder)))
        report(rows, found)
        report_bound(rows, found)


def main() -> None:
    """Builds and measures."""
    with folder(__doc__) as room:
        measure(bench_program(room, "axes", USES))


if __name__ == "__main__":
    main()
