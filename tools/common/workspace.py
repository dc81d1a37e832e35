"""Runs a Rattle program over some of this repository's crates, in a workspace of its own.

A program that prints times or reads other files can't stand among the crates: the gate runs each
program, and compares what it prints.
"""

import os
import pathlib
import shutil
import subprocess
import sys
from collections.abc import Collection, Iterable

from tools.common.repository import TOP, all_below, libraries

GIGABYTE = 1 << 30
ALLOCATOR = ":".join((
    "glibc.malloc.hugetlb=1", "glibc.malloc.top_pad=67108864",
    f"glibc.malloc.mmap_threshold={GIGABYTE}", f"glibc.malloc.trim_threshold={GIGABYTE}",
    "glibc.malloc.mxfast=0"))


def use_allocator() -> None:
    """Has the programs that this process starts run as ./serve runs its program: with its settings
    of the allocator, unless some are set."""
    os.environ.setdefault("GLIBC_TUNABLES", ALLOCATOR)


def lines_of(crates: Collection[str]) -> list[str]:
    """The lines of crates.txt for these crates."""
    with open(os.path.join(TOP, "crates.txt")) as lines:
        return [line for line in lines if line.split(":")[0] in crates]


def crates_below(uses: Iterable[str]) -> set[str]:
    """These crates of the repository, and those that they stand on."""
    return set(all_below(uses, libraries(os.path.join(TOP, "crates.txt"))))


def begin(folder: str, crates: Iterable[str],
          leave_out: Iterable[str] = ("incremental", "must-fail")) -> None:
    """Makes the folder a workspace of copies of the crates and those below, with what is built.

    What was built in the folder before stays, so that nothing is proved twice there."""
    crates = crates_below(crates)
    for crate in crates:
        copy = pathlib.Path(folder, "crates", crate)
        for part in copy.iterdir() if copy.exists() else ():
            if part.name != "out":
                shutil.rmtree(part)
        also = ("out",) if (copy / "out").exists() else ()
        shutil.copytree(os.path.join(TOP, "crates", crate), copy, dirs_exist_ok=True,
                        ignore=shutil.ignore_patterns(*leave_out, *also))
    shutil.copy(os.path.join(TOP, "HANDLES"), folder)
    with open(os.path.join(folder, "crates.txt"), "w") as lines:
        lines.writelines(lines_of(crates))


def copy_proofs(source: str, target: str) -> None:
    """Copies a folder of proofs, each FILE.txt as FILE.antt."""
    for folder, _, names in os.walk(source):
        into = os.path.join(target, os.path.relpath(folder, source))
        os.makedirs(into, exist_ok=True)
        for name in names:
            shutil.copy(os.path.join(folder, name),
                        os.path.join(into, os.path.splitext(name)[0] + ".antt"))


def built(folder: str, crates: Iterable[str], uses: Iterable[str], source: str,
          proofs: str | None = None, name: str = "program") -> str:
    """Proves and builds the program over copies of the crates in the folder; gives its path.

    The folder of proofs, where there is one, holds those of the program, in files that end in .txt:
    the gate reads each .antt file outside of a crate as one that was left there."""
    use_allocator()
    begin(folder, crates)
    program = os.path.join(folder, "crates", name)
    os.makedirs(os.path.join(program, "src"), exist_ok=True)
    if proofs and os.path.isdir(proofs):
        copy_proofs(proofs, os.path.join(program, "proofs"))
    with open(os.path.join(program, "src", "main.rt"), "w") as main:
        main.write(source)
    if "\nmod caches;\n" in source:
        shutil.copy(os.path.join(TOP, "bench", "programs", "caches.rattle"),
                    os.path.join(program, "src", "caches.rt"))
    with open(os.path.join(folder, "crates.txt"), "a") as lines:
        lines.write(f"{name}: {' '.join(uses)}\n")
    done = subprocess.run(["rt", "run"], cwd=program, input=b"", capture_output=True)
    path = os.path.join(program, "out", name)
    if done.returncode or not os.path.exists(path):
        sys.exit(done.stdout.decode() + done.stderr.decode())
    return path


def bench_program(folder: str, name: str, uses: Iterable[str]) -> str:
    """The path of the program of bench/programs/NAME, built in the folder unless it is there.

    Where XQ_WORKSPACE names a folder, it is built there, beside the programs of other benchmarks
    over the same libraries, and anew."""
    use_allocator()
    shared = os.environ.get("XQ_WORKSPACE")
    path = os.path.join(folder, "crates", "program", "out", "program")
    if not shared and os.path.exists(path):
        return path
    bench = os.path.join(TOP, "bench", "programs", name)
    with open(os.path.join(bench, "main.rattle")) as source:
        return built(shared or folder, crates_below(uses), uses, source.read(),
                     os.path.join(bench, "proofs"), f"{name}_times" if shared else "program")
