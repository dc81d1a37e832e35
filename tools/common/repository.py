"""The crates of this repository, as crates.txt lists them, their programs, and the kit of `rt`."""

from __future__ import annotations

import graphlib
import os
import pathlib
import shutil
import subprocess
from collections.abc import Iterable, Mapping

TOP = pathlib.Path(__file__).resolve().parents[2]
CLIENT = TOP / "clients" / "python"
PROGRAM = "xq_serve"
BUILT = TOP / "crates" / PROGRAM / "out" / PROGRAM
"""The program, where ./serve has built it."""
STORED_RUN_SECONDS = 60


def environment() -> dict[str, str]:
    """The environment of a Python that finds the packages of this repository, as tools/run sets it.
    """
    folders = (TOP, CLIENT / "src", CLIENT, CLIENT / "with_packages")
    before = os.environ.get("PYTHONPATH", "").split(os.pathsep)
    paths = dict.fromkeys([*map(str, folders), *filter(None, before)])
    return {**os.environ, "PYTHONPATH": os.pathsep.join(paths)}


def libraries(path: str | os.PathLike[str]) -> dict[str, list[str]]:
    """By the names of the crates of a crates.txt, the libraries that each uses."""
    with open(path, encoding="utf-8") as file:
        lines = [line.split("#")[0].partition(":") for line in file]
    return {name.strip(): uses.split() for name, colon, uses in lines if colon}


def all_below(uses: Iterable[str], crates: Mapping[str, list[str]]) -> list[str]:
    """These crates of the repository and those below them, each after those that it uses.

    Libraries of the kit, which are no keys of `crates`, are left out."""
    graph: dict[str, list[str]] = {}
    left = [it for it in uses if it in crates]
    for name in left:
        if name not in graph:
            graph[name] = [it for it in crates[name] if it in crates]
            left += graph[name]
    return list(graphlib.TopologicalSorter(graph).static_order())


def outside(name: str, crates: Mapping[str, list[str]]) -> list[str]:
    """The libraries of the kit that a crate of the repository names."""
    return [it for it in crates[name] if it not in crates]


def kit() -> pathlib.Path | None:
    """The folder of the kit whose `rt` is on the PATH, or None where there is none."""
    command = shutil.which("rt")
    return pathlib.Path(command).resolve().parent.parent if command else None


def kit_name(folder: pathlib.Path) -> str:
    """The line that names a kit, as `rt version` prints it."""
    path = folder / "KIT-ID"
    return path.read_text(encoding="utf-8").strip() if path.exists() else "a kit without a name"


def answers_stored_run(program: pathlib.Path, crate_folder: pathlib.Path) -> bool:
    """Whether the program answers the crate's file stdin by the bytes of its file stdout."""
    wanted = (crate_folder / "stdout").read_bytes()
    with open(crate_folder / "stdin", "rb") as requests:
        try:
            done = subprocess.run(
                [program], stdin=requests, capture_output=True, timeout=STORED_RUN_SECONDS)
        except subprocess.TimeoutExpired:
            return False
    return done.returncode == 0 and done.stdout == wanted
