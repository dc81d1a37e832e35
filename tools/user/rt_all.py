"""Is `rt all`, without its first look at all sources, and with the longest chain of crates first.

    rt_all.py check --jobs N      in a crate's folder

Before a first build `rt` reads the sources of the crate and of all below it in one process, to tell
early what needs no proof to find. For the program of this repository that takes minutes and more
memory than any proof, and nothing rests on it: each crate's own check finds the same. `rt` has no
word that leaves it out, so the step is taken out of the kit's script as it is loaded. The script
also begins crates in a fixed order, one processor each, and one that waits for another holds its
processor meanwhile: its pool is replaced by one that doesn't (lanes.py). Where the script has no
such step and no such pool, it is run as it is.
"""

from __future__ import annotations

import importlib.machinery
import os
import pathlib
import sys
import types
from collections.abc import Sequence
from typing import Any

from tools.common import repository
from tools.user import lanes, progress

MINUTES = pathlib.Path(__file__).with_name("proof_minutes.txt")


def loaded(script: pathlib.Path) -> types.ModuleType:
    """The kit's script `rt` as a module, with nothing written beside it."""
    sys.dont_write_bytecode = True
    sys.path.insert(0, f"{script.parent}")  # as Python does for a script that it is given
    loader = importlib.machinery.SourceFileLoader("rt", f"{script}")
    module = types.ModuleType(loader.name)
    module.__file__ = f"{script}"
    loader.exec_module(module)
    return module


def use_lanes(library: Any) -> None:
    """Has the kit's library work on crates in lanes, and build each with its processors."""
    chain = lanes.program_chains(progress.expected_minutes(MINUTES))
    build, pools = library.Crate.build_rlib, []

    def begun(at_once: int) -> lanes.Lanes:
        pools.append(lanes.Lanes(at_once, chain))
        return pools[-1]

    def built(crate: Any, flags: Sequence[str], *rest: Any, **named: Any) -> int:
        own = ["--jobs", f"{pools[0].share(crate)}"] if pools else [*flags]
        return int(build(crate, own, *rest, **named))

    library.ThreadPoolExecutor = begun
    library.Crate.build_rlib = built


def main(words: Sequence[str]) -> int:
    """The status of `rt all` with these words."""
    kit = repository.kit()
    if kit is None or not (kit / "bin" / "rt").exists():
        os.execvp("rt", ["rt", "all", *words])
    module = loaded(kit / "bin" / "rt")
    library = getattr(module, "rtlib", None)
    crate: Any = getattr(library, "Crate", None)
    if hasattr(crate, "front_end"):
        crate.front_end = lambda self: 0
    if library and hasattr(library, "ThreadPoolExecutor") and hasattr(crate, "build_rlib"):
        use_lanes(library)
    return int(module.main(["all", *words]))


if __name__ == "__main__":
    sys.exit(main(sys.argv[1:]))
