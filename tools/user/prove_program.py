"""Proves and builds the program, and says on standard error how far it is.

    tools/run prove_program [CRATE]     CRATE in the program's place, as where this is tried

`rt all check` (by rt_all.py) proves the crate and the libraries below it, several at a time, and
keeps each in its folder out/ as it is done; `rt run` then builds the program over them. So a start
that was interrupted goes on where it was, and `rt check` goes on from there as well. out/serve.log
has what rt says; what the check of a crate says comes there as it ends.
"""

from __future__ import annotations

import os
import pathlib
import re
import sys
import time

from tools.common import command_line, repository, watched
from tools.user import rt_all
from tools.user.progress import Progress, Watch, clock, expected_minutes, say, show_end

# Room for each check that runs: four were seen to take 3.4 to 5.5 GB, and most up to 2.
BYTES_OF_A_CHECK = 3_500_000_000
LOG = "out/serve.log"
# The line of proof_minutes.txt that has the minutes of a whole first start by the clock.
WHOLE = "all"


class NotProved(Exception):
    """Why there is no proved program."""


def checks_at_once(processors: int, memory: int) -> int:
    """How many checks are run side by side on so many processors, with so many bytes to spare."""
    return max(1, min(processors, memory // BYTES_OF_A_CHECK))


def free_memory(text: str) -> int:
    """The bytes to spare, by the text of /proc/meminfo."""
    found = re.search(r"^MemAvailable: *(\d+) kB", text, re.M)
    return int(found[1]) * 1024 if found else 0


def begins(count: int, at_once: int, whole: float | None) -> str:
    """What is said as the proof of so many crates begins; all took so many minutes elsewhere."""
    took = "" if whole is None else f"; all took {whole:.0f} by the clock there, four at a time"
    return (f"crates to prove: {count}, {at_once} at a time; in brackets the minutes of each so"
            f" far, and those that it took on the machine of docs/MEASURES.md{took}")


def prove(top: pathlib.Path, crate: str, at_once: int, log_path: pathlib.Path) -> None:
    """Proves a crate and those below it. Raises NotProved."""
    names = repository.all_below([crate], repository.libraries(top / "crates.txt"))
    minutes = expected_minutes(pathlib.Path(__file__).with_name("proof_minutes.txt"))
    say(begins(len(names), at_once, minutes.get(WHOLE)))
    with open(log_path, "wb") as log, open(log_path, encoding="utf-8", errors="replace") as lines:
        watch = Watch(Progress(names, minutes, time.monotonic()), lines)
        words = [sys.executable, "-P", "-m", rt_all.__name__, "check", "--jobs", str(at_once)]
        status = watched.run(words, log, watch.look, cwd=top / "crates" / crate,
                             env=repository.environment())
    if status:
        raise NotProved("a crate was not proved")


def build(folder: pathlib.Path, log_path: pathlib.Path) -> pathlib.Path:
    """Builds the proved program of a crate, and tries it on its stored run. Raises NotProved."""
    say("all are proved; building the program")
    program = folder / "out" / folder.name
    with open(log_path, "ab") as log:
        status = watched.run(["rt", "run"], log, cwd=folder)
    if status or not program.exists():
        raise NotProved("the program was not built")
    if not repository.answers_stored_run(program, folder):
        raise NotProved("the program does not answer its stored run")
    return program


def prove_and_build(top: pathlib.Path, crate: str) -> None:
    """Proves the crates and builds the program, if the crate is one. Raises NotProved."""
    begun, folder, log_path = time.time(), top / "crates" / crate, top / LOG
    memory = free_memory(pathlib.Path("/proc/meminfo").read_text(encoding="utf-8"))
    prove(top, crate, checks_at_once(len(os.sched_getaffinity(0)), memory), log_path)
    if (folder / "src" / "main.rt").exists():
        # So that sources that were changed meanwhile are newer than the program.
        os.utime(build(folder, log_path), (begun, begun))
    say(f"done after {clock(time.time() - begun)}")


def main() -> int:
    """Proves and builds; status 1 where that fails."""
    words = command_line.parser(__doc__)
    words.add_argument("crate", nargs="?", default=repository.PROGRAM)
    crate = words.parse_args().crate
    watched.end_by_signals()
    if repository.kit() is None:
        say("the program is not built yet, and Rattle's command 'rt' is not on the PATH")
        return 1
    lock = repository.TOP / "out" / "serve.lock"
    with watched.lone(lock, lambda: say("another start proves the program: waiting for it")):
        say(f"proving and building the program; {LOG} is the log. Meanwhile ./serve --unproved can"
            " serve, without a proof")
        try:
            prove_and_build(repository.TOP, crate)
        except (NotProved, OSError) as why:
            show_end(repository.TOP / LOG)
            say(f"{why}: {LOG} says why")
            return 1
        except SystemExit:
            say("interrupted; the next start goes on where this one was")
            raise
    return 0


if __name__ == "__main__":
    sys.exit(main())
