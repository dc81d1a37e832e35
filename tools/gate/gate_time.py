"""Runs the gate in a fresh clone of the last commit, and tells where its time goes.

    tools/run gate_time [--keep FOLDER] [COMMAND ..]     (the command is `rt ci` if none is given)
    tools/run gate_time --here FILE [--minutes N] [COMMAND ..]

Prints what the gate prints, and then the processor minutes of each crate's proof, of its tests and
of its must-fail edits, of what else ran (programs, tests, linking), and their sum, which is that of
the operating system. A process is looked at four times a second, so the parts miss what each did
after the last look; the line `unseen` has that difference.

With --here the gate runs in this folder, and the dearest parts go to FILE. Where N minutes by the
clock do not suffice, the gate is ended, and status 1 says so by name: as soon as the measured proof
of the yardstick's crate tells that the whole gate takes far longer, or else at the end of N
minutes.
"""

from __future__ import annotations

import argparse
import dataclasses
import os
import pathlib
import resource
import shutil
import signal
import subprocess
import sys
import tempfile
import time
from collections.abc import Sequence

from tools.common import watched

TICKS = os.sysconf("SC_CLK_TCK")
PHASES = ("proof", "tests", "edits", "other")
DEAREST = 20
SECONDS_BETWEEN_LOOKS = 0.25
SECONDS_BETWEEN_FORECASTS = 15
STATUS_OF_TOO_LITTLE_TIME = 1
# The whole gate from nothing takes so many times the proof of this crate, on any machine
# (docs/MEASURES.md has the last figure).
YARDSTICK_CRATE = "xq_tuples"
YARDSTICK = 45.0
# Where this crate is proved in a run, all crates above it are, and next to nothing was kept.
LOWEST_CRATE = "xq_atoms"
# A forecast ends a gate only where it is beyond the limit by so much: it is rough.
SURELY = 1.25

Part = tuple[str, str]
"""A crate, or `all`, and one of the phases."""


def read(path: str) -> str:
    """What a file holds; nothing where it can't be read, as when a process has ended."""
    try:
        return pathlib.Path(path).read_text(errors="replace")
    except OSError:
        return ""


@dataclasses.dataclass
class Process:
    """What the last look at a process found."""

    pid: str
    parent: str
    begun: str
    seconds: float
    words: list[str]
    folder: str

    @classmethod
    def seen(cls, pid: str, parent: str, begun: str, seconds: float) -> Process:
        """A process at the first look."""
        words = read(f"/proc/{pid}/cmdline").split("\0")
        try:
            folder = os.readlink(f"/proc/{pid}/cwd")
        except OSError:
            folder = ""
        return cls(pid, parent, begun, seconds, words, folder)

    def part(self) -> Part | None:
        """The crate and the phase that the process works for, if its words tell."""
        if "--crate-name" not in self.words:
            return None
        crate = self.words[self.words.index("--crate-name") + 1]
        if "/rt-edit-" in self.folder:
            return crate, "edits"
        return crate, "tests" if "--test" in self.words else "proof"


class Looks:
    """The processes that were seen, by their numbers."""

    def __init__(self) -> None:
        self.processes: dict[str, Process] = {}
        self.running: set[str] = set()

    def look(self) -> None:
        """Takes in the time of each process that runs."""
        self.running = {it for it in os.listdir("/proc") if it.isdigit()}
        for pid in self.running:
            fields = read(f"/proc/{pid}/stat").rpartition(") ")[2].split()
            if len(fields) >= 20:
                seconds = (int(fields[11]) + int(fields[12])) / TICKS
                self._take(pid, fields[1], fields[19], seconds)

    def _take(self, pid: str, parent: str, begun: str, seconds: float) -> None:
        known = self.processes.get(pid)
        if known is not None and known.begun != begun:
            # Its number was given to another process.
            self.processes[f"{pid} {known.begun}"] = known
        if known is None or known.begun != begun or not known.words[0]:
            self.processes[pid] = Process.seen(pid, parent, begun, seconds)
        else:
            known.seconds = seconds

    def owner(self, process: Process | None, top: str) -> Part | None:
        """The part of the nearest process above that has one, if the process is below the top."""
        found: Part | None = None
        is_below = False
        while process is not None and not is_below:
            found = found or process.part()
            is_below = process.pid == top
            process = self.processes.get(process.parent)
        return (found or ("all", "other")) if is_below else None

    def table(self, top: str) -> dict[Part, float]:
        """Seconds by crate and phase, of what ran below the top."""
        sums: dict[Part, float] = {}
        for process in self.processes.values():
            part = self.owner(process, top)
            if part is not None:
                sums[part] = sums.get(part, 0.0) + process.seconds
        return sums

    def under_way(self, top: str) -> set[Part]:
        """The parts that run now."""
        found = (self.owner(self.processes.get(pid), top) for pid in self.running)
        return {part for part in found if part is not None and part[0] != "all"}


@dataclasses.dataclass
class Limit:
    """The minutes by the clock that a gate may take on so many processors."""

    minutes: float
    processors: int

    def fault(self, sums: dict[Part, float], under_way: set[Part], minutes: float) -> str | None:
        """Why the gate is ended now, after so many minutes, or None."""
        if minutes >= self.minutes:
            parts = ", ".join(f"{crate} ({phase})" for crate, phase in sorted(under_way))
            return f"its {self.minutes:.0f} minutes are over; under way: {parts or 'nothing'}"
        yardstick = (YARDSTICK_CRATE, "proof")
        if yardstick in under_way or yardstick not in sums or (LOWEST_CRATE, "proof") not in sums:
            return None
        whole = YARDSTICK * sums[yardstick] / 60 / self.processors
        if whole < SURELY * self.minutes:
            return None
        return (f"by the proof of {YARDSTICK_CRATE} the whole takes some {whole:.0f} minutes on"
                f" {self.processors} processors, and it has {self.minutes:.0f}")


@dataclasses.dataclass
class Ran:
    """How a gate ended: its status, seconds by part, and seconds by the clock."""

    status: int
    sums: dict[Part, float]
    wall: float


def end(ran: subprocess.Popen[bytes]) -> None:
    """Ends a command that leads its own group, with all that it began."""
    os.killpg(ran.pid, signal.SIGTERM)
    try:
        ran.wait(timeout=20)
    except subprocess.TimeoutExpired:
        os.killpg(ran.pid, signal.SIGKILL)
        ran.wait()


def watch(command: Sequence[str], folder: str, limit: Limit | None = None) -> Ran:
    """Runs the command in the folder, within the limit."""
    looks, begun = Looks(), time.monotonic()
    with subprocess.Popen(command, cwd=folder, start_new_session=True) as ran:
        try:
            fault = look_on(ran, looks, limit)
        finally:
            if ran.poll() is None:
                end(ran)
    sums = looks.table(str(ran.pid))
    if fault is None:
        return Ran(ran.returncode, sums, time.monotonic() - begun)
    print(f"gate: ended, since {fault}", file=sys.stderr, flush=True)
    return Ran(STATUS_OF_TOO_LITTLE_TIME, sums, time.monotonic() - begun)


def look_on(ran: subprocess.Popen[bytes], looks: Looks, limit: Limit | None) -> str | None:
    """Looks on until the command has ended, or until there is a fault, which it gives."""
    begun, judged, top = time.monotonic(), 0.0, str(ran.pid)
    while ran.poll() is None:
        looks.look()
        time.sleep(SECONDS_BETWEEN_LOOKS)
        wall = time.monotonic() - begun
        if limit is None or wall - judged < SECONDS_BETWEEN_FORECASTS:
            continue
        judged = wall
        fault = limit.fault(looks.table(top), looks.under_way(top), wall / 60)
        if fault is not None:
            return fault
    return None


def of_phase(sums: dict[Part, float], phase: str) -> float:
    """The minutes of a phase."""
    return sum(seconds for (_, its), seconds in sums.items() if its == phase) / 60


def show(ran: Ran, total: float) -> None:
    """Prints the minutes of each crate and phase."""
    crates = sorted({crate for crate, _ in ran.sums}, key=lambda it: -sum(
        ran.sums.get((it, phase), 0.0) for phase in PHASES))
    print(f"{'processor minutes':24}" + "".join(f"{phase:>8}" for phase in PHASES) + f"{'sum':>8}")
    for crate in crates:
        row = [ran.sums.get((crate, phase), 0.0) / 60 for phase in PHASES]
        print(f"{crate:24}" + "".join(f"{it:8.1f}" for it in row) + f"{sum(row):8.1f}")
    phases = [of_phase(ran.sums, phase) for phase in PHASES]
    print(f"{'each phase':24}" + "".join(f"{it:8.1f}" for it in phases) + f"{sum(phases):8.1f}")
    print(f"{'unseen':24}{'':32}{total / 60 - sum(phases):8.1f}")
    print(f"{'sum':24}{'':32}{total / 60:8.1f}")
    print(f"minutes by the clock: {ran.wall / 60:.1f}, on {os.cpu_count()} processors")
    print(yardstick(ran.sums, total))


def yardstick(sums: dict[Part, float], total: float) -> str:
    """The whole over the proof of the yardstick's crate, which no machine changes."""
    one = sums.get((YARDSTICK_CRATE, "proof"), 0.0)
    if not one or (LOWEST_CRATE, "proof") not in sums:
        return "yardstick: none, since this run did not prove all from nothing"
    return (f"yardstick: {total / one:.1f} (the whole over the proof of {YARDSTICK_CRATE},"
            f" {one / 60:.1f})")


def dearest(ran: Ran, total: float) -> list[str]:
    """The whole in processor minutes, and the dearest parts, in lines."""
    parts = sorted(ran.sums.items(), key=lambda it: -it[1])[:DEAREST]
    told = [f"{crate} {phase} {seconds / 60:.1f}" for (crate, phase), seconds in parts]
    phases = ", ".join(f"{phase} {of_phase(ran.sums, phase):.1f}" for phase in PHASES)
    return [f"processor minutes of the gate: {total / 60:.1f} ({phases}); by the clock "
            f"{ran.wall / 60:.1f}, on {len(os.sched_getaffinity(0))} processors",
            yardstick(ran.sums, total),
            *(f"  {', '.join(told[at:at + 4])}" for at in range(0, len(told), 4))]


def used_seconds() -> float:
    """The processor seconds of the commands that this process has run."""
    used = resource.getrusage(resource.RUSAGE_CHILDREN)
    return used.ru_utime + used.ru_stime


def here(file: str, limit: Limit | None, command: Sequence[str]) -> int:
    """Runs the command in this folder; writes the dearest parts to the file."""
    ran = watch(command, ".", limit)
    lines = dearest(ran, used_seconds())
    pathlib.Path(file).write_text("".join(f"{line}\n" for line in lines), encoding="utf-8")
    return ran.status


def in_a_clone(kept: str | None, command: Sequence[str]) -> int:
    """Runs the command in a clone of the last commit, which is kept where a folder is given."""
    top = subprocess.check_output(["git", "rev-parse", "--show-toplevel"], text=True).strip()
    room = kept or tempfile.mkdtemp(prefix="gate-time-")
    try:
        subprocess.check_call(["git", "clone", "-q", top, f"{room}/clone"])
        ran = watch(command, f"{room}/clone")
    finally:
        if not kept:
            shutil.rmtree(room, ignore_errors=True)
    show(ran, used_seconds())
    return ran.status


def main(words: Sequence[str]) -> int:
    """The status of the gate, or 1 where its time does not suffice."""
    watched.end_by_signals()
    parser = argparse.ArgumentParser(description="Runs the gate and tells where its time goes.")
    parser.add_argument("--here", metavar="FILE")
    parser.add_argument("--minutes", type=float)
    parser.add_argument("--keep", metavar="FOLDER")
    parser.add_argument("command", nargs=argparse.REMAINDER)
    given = parser.parse_args(words)
    command = given.command or ["rt", "ci"]
    if given.here is None:
        return in_a_clone(given.keep, command)
    processors = min(len(os.sched_getaffinity(0)), int(os.environ.get("RT_JOBS", "1024")))
    limit = None if given.minutes is None else Limit(given.minutes, processors)
    return here(given.here, limit, command)


if __name__ == "__main__":
    sys.exit(main(sys.argv[1:]))
