"""How far the proof of some crates is, as rt's log and its processes tell."""

from __future__ import annotations

import pathlib
import sys
import time
from collections.abc import Iterable, Mapping, Sequence

from tools.common import watched

SECONDS_BETWEEN_LINES = 60
LINES_SHOWN_OF_A_LOG = 20
FIRST_LOOK = "a first look at all sources"


def say(text: str) -> None:
    """Says a line to whoever started the server."""
    print(f"serve: {text}", file=sys.stderr, flush=True)


def show_end(log: pathlib.Path) -> None:
    """Shows the last lines of a log, where there is one."""
    if log.exists():
        lines = log.read_text(encoding="utf-8", errors="replace").splitlines()
        print(*lines[-LINES_SHOWN_OF_A_LOG:], sep="\n", file=sys.stderr)


def clock(seconds: float) -> str:
    """A length of time by the clock, in whole seconds."""
    minutes, rest = divmod(round(seconds), 60)
    return f"{minutes} min {rest} s"


def expected_minutes(path: pathlib.Path) -> dict[str, float]:
    """The minutes that each crate's proof took where it was measured, by a table of lines."""
    lines = path.read_text(encoding="utf-8").splitlines()
    words = [line.split() for line in lines if line and not line.startswith("#")]
    return {name: float(minutes) for name, minutes in words}


def crate_of(words: Sequence[str]) -> str | None:
    """The crate that a process with these words checks, or the first look, or None."""
    if "--crate-name" not in words or not words[0].endswith("/rattle"):
        return None
    return FIRST_LOOK if "--only" in words else words[words.index("--crate-name") + 1]


class Progress:
    """What is proved of some crates, and what is being proved."""

    def __init__(self, names: Iterable[str], minutes: Mapping[str, float], now: float) -> None:
        """Of the crates of these names, with the minutes that they took elsewhere, from now on."""
        self.names, self.minutes, self.begun = set(names), minutes, now
        self.done: set[str] = set()
        self.since: dict[str, float] = {}

    def read(self, log: Iterable[str]) -> bool:
        """Takes in further lines of rt's log; whether they tell of a crate that is done."""
        done = {line[3:].strip() for line in log if line.startswith("== ")} & self.names
        is_news = bool(done - self.done)
        self.done |= done
        return is_news

    def see(self, at_work: Iterable[str], now: float) -> None:
        """Takes in what is being proved now."""
        self.since = {it: self.since.get(it, now) for it in sorted(at_work) if it not in self.done}

    def shown(self, now: float) -> str:
        """A line on how far it is."""
        counts = f"{len(self.done)} of {len(self.names)} crates proved, {clock(now - self.begun)}"
        running = ", ".join(self.shown_crate(it, now) for it in self.since)
        return f"{counts}; now {running}" if running else counts

    def shown_crate(self, name: str, now: float) -> str:
        """One crate that is being proved: its minutes so far, and those that it took elsewhere."""
        took = f" of {self.minutes[name]:.1f}" if name in self.minutes else ""
        return f"{name} ({(now - self.since[name]) / 60:.1f}{took})"


class Watch:
    """Says how far a run of rt is: as a crate is done, and else once a minute."""

    def __init__(self, progress: Progress, log: Iterable[str]) -> None:
        """Of a run whose crates the progress names, and whose log gives its lines as they come."""
        self.progress, self.log, self.said = progress, log, time.monotonic()

    def look(self, pid: int) -> None:
        """Looks at the log and at what the process has begun, and says what is new."""
        now = time.monotonic()
        is_news = self.progress.read(self.log)
        at_work = map(crate_of, watched.words_below(pid))
        self.progress.see((it for it in at_work if it), now)
        if is_news or now - self.said >= SECONDS_BETWEEN_LINES:
            say(self.progress.shown(now))
            self.said = now
