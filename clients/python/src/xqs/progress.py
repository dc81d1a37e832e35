"""A line on standard error with the progress of a long command."""

import io
import sys
import time
from collections.abc import Iterator
from contextlib import contextmanager
from typing import TextIO

_BAR = 20
_BETWEEN = 0.1
"""The least number of seconds between two drawings on a terminal."""
MEGABYTES, NODES = "MB", "nodes"


class Progress:
    """The progress through a number of files and a total size. It draws only on a terminal.

    If no size is known the bar counts files. The size is in bytes or in nodes.
    """

    def __init__(
        self, files: int, size: int, stream: TextIO | None = None, unit: str = MEGABYTES
    ) -> None:
        self._stream = stream or sys.stderr
        self.draws = self._stream.isatty()
        """Whether anybody sees it."""
        self._drawn = time.monotonic()
        self.begin(files, size, unit)

    def begin(self, files: int, size: int, unit: str = MEGABYTES, passes: int = 1) -> None:
        """Begins again, with a number of files and their size. All is read `passes` times, and each
        pass counts as work."""
        self._files, self._size, self._unit, self._passes = files, size * passes, unit, passes
        self._start = time.monotonic()
        self.done = self.bytes = self.refused = self.skipped = 0
        self._at, self._part = 0, 0.0

    @property
    def seconds(self) -> float:
        """The time since the start."""
        return time.monotonic() - self._start

    def skip(self, size: int) -> None:
        """Counts a file that was done before and takes no time."""
        self._files -= 1
        self._size -= size
        self.skipped += 1

    def step(self, size: int, is_refused: bool = False) -> None:
        """Counts a file of this size as done."""
        self.done += 1
        self.refused += is_refused
        self.bytes += size
        self._at, self._part = 0, 0.0
        self._draw()

    def reach(self, size: int) -> None:
        """Notes how much of the current file is done."""
        self._at = max(self._at, size)
        self._draw()

    def reach_nodes(self, nodes: int, of: int) -> None:
        """Notes how many of the nodes of the current file are done; if no file was counted, it is
        the only one."""
        if not self._files and (not self._size or self._unit == NODES):
            self._size, self._unit = of, NODES
            self.reach(nodes)
        else:
            self._part = max(self._part, nodes / of)
            self._draw()

    def _draw(self) -> None:
        if self.draws and time.monotonic() - self._drawn > _BETWEEN:
            self.show(self.line())

    def show(self, text: str) -> None:
        """Draws a text in place of the line, on a terminal."""
        if self.draws:
            self._drawn = time.monotonic()
            self._stream.write(f"\r\x1b[K{text}")
            self._stream.flush()

    def clear(self) -> None:
        """Removes the line."""
        self.show("")

    def line(self) -> str:
        """Files, bar, rate, time left, refusals."""
        share = self._share()
        left = self.seconds * (1 - share) / share if share else 0.0
        filled = int(_BAR * share)
        bar = "#" * filled + "." * (_BAR - filled)
        files = f"{self.done}/{self._files} " if self._files else ""
        time_left = f"{int(left) // 60}:{int(left) % 60:02} left" if share else "time left unknown"
        refused = f"; {self.refused} refused" if self.refused else ""
        return f"{files}[{bar}] {self._rate()}, {time_left}{refused}"

    def _share(self) -> float:
        """The share of the work that is done, from 0 to 1; 0 if unknown."""
        by_size, by_files = self.bytes + self._at, self.done + self._part
        done, of = (by_size, self._size) if self._size else (by_files, self._files)
        return min(done / of, 1.0) if of > 0 else 0.0

    def _rate(self) -> str:
        rate = (self.bytes + self._at) / self._passes / max(self.seconds, 0.001)
        return f"{rate / 1e6:.1f} MB/s" if self._unit == MEGABYTES else f"{rate:,.0f} nodes/s"


def silent() -> Progress:
    """A progress that nobody sees."""
    return Progress(0, 0, io.StringIO())


@contextmanager
def progress_of(files: int = 0, size: int = 0) -> Iterator[Progress]:
    """A context with a progress whose line is removed at the end, however it ends."""
    progress = Progress(files, size)
    try:
        yield progress
    finally:
        progress.clear()
