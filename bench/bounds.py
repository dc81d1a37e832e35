"""Times of runs, and the bounds that their ratios have to keep."""

from __future__ import annotations

import statistics
from collections.abc import Iterable, Iterator, Mapping, Sequence
from dataclasses import dataclass

MET = 1.1
"""A bound that is missed by less than a tenth is met: the machine's noise is more."""


@dataclass(frozen=True)
class Times:
    """The median of some runs, and the least."""

    median: float
    least: float

    @classmethod
    def of(cls, spent: Sequence[float]) -> Times:
        """The times of runs; there is at least one."""
        return cls(statistics.median(spent), min(spent))

    def __str__(self) -> str:
        return f"{figure(self.median)} ({figure(self.least)})"


@dataclass(frozen=True)
class Bound:
    """A ratio that has to be so much at most: by medians, which judge, and by least times, where
    there are such."""

    what: str
    ratio: float
    least: float | None
    most: float

    @property
    def is_kept(self) -> bool:
        """Whether the bound holds, or is met."""
        return self.ratio < self.most * MET

    def __str__(self) -> str:
        verdict = "holds" if self.ratio <= self.most else "is met" if self.is_kept else "is MISSED"
        least = "" if self.least is None else f" ({self.least:.2f} by least times)"
        return f"{self.what}: {self.ratio:.2f}{least}, wanted at most {self.most:g}: {verdict}"


def ratio(what: str, ours: Times, other: Times, most: float) -> Bound:
    """How many times as long ours takes as another."""
    return Bound(what, ours.median / other.median, ours.least / other.least, most)


def lesser(times: Iterable[Times]) -> Times:
    """The lesser median and the lesser least time of several engines."""
    found = list(times)
    return Times(min(it.median for it in found), min(it.least for it in found))


def figure(number: float) -> str:
    """A number with three digits or so; one that was counted, as it is."""
    if isinstance(number, int) or number >= 100:
        return f"{number:,.0f}"
    return f"{number:.1f}" if number >= 10 else f"{number:.2f}"


def row(cells: Iterable[object]) -> str:
    """A line of a table."""
    return f"| {' | '.join(map(str, cells))} |"


def table(heads: Sequence[str], rows: Mapping[str, Mapping[str, object]]) -> Iterator[str]:
    """The lines of a table; what a row has nothing of stays empty."""
    yield row(heads)
    yield "|" + "---|" * len(heads)
    for name, cells in rows.items():
        yield row([name, *(cells.get(head, "") for head in heads[1:])])


def said(bounds: Iterable[Bound]) -> bool:
    """Prints bounds; whether each is kept."""
    kept = True
    for bound in bounds:
        print(bound, flush=True)
        kept = kept and bound.is_kept
    return kept
