"""Checks that nodes agree: at regular places each one reports its sum in the log, with one vote."""

import json
from collections import Counter
from collections.abc import Mapping
from dataclasses import dataclass

from xqs.cluster.batches import EntryKind
from xqs.errors import XqError

EVERY = 1000
"""The number of places between two reports."""
KEPT = 32
"""How many of the last reports are kept for comparison."""


class Differs(XqError):
    """This server holds other documents than most nodes."""


class Tied(XqError):
    """This server holds other documents than as many nodes as agree with it: nobody knows which
    ones are right."""


@dataclass(frozen=True, slots=True)
class Report:
    """A node's report about a place: the sum over all replies up to it, its program, and the places
    that it has skipped."""

    node: str
    place: int
    total: str
    program: str
    skips: tuple[int, ...] = ()

    def entry(self) -> bytes:
        """The entry of the log."""
        fields = {"node": self.node, "place": self.place, "sum": self.total,
                  "program": self.program, "skips": list(self.skips)}
        return EntryKind.REPORT.value + json.dumps(fields).encode()

    @staticmethod
    def of(entry: bytes) -> "Report | None":
        """The report in an entry; None if there is none."""
        if entry[:1] != EntryKind.REPORT:
            return None
        try:
            fields = json.loads(entry[1:])
            return Report(str(fields["node"]), int(fields["place"]), str(fields["sum"]),
                          str(fields["program"]), tuple(map(int, fields.get("skips", ()))))
        except (ValueError, KeyError, TypeError, AttributeError):
            return None

    def __str__(self) -> str:
        return f"node {self.node} (program {self.program}) has the sum {self.total[:16]}"


class Agreement:
    """The reports of this server and all nodes.

    Only sums count. If more nodes have another sum than this server's, it must stop at once. If as
    many have it, the server halts at its next report, when all have had the time to report, and
    goes on when others say that it is right; `tied_at` is that place.
    """

    def __init__(self, node: str, program: str, sums: Mapping[int, str] | None = None) -> None:
        """`sums` has this server's sums at earlier places."""
        self._node, self._program = node, program
        self._own = {place: Report(node, place, total, program)
                     for place, total in (sums or {}).items()}
        self._heard: dict[int, dict[str, Report]] = {}
        self._last = max(self._own, default=0)
        self._told: set[tuple[str, str]] = set()
        self.tied_at = 0

    @property
    def sums(self) -> dict[int, str]:
        """The last sums of this server, by place."""
        return {place: report.total for place, report in self._own.items()}

    def reached(self, place: int, total: str, skips: tuple[int, ...] = ()) -> Report | None:
        """This server's report, if one is due at the place. Raises Differs, Tied."""
        if place % EVERY:
            return None
        report = Report(self._node, place, total, self._program, skips)
        self._own[place] = report
        self._last = place
        for old in [it for it in self._own if it <= place - KEPT * EVERY]:
            del self._own[old]
        self._judge(place)
        self._judge(place - EVERY)
        return report

    def own(self, place: int) -> Report | None:
        """This server's report of a place, as long as it is kept."""
        return self._own.get(place)

    def is_disputed(self, place: int) -> bool:
        """Whether a sum other than this server's was reported for the place."""
        return place in self._own and bool(self._against(place))

    def is_tied(self, place: int) -> bool:
        """Whether at least as many nodes have another sum of the place as have this server's."""
        return self.is_disputed(place) and self._most(place) >= self._alike(place)

    def hear(self, report: Report) -> str:
        """Takes a report. Returns a message for the operator, if there is one. Raises Differs,
        Tied."""
        heard = self._heard.setdefault(report.place, {})
        is_new = heard.get(report.node) != report
        heard[report.node] = report
        for old in [it for it in self._heard if it <= self._last - KEPT * EVERY]:
            del self._heard[old]
        own = self._own.get(report.place)
        if own is None:
            return ""
        if report.total == own.total:
            return self._warning(report)
        if report.skips != own.skips:
            return ""
        self._judge(report.place)
        return self._said(report) if is_new else ""

    def _warning(self, other: Report) -> str:
        """A message that a node runs another program, given once."""
        if other.program == self._program or (other.node, other.program) in self._told:
            return ""
        self._told.add((other.node, other.program))
        return (f"node {other.node} runs the program {other.program}, and this one "
                f"{self._program}: their sums are equal so far")

    def _said(self, other: Report) -> str:
        return f"at place {other.place} {self._own[other.place]}, and {other}"

    def _votes(self, place: int) -> list[Report]:
        """The other votes to compare with this server's: one for each node, including its own node
        if another server of it has another sum."""
        own = self._own[place]
        return [it for it in self._heard.get(place, {}).values() if it.skips == own.skips
                and (it.node != self._node or it.total != own.total)]

    def _against(self, place: int) -> list[Report]:
        return [it for it in self._votes(place) if it.total != self._own[place].total]

    def _alike(self, place: int) -> int:
        total = self._own[place].total
        return 1 + sum(it.total == total for it in self._votes(place))

    def _most(self, place: int) -> int:
        """How many votes the most frequent sum has among those that differ from this server's."""
        return max(Counter(it.total for it in self._against(place)).values(), default=0)

    def _judge(self, place: int) -> None:
        if not self.is_disputed(place):
            return
        against, alike, most = self._against(place), self._alike(place), self._most(place)
        if most > max(alike, 1):
            raise Differs(self._said(against[0]))
        if most >= alike and self._last > place:
            self.tied_at = place
            raise Tied(self._said(against[0]))
