"""How far a server has followed the log, and what it needs to go on from there."""

import json
from dataclasses import dataclass, field

from xqs.cluster import sums
from xqs.cluster.seen import Seen
from xqs.errors import XqError


class NoState(XqError, ValueError):
    """A text that is no state of a follower."""


@dataclass
class State:
    """A place of the log, and what a server at that place needs to go on.

    `offset` is that of the last message that was taken, -1 before the first. `place` counts the
    stores and drops carried out since the log's beginning, and `total` is their sum. `reports` has
    the last reported sums, by place; `program` carried all this out. `identity` names the log, and
    `digest` tells its message at the offset from any other; both are empty if unknown. `skips` are
    the places that were skipped.
    """

    log: str
    program: str
    offset: int = -1
    place: int = 0
    total: str = sums.START
    seen: Seen = field(default_factory=Seen)
    reports: dict[int, str] = field(default_factory=dict)
    identity: str = ""
    digest: str = ""
    skips: tuple[int, ...] = ()

    def to_json(self) -> str:
        """The state as one line of text."""
        return json.dumps({
            "log": self.log, "program": self.program, "offset": self.offset, "place": self.place,
            "sum": self.total, "seen": self.seen.numbers(),
            "reports": {str(place): total for place, total in self.reports.items()},
            "identity": self.identity, "digest": self.digest, "skips": list(self.skips),
        })

    @staticmethod
    def of_json(text: str) -> "State":
        """The state in such a text. Raises NoState."""
        try:
            fields = json.loads(text)
            seen = {str(name): int(number) for name, number in fields["seen"].items()}
            reports = {int(place): str(total) for place, total in fields["reports"].items()}
            # (fields that a state of an earlier version lacks are unknown)
            skips = tuple(int(place) for place in fields.get("skips", ()))
            return State(str(fields["log"]), str(fields["program"]), int(fields["offset"]),
                         int(fields["place"]), str(fields["sum"]), Seen(seen), reports,
                         str(fields.get("identity", "")), str(fields.get("digest", "")), skips)
        except (ValueError, KeyError, TypeError, AttributeError) as error:
            raise NoState(f"no state of a follower: {text[:80]!r}") from error

    def __str__(self) -> str:
        return f"place {self.place:,} (offset {self.offset})"
