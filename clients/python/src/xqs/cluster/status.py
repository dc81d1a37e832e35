"""The status of a node: its state and figures, as lines, as JSON and for Prometheus."""

import json
import time
from dataclasses import asdict, dataclass
from typing import TYPE_CHECKING

if TYPE_CHECKING:
    from xqs.cluster.follower import Follower
    from xqs.cluster.node import Node

BEHIND = 15.0
"""Seconds after which an entry that has not come back means that the node is behind."""
FOLLOWS = "follows"
STATES = (FOLLOWS, "catches up", "behind", "no log", "halted", "ends")


@dataclass(frozen=True)
class ServerStatus:
    """One server of a node: its name, its place, and its state."""

    name: str
    place: int
    state: str


@dataclass(frozen=True)
class Status:
    """A node at one moment.

    `lag` is how many seconds an entry of this node has not come back from the log, `end` the last
    known offset of the log. `copies` is how many of the `brokers` have the log.
    """

    node: str
    state: str
    place: int
    offset: int
    end: int
    lag: float
    copies: int
    brokers: int
    snapshot_place: int
    snapshot_time: float | None
    log: str
    identity: str
    program: str
    servers: list[ServerStatus]

    @property
    def is_following(self) -> bool:
        """Whether the node serves clients well."""
        return self.state == FOLLOWS

    def to_json(self) -> str:
        """One line of JSON."""
        return json.dumps(asdict(self))

    @staticmethod
    def of_json(text: str) -> "Status":
        """The status in such a line. Raises ValueError."""
        try:
            fields = json.loads(text)
            servers = [ServerStatus(**it) for it in fields.pop("servers")]
            return Status(**fields, servers=servers)
        except (KeyError, TypeError) as error:
            raise ValueError(f"not the status of a node: {text[:80]!r}") from error

    def lines(self) -> str:
        """The status for people."""
        snapshot = "none yet"
        if self.snapshot_time is not None:
            age = max(0.0, time.time() - self.snapshot_time)
            snapshot = f"of place {self.snapshot_place:,}, {age:,.0f} s ago"
        rows = [
            ("state", self.state), ("log", f"{self.log} {self.identity}".strip()),
            ("place", f"{self.place:,} (offset {self.offset} of {self.end})"),
            ("lag", f"{self.lag:.1f} s"),
            ("copies", f"{self.copies} of {self.brokers} brokers" if self.brokers else "not known"),
            ("last snapshot", snapshot), ("program", self.program),
            *((f"server {it.name}", f"place {it.place:,}, {it.state}") for it in self.servers)]
        return "\n".join([f"node {self.node}", *(f"  {name}: {text}" for name, text in rows)])

    def metrics(self) -> str:
        """The figures in the format that Prometheus reads."""
        figures: list[tuple[str, str, float]] = [
            ("follows", "1 if the node serves clients well", float(self.is_following)),
            ("place", "stores and drops carried out since the log's beginning", self.place),
            ("offset", "offset of the last message that was taken", self.offset),
            ("end_offset", "last offset of the log that is known here", self.end),
            ("lag_seconds", "how long an entry of this node has not come back", self.lag),
            ("copies", "brokers that have a copy of the log", self.copies),
            ("brokers", "brokers that this node was given", self.brokers),
            ("snapshot_place", "place of the last snapshot", self.snapshot_place),
            ("snapshot_timestamp_seconds", "time of the last snapshot, 0 for none",
             self.snapshot_time or 0.0)]
        lines = []
        for name, says, figure in figures:
            lines += [f"# HELP xqs_node_{name} {says}", f"# TYPE xqs_node_{name} gauge",
                      f"xqs_node_{name} {figure:.15g}"]
        lines += ["# HELP xqs_node_state 1 for the state of the node",
                  "# TYPE xqs_node_state gauge"]
        lines += [f'xqs_node_state{{state="{it}"}} {int(it == self.state)}' for it in STATES]
        lines += ["# HELP xqs_node_server_place place of each server",
                  "# TYPE xqs_node_server_place gauge"]
        lines += [f'xqs_node_server_place{{server="{it.name}"}} {it.place}' for it in self.servers]
        return "\n".join(lines) + "\n"


def status_of(node: "Node") -> Status:
    """The current status of a node."""
    furthest = max(node.followers, key=lambda it: it.state.place)
    copies = list(node.copies.values())
    return Status(
        node.options.name, _state(node), furthest.state.place, furthest.state.offset,
        max(node.end, *(it.state.offset for it in node.followers)), node.outbox.lag(),
        sum(it is True for it in copies), len(copies), node.snapshot_place, node.snapshot_time,
        node.log.name, furthest.state.identity, node.options.program,
        [ServerStatus(it.name, it.state.place, _server_state(it)) for it in node.followers])


def _state(node: "Node") -> str:
    if node.failed.is_set():
        return "ends"
    if all(it.halted or it.is_ended for it in node.followers):
        return "halted"
    if not node.log.is_up or not node.log.is_read:
        return "no log"
    if not node.is_caught_up:
        return "catches up"
    return "behind" if node.outbox.lag() > BEHIND else FOLLOWS


def _server_state(follower: "Follower") -> str:
    if follower.halted:
        return f"halted: {follower.halted}"
    if follower.is_ended:
        return "ended"
    return FOLLOWS if follower.is_ready else "begins"
