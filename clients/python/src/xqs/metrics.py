"""What a multiplexer counts, in two forms: text, and the format of Prometheus."""

import time
from collections import Counter
from collections.abc import Callable, Iterable, Iterator
from dataclasses import dataclass, field

from xqs.bounds import shown_size
from xqs.mux_peer import Request
from xqs.protocol import Kind, Status

BOUNDS = (0.001, 0.0025, 0.005, 0.01, 0.025, 0.05, 0.1, 0.25, 0.5, 1.0, 2.5, 5.0, 10.0, 30.0, 60.0)
"""The upper bounds of the buckets of times, in seconds."""
KINDS = {Kind.QUERY.value: "query", Kind.STORE.value: "store", Kind.DROP.value: "drop",
         Kind.LIST.value: "list"}
OTHER = "other"
STATUSES = ("done", "refused", "wanting", OTHER)
"""The names of the statuses, and of an unknown one."""
CONTENT_TYPE = "text/plain; version=0.0.4; charset=utf-8"
SHOWN = 100
"""How many characters of a request a line of the log shows."""
LINES = 20
"""How many lines the log may get in a second; further ones are only counted."""


def holds_in(on_file: bool) -> str:
    """How a report names the place where a server has its documents."""
    return "file" if on_file else "memory"


@dataclass(frozen=True)
class ServerReport:
    """The figures of one server: its number, where it has the documents, its state, the frames sent
    to it, the requests that wait there, its memory in bytes, and how often it was started again."""

    number: int
    holds: str
    state: str
    frames: int
    line: int
    memory: int
    restarts: int


@dataclass(frozen=True)
class Report:
    """The figures of a multiplexer: its servers, its clients, what waits, the writes carried out,
    the reads compared, and why writes have stopped."""

    servers: list[ServerReport]
    clients: int
    reads_waiting: int = 0
    writes_waiting: int = 0
    compared: int = 0
    differs: str = ""
    program: str = ""


@dataclass
class Times:
    """Times in buckets: how many were at most each bound, their sum, and their number."""

    buckets: list[int] = field(default_factory=lambda: [0] * len(BOUNDS))
    total: float = 0.0
    count: int = 0

    def note(self, seconds: float) -> None:
        """Counts a time."""
        self.total += seconds
        self.count += 1
        for number, bound in enumerate(BOUNDS):
            if seconds <= bound:
                self.buckets[number] += 1
                return

    def cumulated(self) -> Iterator[tuple[str, int]]:
        """Each bound with the number of times up to it."""
        so_far = 0
        for bound, count in zip(BOUNDS, self.buckets, strict=True):
            so_far += count
            yield f"{bound:g}", so_far
        yield "+Inf", self.count


class Metrics:
    """Counts the replies that leave, by kind and status, and logs those that are refused or slow.

    A time is that from the arrival of a request to the departure of its reply. `slow` is the time
    in seconds from which a request is logged; `say` gets the lines.
    """

    def __init__(self, slow: float, say: Callable[[str], None]) -> None:
        self.began = time.time()
        self.replies: Counter[tuple[str, str]] = Counter()
        self.times = {kind: Times() for kind in (*KINDS.values(), OTHER)}
        self._slow, self._say = slow, say
        self._second, self._lines, self._left_out = 0, 0, 0

    def note(self, request: Request) -> None:
        """Counts a reply that leaves."""
        reply = request.reply or b"\0"
        seconds = time.monotonic() - request.since
        kind = KINDS.get(request.kind, OTHER)
        self.replies[kind, STATUSES[min(reply[0], len(STATUSES) - 1)]] += 1
        self.times[kind].note(seconds)
        if reply[0] != Status.DONE or seconds >= self._slow:
            self._tell(request, reply, seconds)

    def _tell(self, request: Request, reply: bytes, seconds: float) -> None:
        second = int(time.monotonic())
        if second != self._second:
            if self._left_out:
                self._say(f"{self._left_out} more requests were refused or slow")
            self._second, self._lines, self._left_out = second, 0, 0
        if self._lines >= LINES:
            self._left_out += 1
            return
        self._lines += 1
        how = "slow" if reply[0] == Status.DONE else f"refused {reply[1:].decode(errors='replace')}"
        self._say(f"{how}, {seconds:.3f} s: {shown(request)}")


def shown(request: Request) -> str:
    """A request in one line, cut if it is long."""
    text = request.payload[1:1 + 4 * SHOWN].decode(errors="replace")
    if request.kind == Kind.STORE and len(request.payload) > 1:
        text = text[1:1 + request.payload[1]]
    cut = ".." if len(text) > SHOWN else ""
    kind = request.kind.decode("latin-1") or "an invalid frame"
    return f"{kind} {text[:SHOWN]!r}{cut}, {len(request.payload)} bytes"


def prometheus(report: Report, metrics: Metrics) -> str:
    """All figures in the format that Prometheus reads."""
    return "\n".join([*_requests(metrics), *_servers(report), *_whole(report, metrics)]) + "\n"


def _head(name: str, kind: str, text: str) -> list[str]:
    return [f"# HELP {name} {text}", f"# TYPE {name} {kind}"]


def _family(name: str, kind: str, text: str, samples: Iterable[tuple[str, float]]) -> list[str]:
    """A figure with its samples and their labels."""
    return _head(name, kind, text) + [f"{name}{labels} {value:g}" if value % 1 else
                                      f"{name}{labels} {int(value)}" for labels, value in samples]


def _requests(metrics: Metrics) -> list[str]:
    counts = [(f'{{kind="{kind}",status="{status}"}}', float(count))
              for (kind, status), count in sorted(metrics.replies.items())]
    lines = _family(
        "xqs_replies_total", "counter", "Replies that left, by kind and status.", counts)
    name = "xqs_request_seconds"
    lines += _head(name, "histogram", "From the arrival of a request to the end of its reply.")
    for kind, times in metrics.times.items():
        lines += [f'{name}_bucket{{kind="{kind}",le="{bound}"}} {count}'
                  for bound, count in times.cumulated()]
        lines += [f'{name}_sum{{kind="{kind}"}} {times.total:.6f}',
                  f'{name}_count{{kind="{kind}"}} {times.count}']
    return lines


def _servers(report: Report) -> list[str]:
    def each(value: Callable[[ServerReport], float]) -> list[tuple[str, float]]:
        return [(f'{{server="{it.number}",holds="{it.holds}"}}', value(it)) for it in
                report.servers]

    return [
        *_family("xqs_server_ready", "gauge", "Whether a server answers reads.",
                 each(lambda it: float(it.state == "ready"))),
        *_family("xqs_server_frames", "gauge", "Frames sent to a server since its start.",
                 each(lambda it: it.frames)),
        *_family("xqs_server_line", "gauge", "Requests that a server has not answered yet.",
                 each(lambda it: it.line)),
        *_family("xqs_server_memory_bytes", "gauge", "Resident memory of a server.",
                 each(lambda it: it.memory)),
        *_family("xqs_server_restarts_total", "counter", "How often a server was started again.",
                 each(lambda it: it.restarts)),
    ]


def _whole(report: Report, metrics: Metrics) -> list[str]:
    figures = [
        ("xqs_clients", "gauge", "Clients that are connected.", report.clients),
        ("xqs_reads_waiting", "gauge", "Reads that wait for a server.", report.reads_waiting),
        ("xqs_writes_waiting", "gauge", "Stores and drops that wait.", report.writes_waiting),
        ("xqs_compared_total", "counter", "Reads whose replies of all servers were compared.",
         report.compared),
        ("xqs_differ", "gauge", "Whether servers gave different replies, and nothing is written.",
         int(bool(report.differs))),
        ("xqs_start_time_seconds", "gauge", "When the multiplexer was started.",
         int(metrics.began)),
    ]
    return [line for name, kind, text, value in figures
            for line in _family(name, kind, text, [("", float(value))])]


def status_text(report: Report, metrics: Metrics) -> str:
    """The figures for people, in lines."""
    up = int(time.time() - metrics.began)
    lines = [f"up {up // 3600}:{up // 60 % 60:02}:{up % 60:02}, {report.clients} clients, "
             f"{report.reads_waiting} reads and {report.writes_waiting} writes wait"]
    lines += [f"server {it.number}: {it.state}, documents in {it.holds}, {it.frames:,} frames, "
              f"{it.line} in line, {shown_size(it.memory)}, started again {it.restarts} times"
              for it in report.servers]
    for kind, times in metrics.times.items():
        if times.count:
            by = ", ".join(f"{metrics.replies[kind, status]:,} {status}"
                           for status in STATUSES if metrics.replies[kind, status])
            lines.append(f"{kind}: {by}; {1000 * times.total / times.count:.1f} ms on average")
    if len(report.servers) > 1:
        lines.append(f"{report.compared:,} reads were compared")
    if report.program:
        lines.append(f"program: {report.program}")
    if report.differs:
        lines.append(f"NOTHING IS STORED OR DROPPED: {report.differs}")
    return "\n".join(lines) + "\n"
