"""Bounds of a request: how long the server may take for it, and how much memory it may use.

All commands that start a server, the multiplexer, the page and the library share these options,
defaults and texts:

    add_options(parser)                 --seconds N, --memory SIZE; 0 is no bound
    bounds = bounds_of(parser.parse_args())
    bounds.seconds, bounds.memory       None if there is no bound
"""

import argparse
import os
import re
from dataclasses import dataclass, field
from pathlib import Path

from xqs.errors import XqError

SECONDS = 60.0
"""How many seconds a server may take for a request, by default."""
LONGEST = 1e9
SHOWN_ADDRESSES = 10
"""How many addresses of lost documents a message names."""
_UNITS = {"": 1, "K": 1 << 10, "M": 1 << 20, "G": 1 << 30, "T": 1 << 40}
_SIZE = re.compile(r"(\d+(?:\.\d+)?)\s*([KMGT]?)(?:i?B)?", re.IGNORECASE)
_ROOT = Path("/sys/fs/cgroup")
_GROUPS = (Path("/sys/fs/cgroup/memory.max"), Path("/sys/fs/cgroup/memory/memory.limit_in_bytes"))
"""The files with a container's bound, in both versions of control groups."""


class NoBound(XqError, ValueError):
    """A text or number that is no bound of time or memory."""


def half_of_memory() -> int:
    """Half of the memory that this machine has, or that this container may use, in bytes."""
    whole = os.sysconf("SC_PHYS_PAGES") * os.sysconf("SC_PAGE_SIZE")
    for file in (*_GROUPS, *_own_groups()):
        try:
            whole = min(whole, int(file.read_text(encoding="ascii")))
        except (OSError, ValueError):
            continue
    return whole // 2


def _own_groups() -> list[Path]:
    """The files with the bounds of this process's control group, as a systemd unit has them, and of
    the groups around it."""
    try:
        text = Path("/proc/self/cgroup").read_text(encoding="utf-8")
    except (OSError, ValueError):
        return []
    names = [line.removeprefix("0::/") for line in text.splitlines() if line.startswith("0::/")]
    group = Path(names[0]) if names else Path()
    return [_ROOT / it / "memory.max" for it in (group, *group.parents)]


@dataclass(frozen=True)
class Bounds:
    """How many seconds a server may take for a request, and how many bytes of memory it may use.
    None is no bound.

    The bound on memory limits its address space (RLIMIT_AS). The server takes little of that before
    it uses it. A request that needs more gets status 2, `memory`, and the server goes on.
    """

    seconds: float | None = SECONDS
    memory: int | None = field(default_factory=half_of_memory)

    def __post_init__(self) -> None:
        """Raises NoBound unless the number is above 0."""
        if self.seconds is not None and not 0 < self.seconds <= LONGEST:
            raise NoBound(f"not a number of seconds: {self.seconds!r}")
        if self.memory is not None and self.memory <= 0:
            raise NoBound(f"not a number of bytes: {self.memory!r}")


def seconds_of(text: str) -> float | None:
    """A number of seconds, None for 0; for argparse."""
    try:
        number = float(text)
    except ValueError:
        raise argparse.ArgumentTypeError(f"not a number of seconds: {text!r}") from None
    if not 0 <= number <= LONGEST:
        raise argparse.ArgumentTypeError(f"from 0 to {LONGEST:,.0f} seconds, not {text}")
    return number or None


def memory_of(text: str) -> int | None:
    """A number of bytes, as `4G` or `500M`, None for 0; for argparse."""
    found = _SIZE.fullmatch(text.strip())
    if not found:
        raise argparse.ArgumentTypeError(f"not a size, as 4G or 500M: {text!r}")
    return int(float(found[1]) * _UNITS[found[2].upper()]) or None


def shown_size(size: int) -> str:
    """A number of bytes for people: `12.0 GB`."""
    unit = "G" if size >= _UNITS["G"] else "M"
    return f"{size / _UNITS[unit]:.{1 if unit == 'G' else 0}f} {unit}B"


def add_options(parser: argparse.ArgumentParser) -> None:
    """Adds `--seconds` and `--memory`, which `bounds_of` reads."""
    group = parser.add_argument_group("bounds of a request")
    half = half_of_memory()
    group.add_argument(
        "--seconds", type=seconds_of, metavar="N", default=SECONDS,
        help="how many seconds the server may take for one request, before it is ended and started "
        "again (%(default)g; 0: any time)")
    group.add_argument(
        "--memory", type=memory_of, metavar="SIZE", default=half,
        help="how much memory the server may use, as 4G: a request that needs more is refused "
        f"(half of this machine's, {shown_size(half)}; 0: any)")


def bounds_of(given: argparse.Namespace) -> Bounds:
    """The bounds that the options give."""
    return Bounds(given.seconds, given.memory)


def overdue(seconds: float) -> str:
    """The message's end, after the request, when the server took too long for it."""
    return f"took over {seconds:g} seconds (--seconds N allows more, 0 any time)"


def named(addresses: set[str]) -> str:
    """Addresses for a message: the first ones, and how many more there are."""
    names = sorted(addresses)
    more = f", and {len(names) - SHOWN_ADDRESSES:,} more" if len(names) > SHOWN_ADDRESSES else ""
    return ", ".join(names[:SHOWN_ADDRESSES]) + more


def lost(addresses: set[str]) -> str:
    """The message about documents in the memory of a server that has ended."""
    return (f"the documents were in memory and are lost: {len(addresses):,} of them"
            + (f": {named(addresses)}" if addresses else ""))
