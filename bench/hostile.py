"""Long texts on one server with 8 MB of stack: each has its answer, and what doubling it costs.

    tools/run hostile [--server WORDS]

Prints the milliseconds of each text at a quarter, a half and the whole of its size, and how many
times as long each doubling takes. The status is 1 if an answer is wrong.
"""
import argparse
import itertools
import resource
import sys
import time
from collections.abc import Callable
from typing import TypeAlias

from tools.common.harness import LIBRARY, Server, built, store

STACK = 8 * 1024 * 1024

# The status of a reply and its text.
Answer: TypeAlias = tuple[int, str]

# What is asked, its greatest size, and from a size to the query and its reply.
GROWING: list[tuple[str, int, Callable[[int], tuple[str, Answer]]]] = [
    ("1+1+1..", 500_000, lambda n: ("1" + "+1" * n, (0, str(n + 1)))),
    ("---..1", 1_000_000, lambda n: ("-" * n + "1", (0, "1"))),
    ("(((..", 1_000_000, lambda n: ("(" * n, (1, "prof:DEPTH"))),
    ('doc("b")/a/a..', 300_000, lambda n: ('doc("b")' + "/a" * n, (0, "()"))),
    (
        "some $v in 1, ..",
        20_000,
        lambda n: ("some " + ", ".join(["$v in 1"] * n) + " satisfies $v = 1", (0, "true()")),
    ),
]
FIXED: list[tuple[str, str, Answer]] = [
    ("128 times for", "for $x in 1 return " * 128 + "1", (0, "1")),
    ("129 times for", "for $x in 1 return " * 129 + "1", (1, "prof:DEPTH")),
    ("200 FLWORs", ", ".join(["(for $x in 1 return $x)"] * 200), (0, ", ".join(["1"] * 200))),
    ("128 parentheses", "(" * 128 + "1" + ")" * 128, (0, "1")),
]


def narrow() -> None:
    """The process gets 8 MB of stack."""
    resource.setrlimit(resource.RLIMIT_STACK, (STACK, STACK))


def asked(server: Server, query: str, wanted: Answer) -> float:
    """Milliseconds to the reply; ends the run where it is another one."""
    begin = time.perf_counter()
    reply = server.ask(b"Q", query.encode())
    spent = (time.perf_counter() - begin) * 1000
    if reply is None or (reply[0], reply[1].decode()) != wanted:
        sys.exit(f"{query[:40]}..: {reply and reply[1][:60]!r} in place of {wanted[1][:60]!r}")
    return spent


def main() -> None:
    """Asks all texts and prints their times; ends with 1 where an answer is another one."""
    parser = argparse.ArgumentParser(
        description=__doc__, formatter_class=argparse.RawTextHelpFormatter)
    parser.add_argument(
        "--server", help="the server's command; the built program where none is named")
    arguments = parser.parse_args()
    server = Server(arguments.server.split() if arguments.server else [built()], preexec_fn=narrow)
    server.ask(b"S", store(b"b", LIBRARY))
    for name, size, text in GROWING:
        spent = [min(asked(server, *text(size // part)) for _ in range(3)) for part in (4, 2, 1)]
        doublings = [after / before for before, after in itertools.pairwise(spent)]
        print(
            f"{name:18} {size:9,}" + "".join(f" {one:9.1f}" for one in spent)
            + "   " + ", ".join(f"{one:.1f}" for one in doublings),
            flush=True,
        )
    for name, query, wanted in FIXED:
        print(f"{name:18} {asked(server, query, wanted):9.1f}", flush=True)
    status, line = server.end()
    print(f"end: status {status} {line}")


if __name__ == "__main__":
    main()
