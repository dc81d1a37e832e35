"""Queries that take what the evaluator allows, and one more: time, memory and stack of each.

    tools/run limits [--server WORDS] [--seconds N] [--memory MB]

Each query has a server of its own, on 8 MB of stack and with the allocator's settings of ./serve,
which holds a library of two books under `b`. The script prints the milliseconds to the reply, the
peak of resident memory, and the stack that was touched. It asks queries that only memory limits
again with an address space of --memory megabytes (4,096): each must be refused for memory, and the
same server must answer the next query. Last come queries that would take hours. They are killed
after --seconds (20), and their memory by then is printed. The status is 1 if an answer is wrong.
"""

import argparse
import pathlib
import resource
import shlex
import sys
import time
from dataclasses import dataclass

from tools.common.harness import LIBRARY, Server, built, frame, store
from tools.common.workspace import use_allocator

STACK = 8 << 20
ONE_LOOP = "for $x in 1 return "


@dataclass(frozen=True)
class Asked:
    """A query and its reply."""

    name: str
    query: str
    reply: tuple[int, str]


def children(count: int) -> str:
    """A query that builds an element of so many children, and counts them."""
    return f"count(element a {{for $i in 1 to {count} return element b {{}}}}/*)"


def text(rest: int) -> str:
    """A query for a text of 16,000,000 characters and so many more."""
    return ('string-join((for $i in 1 to 1000000 return "0123456789abcdef", '
            f'for $i in 1 to {rest} return "0"), "")')


def nested(before: str, middle: str, after: str, count: int) -> str:
    """A query that is nested so many times."""
    return before * count + middle + after * count


def levels(count: int) -> str:
    """So many elements in one another."""
    return nested("element a {", "", "}", count)


def tuples(clause: str, outer: int, inner: int) -> str:
    """A query that counts what a clause makes of the pairs of two ranges."""
    return f"count(for $a in 1 to {outer}, $b in 1 to {inner} {clause})"


def bindings(count: int) -> str:
    """A `let` of so many variables. Each uses the one before."""
    more = "".join(f", $v{number} := $v{number - 1} + 1" for number in range(1, count))
    return f"let $v0 := 1{more} return $v{count - 1}"


GROUP = "group by $k := $a * 10000 + $b return $k"
SORT = "order by -($a * 10000 + $b) return $a"
JOIN = "where $a = $b return 1"
LIMITS = (
    Asked("a tree of 1,000,000 nodes", children(999_999), (0, "999999")),
    Asked("one node more", children(1_000_000), (1, "prof:NODES")),
    Asked("a range of 1,000,000", "count(1 to 1000000)", (0, "1000000")),
    Asked("one item more", "count(1 to 1000001)", (1, "prof:RANGE")),
    Asked("a reply of 16,777,216 bytes", text(777_214),
          (0, '"' + "0123456789abcdef" * 1_000_000 + "0" * 777_214 + '"')),
    Asked("one byte more", text(777_215), (1, "prof:REPLY")),
    Asked("101 elements in one another", levels(101), (0, levels(101))),
    Asked("one level more", levels(102), (1, "prof:LEVEL")),
    Asked("128 nested parentheses", nested("(", "1", ")", 128), (0, "1")),
    Asked("one more", nested("(", "1", ")", 129), (1, "prof:DEPTH")),
    Asked("128 nested for", ONE_LOOP * 128 + "1", (0, "1")),
    Asked("one more", ONE_LOOP * 129 + "1", (1, "prof:DEPTH")),
    Asked("127 nested predicates", nested("1[", "1", "]", 127), (0, "1")),
    Asked("nested further", nested("1[", "1", "]", 129), (1, "prof:DEPTH")),
    Asked("10,000 predicates in a row", 'count(doc("b")//book' + "[. = .]" * 10_000 + ")",
          (0, "2")),
    Asked("1,000 where clauses", "for $x in 1 " + "where $x = 1 " * 1_000 + "return $x", (0, "1")),
    Asked("1,000 variables of a let", bindings(1_000), (0, "1000")),
    Asked("1,000 variables of a for", "for " + ", ".join(["$x in 1"] * 1_000) + " return $x",
          (0, "1")),
    Asked("1,000,000 tuples in groups", tuples(GROUP, 1000, 1000), (0, "1000000")),
    Asked("2,000,000", tuples(GROUP, 2000, 1000), (0, "2000000")),
    Asked("1,000,000 tuples in order", tuples(SORT, 1000, 1000), (0, "1000000")),
    Asked("2,000,000", tuples(SORT, 2000, 1000), (0, "2000000")),
    Asked("1,000,000 pairs joined", tuples(JOIN, 1000, 1000), (0, "1000")),
    Asked("2,000,000", tuples(JOIN, 2000, 1000), (0, "1000")),
)
ONLY_MEMORY = (
    Asked("10^12 tuples", tuples("return 1", 1_000_000, 1_000_000), (2, "memory")),
    Asked("a text doubled 40 times",
          'let $a0 := "0123456789abcdef" '
          + " ".join(f"let $a{n + 1} := concat($a{n}, $a{n})" for n in range(40))
          + " return string-length($a40)", (2, "memory")),
)
# (10^12 tuples are no longer among these: they fill 24 GB within 20 seconds, see ONLY_MEMORY)
ENDLESS = (
    ("some of 10^12 pairs",
     "some $a in 1 to 1000000, $b in 1 to 1000000 satisfies $a + $b = 0"),
)


def limited(addresses: int) -> None:
    """The process gets 8 MB of stack, and so many bytes of addresses where there are any."""
    resource.setrlimit(resource.RLIMIT_STACK, (STACK, STACK))
    if addresses:
        resource.setrlimit(resource.RLIMIT_AS, (addresses, addresses))


def started(command: list[str], addresses: int = 0) -> Server:
    """A server with the library under `b`."""
    server = Server(command, preexec_fn=lambda: limited(addresses))
    if server.ask(b"S", store(b"b", LIBRARY)) != (0, b"stored"):
        sys.exit("limits: the library was not stored")
    return server


def held(server: Server) -> tuple[float, float]:
    """The most memory that was resident, in MB, and the stack that was touched, in KB."""
    folder = pathlib.Path("/proc") / str(server.process.pid)
    lines = (folder / "status").read_text(encoding="ascii").splitlines()
    most = next(int(it.split()[1]) for it in lines if it.startswith("VmHWM"))
    of_stack = (folder / "smaps").read_text(encoding="ascii").split("[stack]", 1)[1].splitlines()
    touched = next(int(it.split()[1]) for it in of_stack if it.startswith("Rss"))
    return most / 1024, touched


def asked(server: Server, it: Asked) -> bool:
    """Asks the query, prints what it took, and says whether it had its reply."""
    begin = time.perf_counter()
    reply = server.ask(b"Q", it.query.encode())
    spent = (time.perf_counter() - begin) * 1000
    if reply is None or (reply[0], reply[1].decode()) != it.reply:
        print(f"{it.name}: {reply and (reply[0], reply[1][:60])} in place of {it.reply[1][:60]!r}")
        return False
    most, touched = held(server)
    told = reply[1].decode() if len(reply[1]) < 20 else f"{len(reply[1]):,} bytes"
    print(f"{it.name:30} {told:18} {spent:9.0f} ms {most:8.0f} MB {touched:7.0f} KB", flush=True)
    return True


def of_limits(command: list[str]) -> list[bool]:
    """Asks for what is allowed and for one more; whether each had its reply."""
    right = []
    for it in LIMITS:
        server = started(command)
        right.append(asked(server, it))
        server.kill()
    return right


def of_memory(command: list[str], addresses: int) -> list[bool]:
    """Asks for more than memory, and then something small; whether each had its reply."""
    right = []
    for it in ONLY_MEMORY:
        server = started(command, addresses)
        right.append(asked(server, it))
        right.append(asked(server, Asked("  and then", 'count(doc("b")//book)', (0, "2"))))
        server.kill()
    return right


def of_hours(command: list[str], seconds: float) -> list[bool]:
    """Asks what would take hours, and kills the server; whether there was no reply."""
    right = []
    for name, query in ENDLESS:
        server = started(command)
        server.send(frame(b"Q", query.encode()))
        time.sleep(seconds)
        right.append(server.process.poll() is None)
        most, touched = held(server)
        server.kill()
        print(f"{name:30} {'killed':18} {seconds * 1000:9.0f} ms {most:8.0f} MB {touched:7.0f} KB",
              flush=True)
    return right


def main() -> int:
    """Asks all queries; gives the exit status."""
    words = argparse.ArgumentParser(description=(__doc__ or "").split("\n")[0])
    words.add_argument(
        "--server", help="the server's command; the built program where none is named")
    words.add_argument("--seconds", type=float, default=20)
    words.add_argument("--memory", type=int, default=4096)
    given = words.parse_args()
    use_allocator()
    command = shlex.split(given.server) if given.server else [str(built())]
    print(f"{'query':30} {'reply':18} {'time':>12} {'the most':>11} {'stack':>10}")
    right = of_limits(command)
    right += of_memory(command, given.memory << 20)
    right += of_hours(command, given.seconds)
    return 0 if all(right) else 1


if __name__ == "__main__":
    sys.exit(main())
