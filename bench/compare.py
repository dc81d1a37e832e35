"""Times of the queries of bench/queries.py over two programs, over a document of 20,000 elements.

    tools/run compare PROVED OTHER [ROUNDS]              21 repetitions where none are named
    tools/run compare ./serve './serve --unproved'

PROVED and OTHER are commands of a server. The script shows the milliseconds of the document's
store, of the first reply after it, and for each query the least of its repeated replies, which
other work on the machine disturbs least; and how many times as long OTHER takes. The status is 1 if
a query takes more than three times as long, the bound of `./serve --unproved`. The store, which
runs once, is shown without a bound.
"""

from __future__ import annotations

import shlex
import sys

from bench.engines import Program
from bench.queries import QUERIES, document
from tools.common import command_line

ELEMENTS = 20_000
MOST_TIMES = 3.0


def least(command: str, rounds: int) -> dict[str, float]:
    """By name, the milliseconds of the document's store, of the first reply, and of each query."""
    server = Program(command, shlex.split(command))
    spent = {"stored": server.put(document(ELEMENTS)).whole}
    [first] = server.run(QUERIES[0][1], 1)
    spent["first reply"] = first.whole
    for name, query in QUERIES:
        spent[name] = min(it.whole for it in server.run(query, rounds))
    server.end()
    return spent


def main() -> int:
    """Prints the table; status 1 where a query takes too many times as long."""
    words = command_line.parser(__doc__)
    words.add_argument("proved")
    words.add_argument("other")
    words.add_argument("rounds", nargs="?", type=int, default=21)
    given = words.parse_args()
    proved, other = (least(command, given.rounds) for command in (given.proved, given.other))
    times = {name: other[name] / spent for name, spent in proved.items()}
    print(f"{'milliseconds':20} {'proved':>9} {'other':>9} {'times':>7}")
    for name, spent in proved.items():
        print(f"{name:20} {spent:9.2f} {other[name]:9.2f} {times[name]:7.2f}")
    return 1 if max(times[name] for name, _ in QUERIES) > MOST_TIMES else 0


if __name__ == "__main__":
    sys.exit(main())
