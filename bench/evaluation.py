"""Times of queries over a document in memory: a source of fragments, no server and no database.

    tools/run evaluation [--engines] [FOLDER]

Builds its program in the folder, unless an earlier call did. The queries and the document are those
of bench/queries.py, of 10,000 and of 100,000 elements. For each: the milliseconds for both sizes,
the least of four runs of five turns, reading and planning of the query included; the same of turns
that begin with empty caches, and how many times as long the larger takes then; and the rows that it
reads. With --engines follow the least milliseconds of other
engines for 100,000 elements (bench/engines.py), as far as they are installed, of 15 runs after 5,
right after ours. The smaller document lies in the processor's caches from one turn to the next and
the larger doesn't, so growth is judged where neither does.
"""
import argparse
import pathlib
import subprocess
import sys
import tempfile
from collections.abc import Iterable, Sequence
from typing import TypeAlias

from bench.bounds import figure, row
from bench.engines import DATABASE, NODES, SAXON, driven, in_turn, warm_up
from bench.queries import LARGE, QUERIES, document
from tools.common.workspace import bench_program

USES = ("xq_atoms", "xq_queries", "xq_sources")
# The most that a time may grow where the document grows tenfold.
MOST = 13
TURNS = 5
# How often both sizes are run, one after the other, since the machine's speed changes.
ROUNDS = 4

# The least milliseconds of a query, the least with empty caches, and the rows read.
Figures: TypeAlias = tuple[float, float, int]


def figures(program: str, elements: int) -> list[Figures]:
    """For each query the least milliseconds, the least with empty caches, and the rows read."""
    lines = [document(elements)] + [query for _, query in QUERIES]
    text = "\n".join(line.replace("\n", " ") for line in lines)
    done = subprocess.run([program], input=text.encode(), stdout=subprocess.PIPE, check=True)
    found = [line.split() for line in done.stdout.decode().splitlines()]
    if len(found) != 2 * TURNS * len(QUERIES) or any(len(words) != 4 for words in found):
        sys.exit(done.stdout.decode()[-300:])
    turns = [[int(word) for word in words] for words in found]
    groups = [turns[n:n + TURNS] for n in range(0, len(turns), TURNS)]
    least = [min(turn[0] for turn in group) / 1000 for group in groups]
    return [(near, far, group[-1][2])
            for near, far, group in zip(
                least[::2], least[1::2], groups[::2], strict=False)]


def least(runs: Iterable[Sequence[Figures]]) -> list[Figures]:
    """For each query the least times of several runs."""
    return [(min(turn[0] for turn in turns), min(turn[1] for turn in turns), turns[0][2])
            for turns in zip(*runs, strict=True)]


def of_engines(is_wanted: bool, scratch: str) -> tuple[list[str], list[list[str]]]:
    """The names of the other engines, and for each query the least milliseconds of each."""
    wanted = (SAXON, NODES, DATABASE) if is_wanted else ()
    with driven(wanted, document(LARGE), pathlib.Path(scratch)) as engines:
        warm_up(engines, [query for _, query in QUERIES])
        found = [in_turn(engines, query) for _, query in QUERIES]
    return [engine.name for engine in engines], [
        [figure(min(run.whole for run in runs)) for runs in spent.values()] for spent in found]


def main() -> int:
    """Builds and measures; status 1 where a time grows too fast."""
    words = argparse.ArgumentParser(description=__doc__.partition("\n")[0])
    words.add_argument("--engines", action="store_true", help="times of other engines beside")
    words.add_argument("folder", nargs="?")
    given = words.parse_args()
    with tempfile.TemporaryDirectory() as scratch:
        program = bench_program(given.folder or scratch, "evaluation", USES)
        rounds = [(figures(program, LARGE // 10), figures(program, LARGE)) for _ in range(ROUNDS)]
        names, others = of_engines(given.engines, scratch)
    small, large = (least(runs) for runs in zip(*rounds, strict=True))
    heads = ("Query", "10,000", "100,000", "from memory", "from memory", "growth", "rows read")
    print(row([*heads, *names]))
    print("|" + "---|" * len([*heads, *names]))
    within = True
    for (name, _), (little, before, _), (much, time, rows), beside in zip(
            QUERIES, small, large, others, strict=False):
        within = within and time / before <= MOST
        ours = [f"{it:.1f}" for it in (little, much, before, time, time / before)]
        print(row([name, *ours, rows, *beside]))
    print(f"each at most {MOST} times for ten times the elements: {'yes' if within else 'no'}")
    return 0 if within else 1


if __name__ == "__main__":
    sys.exit(main())
