"""Times of functions and operators over long inputs, and how they grow.

    tools/run functions [FOLDER]     builds its program there, unless an earlier call did

Each line is a function of a long list or text, evaluated over a source in memory, eight times in
one query: milliseconds of one of the eight for 100,000 and for 1,000,000 items or characters, the
least of five turns, less the time of the query without the function; and how many times as long the
larger takes, at most 15. An argument is copied for each call, which is counted.
"""
import subprocess
import sys

from bench.command_line import folder
from bench.evaluation import TURNS, USES
from tools.common.workspace import bench_program

SIZES = (100_000, 1_000_000)
CALLS_EACH = 8
# The most that a time may grow where the input grows tenfold, and milliseconds too few for a ratio.
MOST, SHORT = 15, 0.5
NUMBERS = "(1 to {n})"
WORDS = 'for $i in 1 to {n} return concat("n", $i)'
TEN = 'for $i in 1 to {n} return concat("n", $i mod 10)'
TEXT = 'string-join((for $i in 1 to {n} return "a"), "")'
SPACED = 'string-join((for $i in 1 to {n} idiv 4 return " a b"), "")'
NODES = "for $i in 1 to {n} idiv 2 return element e {{}}"
PART = 'concat(substring($t, 1, {n} idiv 10), "b")'

# Each function: its name, the input that is bound to $t, and the call.
CALLS = (
    ("count", NUMBERS, "count($t)"),
    ("sum", NUMBERS, "sum($t)"),
    ("min", NUMBERS, "min($t)"),
    ("reverse", NUMBERS, "count(reverse($t))"),
    ("tail", NUMBERS, "count(tail($t))"),
    ("= of no pair", NUMBERS, "$t = 0"),
    ("distinct-values", WORDS, "count(distinct-values($t))"),
    ("distinct-values of ten", TEN, "count(distinct-values($t))"),
    ("string-join", WORDS, 'string-length(string-join($t, ", "))'),
    ("union", NODES, "count($t | reverse($t))"),
    ("intersect", NODES, "count($t intersect reverse($t))"),
    ("except", NODES, "count($t except tail($t))"),
    ("string-length", TEXT, "string-length($t)"),
    ("concat", TEXT, "string-length(concat($t, $t))"),
    ("substring", TEXT, "string-length(substring($t, {n} idiv 2))"),
    ("normalize-space", SPACED, "string-length(normalize-space($t))"),
    ("starts-with", TEXT, "starts-with($t, " + PART + ")"),
    ("ends-with", TEXT, "ends-with($t, " + PART + ")"),
    ("contains", TEXT, "contains($t, " + PART + ")"),
    ("substring-before", TEXT, "substring-before($t, " + PART + ")"),
    ("substring-after", TEXT, "substring-after($t, " + PART + ")"),
)


def times(program: str, size: int) -> list[tuple[float, float]]:
    """Milliseconds of each call, and of its input alone."""
    lines = ["document {element lib {}}"]
    for _, given, call in CALLS:
        repeated = f"count(for $k in 1 to {CALLS_EACH} return {call})"
        parts = ("count($t)", repeated)
        lines += [("let $t := " + given + " return " + part).format(n=size) for part in parts]
    text = "\n".join(lines)
    done = subprocess.run([program], input=text.encode(), stdout=subprocess.PIPE, check=True)
    found = [line.split() for line in done.stdout.decode().splitlines()]
    if len(found) != 2 * TURNS * 2 * len(CALLS) or any(len(words) != 4 for words in found):
        sys.exit(done.stdout.decode()[-300:])
    # (a query makes its input, so turns that begin with empty caches are as the others)
    groups = [found[n:n + 2 * TURNS] for n in range(0, len(found), 2 * TURNS)]
    least = [min(int(words[0]) for words in group) / 1000 for group in groups]
    pairs = zip(least[::2], least[1::2], strict=True)
    return [(max(0.0, whole - given) / CALLS_EACH, given) for given, whole in pairs]


def main() -> int:
    """Builds and measures; status 1 where a time grows too fast."""
    with folder(__doc__) as room:
        program = bench_program(room, "evaluation", USES)
        small, large = times(program, SIZES[0]), times(program, SIZES[1])
    print("| Function | 100,000 | 1,000,000 | growth | its input |")
    print("|---|---|---|---|---|")
    within = True
    for (name, *_), (before, _), (time, given) in zip(CALLS, small, large, strict=True):
        ratio = time / before if before > SHORT else None
        within = within and (ratio is None or ratio <= MOST)
        shown = "" if ratio is None else f"{ratio:.1f}"
        print(f"| {name} | {before:.1f} | {time:.1f} | {shown} | {given:.0f} |")
    print(f"each at most {MOST} times for ten times the input: {'yes' if within else 'no'}")
    return 0 if within else 1


if __name__ == "__main__":
    sys.exit(main())
