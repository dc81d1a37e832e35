"""Parses long chains, signs and open parentheses; prints times, and how they grow with the length.

    tools/run parser [FOLDER]     builds its program there, unless an earlier call did

A time is the least of five runs, without the lexer, the program's start and its input; the end of
the expression is in it. The last lines are the least stack, in kilobytes, on which a text nested
128 deep is parsed: parentheses, predicates below one operator of each level, and later items of
predicates, which took most of 323 nests that were tried.
"""

import resource
import subprocess
import sys
from collections.abc import Callable

from bench.command_line import folder
from tools.common.workspace import bench_program

USES = ("xq_atoms", "xq_lexer", "xq_expressions", "xq_parser", "sqlite_items")
CHAINS: tuple[tuple[str, int, str, Callable[[int], str]], ...] = (
    ("1+1+1 ..", 500_000, "expression", lambda count: "1" + "+1" * count),
    ("/a/a ..", 300_000, "expression", lambda count: "/a" * count),
    ("--- .. 1", 1_000_000, "expression", lambda count: "-" * count + "1"),
    ("((( ..", 1_000_000, "prof:DEPTH", lambda count: "(" * count),
)
# Microseconds too few for a ratio.
SHORT = 100
# Kilobytes between two sizes of stack that are tried.
STEP = 16
LEVELS = "1 or 1 and 1 = 1 || 1 to 1 + 1 * 1 union 1 intersect - 1/a["
NESTS = (
    ("(((1)))", "(" * 128 + "1" + ")" * 128),
    ("1 or .. a[1]", LEVELS * 128 + "1" + "]" * 128),
    ("1[1, 1[1, 1]]", "1[1," * 128 + "1" + "]" * 128),
)


def timed(program: str, text: str, wanted: str) -> tuple[int, int]:
    """The number of the text's tokens, and the least time of five runs in microseconds."""
    best: int | None = None
    for _ in range(5):
        done = subprocess.run([program], input=text.encode(), stdout=subprocess.PIPE, check=True)
        words = done.stdout.decode().split()
        if words[0] != wanted:
            sys.exit(f"{words[0]}, not {wanted}")
        tokens, time = int(words[1]), max(1, int(words[2]))
        best = time if best is None else min(best, time)
    assert best is not None
    return tokens, best


def is_parsed(program: str, text: str, kilobytes: int) -> bool:
    """Whether the text gives an expression on a stack of that size."""
    limit = kilobytes * 1024
    ran = subprocess.run(
        [program], input=text.encode(), stdout=subprocess.PIPE, stderr=subprocess.DEVNULL,
        preexec_fn=lambda: resource.setrlimit(resource.RLIMIT_STACK, (limit, limit)))
    return ran.returncode == 0 and ran.stdout.startswith(b"expression")


def least_stack(program: str, text: str) -> int:
    """The least stack on which the text is parsed, a multiple of STEP."""
    low, high = 0, 1024
    while high * STEP < 1_000_000 and not is_parsed(program, text, high * STEP):
        low, high = high, high * 2
    while high - low > 1:
        middle = (low + high) // 2
        if is_parsed(program, text, middle * STEP):
            high = middle
        else:
            low = middle
    return high * STEP


def measure(program: str) -> None:
    """Prints the times and the stacks."""
    print(f"{'text':<14} {'tokens':>10} {'ends as':>10} {'ms':>10} {'ratio':>8}")
    for name, most, wanted, make in CHAINS:
        before: int | None = None
        for count in (most // 4, most // 2, most):
            tokens, time = timed(program, make(count), wanted)
            ratio = f"{time / before:8.2f}" if before and before > SHORT else ""
            print(f"{name:<14} {tokens:10d} {wanted:>10} {time / 1000:10.2f} "
                  f"{ratio:>8}", flush=True)
            before = time
    for name, text in NESTS:
        print(f"{name:<14} {least_stack(program, text):10d} KB of stack", flush=True)


def main() -> None:
    """Builds and measures."""
    with folder(__doc__) as room:
        measure(bench_program(room, "parser", USES))


if __name__ == "__main__":
    main()
