"""Makes normal forms and plans of queries of up to a megabyte; prints how the times grow.

    tools/run planning [FOLDER]     builds its program there, unless an earlier call did

A time is the least of fifteen runs, of the normal form and the plan alone; the three lengths of a
query are run in turn. The queries are steps of one path, operands of one chain, clauses of one
FLWOR expression, and quantified expressions side by side. The clauses are the bindings of one
`let`, of ever new variables or of one again and again, and those of the other kinds: each word that
binds nests what follows, and nesting goes to 128, so most bindings come after a comma.
"""

import sys

from bench.command_line import folder
from bench.doublings import measure, of_length
from tools.common.workspace import bench_program

USES = (
    "xq_atoms", "xq_lexer", "xq_expressions", "xq_parser", "xq_trees", "xq_sources",
    "xq_meaning", "xq_normal", "xq_plan", "sqlite_items", "indexmap",
)
MEGABYTE = 1_000_000
RUNS = 15


def steps(length: int) -> str:
    """A query of about that many bytes: a path with steps of six kinds in turn."""
    kinds = ("/a", "//b", "/..", "/@c", "//d[1]", "/preceding::e")
    return of_length(length, "a", lambda n: kinds[n % len(kinds)], "")


def operands(length: int) -> str:
    """A query of about that many bytes that adds digits in one chain."""
    return of_length(length, "1", lambda n: f" + {n % 10}", "")


def new_variables(length: int) -> str:
    """A query of about that many bytes that binds ever new variables by earlier ones."""
    return of_length(length, "let $v0 := 1",
                     lambda n: f", $v{n + 1} := ($v{n}, $v{n // 2})", " return $v0")


def one_variable(length: int) -> str:
    """A query of about that many bytes that binds one variable again and again."""
    return of_length(length, "let $v := 1", lambda n: ", $v := $v + 1", " return $v")


def other_clauses(length: int) -> str:
    """A query of about that many bytes: one `for`, then clauses that bind no new variable."""
    kinds = (" where $v = %d", " order by $v, $w descending", " group by $v",
             " stable order by $w + %d empty greatest")
    return of_length(length, "for $v at $w in 1 to 9",
                     lambda n: kinds[n % len(kinds)].replace("%d", str(n)), " return $v")


def quantifiers(length: int) -> str:
    """A query of about that many bytes: quantified expressions side by side."""
    part = ", (some $v%d in 1 to 3, $w in $v%d satisfies $w)"
    return of_length(length, "1", lambda n: part % (n % 1000, n % 1000), "")


QUERIES = (
    ("steps", MEGABYTE, steps),
    ("operands", MEGABYTE, operands),
    ("ever new variables", MEGABYTE, new_variables),
    ("one variable", MEGABYTE, one_variable),
    ("other clauses", MEGABYTE, other_clauses),
    ("quantifiers", MEGABYTE, quantifiers),
)


def main() -> int:
    """Builds and measures; status 1 where the times grow too fast."""
    with folder(__doc__) as room:
        return measure(bench_program(room, "planning", USES), QUERIES, "planned", RUNS)


if __name__ == "__main__":
    sys.exit(main())
