"""Checks queries of up to a megabyte; prints times, and how they grow with the length.

    tools/run statics [FOLDER]     builds its program there, unless an earlier call did

A time is the least of 75 runs, of the checks alone, and begins with empty caches; the three lengths
of a query are run in turn. The queries are bindings and uses of ever new variables, of one variable
that is bound again and again, of calls, and one FLWOR expression of up to 20,000 clauses of all
kinds.
"""

import sys

from bench.command_line import folder
from bench.doublings import measure, of_length
from tools.common.workspace import bench_program

USES = ("xq_atoms", "xq_lexer", "xq_expressions", "xq_parser", "xq_statics", "sqlite_items")
MEGABYTE = 1_000_000
RUNS = 75


def new_variables(length: int) -> str:
    """A query of about that many bytes that binds ever new variables by earlier ones."""
    return of_length(length, "let $v0 := 1",
                     lambda n: f", $v{n + 1} := ($v{n}, $v{n // 2})", " return $v0")


def one_variable(length: int) -> str:
    """A query of about that many bytes that binds one variable again and again."""
    return of_length(length, "let $v := 1", lambda n: ", $v := $v + 1", " return $v")


def nested_scopes(length: int) -> str:
    """A query of about that many bytes: FLWOR expressions side by side, each a scope."""
    part = ", (for $v%d at $p in 1 to 3 return $v%d + $p)"
    return of_length(length, "1", lambda n: part % (n % 1000, n % 1000), "")


def calls(length: int) -> str:
    """A query of about that many bytes: calls of five functions in turn."""
    names = ("count(1)", "string-join(1, 2)", "concat(1, 2, 3)", "xs:integer(1)", "fn:round(1)")
    return of_length(length, "1", lambda n: ", " + names[n % len(names)], "")


def clauses(count: int) -> str:
    """A FLWOR expression of that many clauses; few of them are `for` or `let`, which nest."""
    # Each word that binds nests what follows, and nesting goes to 128: so few clauses bind by
    # words of their own.
    kinds = ("where $x", "group by $v%d := $x, $x", "order by $x, $x descending",
             "stable order by $v0")
    rare = {0: "let $v%d := $x", 200: "for $v%d at $p in $x"}
    lines = [rare.get(n % 400, kinds[n % len(kinds)]) for n in range(count - 1)]
    named = (line.replace("%d", str(n)) for n, line in enumerate(lines))
    return "let $x := 1 " + " ".join(named) + " return $x"


QUERIES = (
    ("ever new variables", MEGABYTE, new_variables),
    ("one variable", MEGABYTE, one_variable),
    ("many scopes", MEGABYTE, nested_scopes),
    ("calls", MEGABYTE, calls),
    ("clauses of a FLWOR", 20_000, clauses),
)


def main() -> int:
    """Builds and measures; status 1 where the times grow too fast."""
    with folder(__doc__) as room:
        return measure(bench_program(room, "statics", USES), QUERIES, "passed", RUNS)


if __name__ == "__main__":
    sys.exit(main())
