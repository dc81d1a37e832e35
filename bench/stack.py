"""How much stack nested queries and plans take, as LLVM builds the program.

    tools/run stack [FOLDER]     builds its program there, unless an earlier call did

First plans, made without a text, so that their evaluation alone takes stack: for each form the
bytes of one level, from plans of 128 and of 1,024 levels, and the kilobytes of 128. Then queries,
nested as deep as a query may be: how many times each form was repeated, and the kilobytes on which
the query is read, and on which it is read and evaluated. The form of all operators has most levels
of a plan in one level of the query. The last lines are the worst.
"""
import resource
import subprocess
import sys

from bench.command_line import folder
from tools.common.workspace import bench_program

USES = (
    "xq_atoms", "xq_eval", "xq_expressions", "xq_meaning", "xq_queries", "xq_trees",
    "xq_sources", "sqlite_items",
)
# Kilobytes between two sizes of stack that are tried, and the most that is.
STEP, MOST = 16, 256 * 1024
NESTING, DEEPER = 128, 1024
PLANS = (
    "sequence", "if", "then", "or", "and", "left", "right", "sign", "call", "count", "arrow",
    "arrow-argument", "map", "mapped", "for-return", "for-in", "let", "where", "order", "some-in",
    "satisfies", "step", "step-predicate", "start", "filter", "predicate", "element", "name",
    "text",
)
OPERATORS = '0 or 1 and 1 = "a" || 1 to 1 + 1 * () union () intersect - '
# Each form: its name, what stands before and after what it nests, and what is in the middle.
QUERIES = (
    ("(1)", "(", "1", ")"),
    ("(1, 1)", "(1, ", "1", ")"),
    ("if (nest)", "if (", "1", ") then 1 else 2"),
    ("then nest", "if (1) then ", "1", " else 2"),
    ("for .. return nest", "for $x in 1 return ", "1", ""),
    ("for $x in nest", "for $x in ", "1", " return 1"),
    ("let $x := nest", "let $x := ", "1", " return $x"),
    ("where nest", "for $x in 1 where ", "1", " return 1"),
    ("order by nest", "for $x in 1 order by ", "1", " return 1"),
    ("group by nest", "for $x in 1 group by $y := ", "1", " return 1"),
    ("some $x in nest", "some $x in ", "1", " satisfies 1"),
    ("satisfies nest", "some $x in 1 satisfies ", "1", ""),
    ("head(nest)", "head(", "1", ")"),
    ("concat(1, nest)", "concat(1, ", "1", ")"),
    ("nest => abs()", "(", "1", ") => abs()"),
    ("nest => abs() => abs()", "(", "1", ") => abs() => abs()"),
    ("1 => concat(nest)", "1 => concat(", "1", ")"),
    ("nest ! .", "(", "1", ") ! ."),
    ("1 ! (nest)", "1 ! (", "1", ")"),
    ("1[nest]", "1[", "1", "]"),
    ("1[1, nest]", "1[1, ", "1", "]"),
    ("self::e[nest]", "element e {}/self::e[", "1", "]"),
    ("element e {}/(nest)", "element e {}/(", "1", ")"),
    ("element e {nest}", "element e {", "1", "}"),
    ("text {nest}", "text {", "1", "}"),
    ("element {nest} {}", "element {", "'e'", "} {}"),
    ("all operators, (nest)", OPERATORS + "(", "1", ")"),
    ("all with ! and =>", OPERATORS + "1 ! (", "1", ") => abs() => abs()"),
    ("all operators, [nest]", OPERATORS + "element e {}/self::e[", "1", "]"),
)


def outcome(program: str, given: str, kilobytes: int) -> str:
    """What the program prints on a stack of that size; nothing where it is too small."""
    limit = kilobytes * 1024
    ran = subprocess.run(
        [program], input=given.encode(), stdout=subprocess.PIPE, stderr=subprocess.DEVNULL,
        preexec_fn=lambda: resource.setrlimit(resource.RLIMIT_STACK, (limit, limit)))
    return ran.stdout.decode().strip() if ran.returncode == 0 else ""


def least_stack(program: str, given: str) -> int:
    """The least stack in kilobytes on which the program ends, a multiple of STEP."""
    low, high = 0, 8
    while not outcome(program, given, high * STEP):
        low, high = high, high * 2
        if high * STEP > MOST:
            sys.exit(f"over {MOST} KB of stack: {given[:60]}")
    while high - low > 1:
        middle = (low + high) // 2
        if outcome(program, given, middle * STEP):
            high = middle
        else:
            low = middle
    return high * STEP


def of_plans(program: str) -> tuple[int, str]:
    """Prints a line for each form of plan; gives the most bytes of a level, and its form."""
    print(f"{'plan':<24} {'a level':>10} {'128 levels':>10}")
    worst = (0, "")
    for form in PLANS:
        given = [f"plan {form} {depth}\n" for depth in (NESTING, DEEPER)]
        few, many = (least_stack(program, each) for each in given)
        level = (many - few) * 1024 // (DEEPER - NESTING)
        worst = max(worst, (level, form))
        print(f"{form:<24} {level:8d} B {few:7d} KB", flush=True)
    return worst


def deepest(program: str, before: str, middle: str, after: str) -> tuple[int, str, str]:
    """How often the form can be nested, and the query."""
    for count in range(NESTING, 0, -1):
        query = before * count + middle + after * count
        ends = outcome(program, "read\n" + query, MOST)
        if ends != "prof:DEPTH":
            return count, query, ends
    return 0, middle, "value"


def of_queries(program: str) -> tuple[int, str]:
    """Prints a line for each form of query; gives the most kilobytes, and its form."""
    print(f"{'query':<24} {'times':>6} {'read':>10} {'and evaluated':>14}   {'ends as'}")
    worst = (0, "")
    for name, before, middle, after in QUERIES:
        count, query, ends = deepest(program, before, middle, after)
        if ends != "value":
            sys.exit(f"{name}: {ends}")
        given = [word + "\n" + query for word in ("read", "ask")]
        read, asked = (least_stack(program, each) for each in given)
        worst = max(worst, (asked, name))
        told = outcome(program, given[1], MOST)
        print(f"{name:<24} {count:6d} {read:7d} KB {asked:11d} KB   {told}", flush=True)
    return worst


def main() -> None:
    """Builds and measures."""
    with folder(__doc__) as room:
        program = bench_program(room, "stack", USES)
        level, form = of_plans(program)
        most, name = of_queries(program)
    print(f"the most of one level of a plan: {level} bytes, {form}")
    print(f"the most of a query: {most} KB, {name}")


if __name__ == "__main__":
    main()
