"""Shows the normal form, the plan and the optimised plan of a query, and the rules that applied.

    tools/run plan 'QUERY'        tools/run plan - <FILE

All three come from the code itself: the program of tools/programs/plan asks the crates. It is built
before any proof, as that of ./serve --unproved is, in a minute or two, and kept in out/plan until a
source changes. A form of the code has a line, with its parts below it. `$3` is slot 3 where a
clause binds it or a join compares it; the range of a join that carries `$3 as $2` reads it as
slot 2. A line of the optimised plan that a rule made ends with `<-` and the rule, by the name of
its file in crates/xq_optimise/src. The rules are derived from the two plans (plan_rules.py): the
pass doesn't tell them. The status is 1 where the query is refused, with its code, and 2 where there
is no program.
"""

from __future__ import annotations

import subprocess
import sys

from tools.common import command_line, repository, watched
from tools.gate import plan_forms, plan_rules
from tools.gate.plan_forms import Form, Layout
from tools.user.build_unproved import NotBuilt, Program, build

PROGRAM = Program(
    repository.TOP, "plan", repository.TOP / "tools" / "programs" / "plan",
    ("xq_atoms", "xq_expressions", "xq_trees", "xq_meaning", "xq_lexer", "xq_parser",
     "xq_statics", "xq_normal", "xq_plan", "xq_optimise", "sqlite_items", "itoa"),
    repository.TOP / "out" / "plan", level=("-O1",))
STAGES = ("normal form", "plan", "optimised plan")
REFUSED = "refused "
# A query nests 128 deep at most, and each of its levels some forms.
DEEPEST = 20_000


class Refused(Exception):
    """The code of a query that is refused."""


def stages(query: bytes) -> list[Form]:
    """The three forms of a query. Raises Refused, and NotBuilt where there is no program."""
    try:
        text = query.decode()
    except UnicodeDecodeError as fault:
        raise Refused("prof:UTF8") from fault
    lines = text.replace("\r\n", "\n").replace("\r", "\n")
    done = subprocess.run([build(PROGRAM)], input=lines.encode(), capture_output=True)
    printed = done.stdout.decode()
    if printed.startswith(REFUSED):
        raise Refused(printed.removeprefix(REFUSED).strip())
    if done.returncode:
        raise NotBuilt(f"its program ends with {done.returncode}: {done.stderr.decode()}")
    return plan_forms.read(printed)


def shown(forms: list[Form]) -> str:
    """The page of the three forms of a query."""
    derived = plan_rules.derived(forms[1], forms[2])
    marks = plan_rules.by_form(derived or [])
    laid = [Layout(), Layout(), Layout(marks)]
    parts = ["\n".join((f"# {name}", *layout.lines(form)))
             for name, layout, form in zip(STAGES, laid, forms, strict=True)]
    applied = sorted({rule for rules in marks.values() for rule in rules})
    told = [f"{it:<11} {plan_rules.RULES[it]}" for it in applied] or ["none"]
    if derived is None:
        told = ["the plans differ by a rule that tools/gate/plan_rules.py doesn't know"]
    return "\n\n".join((*parts, "\n".join(("# rules that applied", *told))))


def main() -> int:
    """Prints the page of a query."""
    words = command_line.parser(__doc__)
    words.add_argument("query", help="the query; - for that of standard input")
    query = words.parse_args().query
    watched.end_by_signals()
    sys.setrecursionlimit(DEEPEST)
    try:
        given = sys.stdin.buffer.read() if query == "-" else query.encode(errors="surrogateescape")
        print(shown(stages(given)))
    except Refused as code:
        print(f"refused: {code}")
        return 1
    except (NotBuilt, OSError) as why:
        print(f"plan: there is no program to ask: {why}", file=sys.stderr)
        return 2
    return 0


if __name__ == "__main__":
    sys.exit(main())
