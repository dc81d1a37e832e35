"""Tests of plan.py: how forms are laid out, and which rules are named.

Those that ask the program need the kit, and build it where that has not been done.
"""

import contextlib
import subprocess
import sys
import unittest
from collections.abc import Iterator

from tools.common import repository
from tools.gate import plan, plan_forms, plan_rules
from tools.gate.plan_forms import Form, Layout
from tools.rows import tables

# Files of the optimiser that are no rule: the pass, and what its rules ask.
NO_RULES = {"at_nodes", "copies", "focus", "held", "kinds", "lib", "lists", "outside", "scopes",
            "sure", "walk"}
FORM = ('(flwor (for at (call doc (string "a b"))) (join eq (path (slot 0) (scan child (element)))'
        ' (carried 0) (key value 2 (scan child (element "a")) (scan attribute (attribute "id")))'
        ' (key string 1 (scan child (text))))'
        ' (group 0 2) (return (sequence (slot 2) (string "x""y&amp;"))))')
LINES = """\
flwor
  for $5 at $6 in call doc string "a b"
  join $7 in .. carrying $0 as $5 where $2/a/@id eq string($1/child::text())   <- joins
    path
      slot 0
      scan child::*
  group by $5 $7
  return
    sequence
      slot 2
      string "x""y&amp;\""""


def path(slot: int, *scans: str) -> str:
    """Scans from a slot."""
    return f"(path (slot {slot}) {' '.join(f'(scan {it})' for it in scans)})"


def step(*predicates: str) -> str:
    """A step with predicates."""
    return f"(step {' '.join((B, *predicates))})"


ID, B = 'attribute (attribute "id")', 'child (element "b")'
EQUAL = f"(chain {path(1, ID)} (operand = {path(0, ID)}))"
READS = f"(chain (slot 2) (operand = {path(0, ID)}))"
TITLE = path(1, 'child (element "t")')
RANGE = f"(for {path(0, B)})"
JOIN = f"(join = {path(0, B)} (carried 0) (key value 1 (scan {ID})) (key value 0 (scan {ID})))"
TEST = f'(chain (step {ID}) (operand = (string "1")))'
CHILD = '(step child (element "t"))'
CAST = f'(chain (call xs:integer {path(0, ID)}) (operand > (integer 3)))'
UP_TO = '(operand <= (integer 3))'
OF_ITEM = f'(chain {path(1, ID)} (operand = (string "1")))'
LAST = "(return (slot 1))"
GROUP = f"(group-join = (slot 9) (key value 1 (scan {ID})) (key value 0 (scan {ID})))"
OF_CHILD = f"(group-join = (slot 9) (key value 1 (scan {B})) (key value 0 (scan {ID})))"
OF_RANGE = OF_CHILD.replace("group-join", "join")
KEPT = f"(filter (slot 9) (chain (step {B}) (operand = {path(0, ID)})))"
OF_LIST = f"(flwor (for (slot 9)) (where {EQUAL}) {LAST})"
# What a form becomes, and the rules that make it so.
DERIVED = (
    ("(chain (integer 2) (operand gt (call position)))",
     "(chain (call position) (operand < (integer 2)))", ["positions"]),
    (f"(flwor {RANGE} {RANGE} (where {EQUAL}) {LAST})", f"(flwor {RANGE} {JOIN} {LAST})",
     ["joins"]),
    (f"(flwor {RANGE} {RANGE} (where (and {TITLE} {EQUAL})) {LAST})",
     f"(flwor {RANGE} {JOIN} (where {TITLE}) {LAST})", ["joins", "order", "wheres"]),
    (f"(flwor {RANGE} (where {TITLE}) (where {EQUAL}) {LAST})",
     f"(flwor {RANGE} (where {EQUAL}) (where {TITLE}) {LAST})", ["order"]),
    (step(f"(and {TEST} (context-item))"), step(TEST, "(context-item)"), ["predicates"]),
    (f"(path (root) (each {step(TEST)}) (scan child (text)))",
     f"(path (filter (path (root) (scan {B})) {TEST}) (scan child (text)))", ["scanned"]),
    (f"(path (root) (each {step(f'(and {TEST} {TEST})')}))",
     f"(filter (path (root) (scan {B})) {TEST} {TEST})", ["predicates", "scanned"]),
    (f"(flwor {RANGE} {RANGE} (return (if {EQUAL} (then (slot 1)) (else (sequence)))))",
     f"(flwor {RANGE} {JOIN} {LAST})", ["joins", "returns"]),
    (f"(flwor {RANGE} (return (flwor {RANGE} (where {EQUAL}) {LAST})))",
     f"(flwor {RANGE} {JOIN} {LAST})", ["joins", "nested"]),
    (f"(flwor {RANGE} {RANGE} (let {path(1, ID)}) (where {READS}) {LAST})",
     f"(flwor {RANGE} {JOIN} (let {path(1, ID)}) {LAST})", ["joins", "order", "written"]),
    (f"(quantified some (in {path(1, ID)}) (satisfies {READS}))", EQUAL, ["some_pairs"]),
    (f"(flwor {RANGE} (let {OF_LIST}) {LAST})", f"(flwor {RANGE} {GROUP} {LAST})",
     ["group_joins", "joins"]),
    (f"(flwor {RANGE} (let {KEPT}) {LAST})", f"(flwor {RANGE} {OF_CHILD} {LAST})", ["filters"]),
    (f"(flwor {RANGE} (return {KEPT}))", f"(flwor {RANGE} {OF_CHILD} {LAST})",
     ["filters", "group_returns"]),
    (f"(flwor {RANGE} (return (call count {OF_LIST})))",
     f"(flwor {RANGE} {GROUP} (return (call count (slot 1))))",
     ["group_joins", "group_returns", "joins"]),
    (f"(flwor {RANGE} (for {KEPT}) {LAST})", f"(flwor {RANGE} {OF_RANGE} {LAST})",
     ["range_joins"]),
    (f"(flwor {RANGE} (where {OF_ITEM}) {LAST})",
     f"(flwor (for (filter {path(0, B)} {TEST})) {LAST})", ["narrow"]),
    (f"(flwor {RANGE} {RANGE} (where (and {EQUAL} {CAST})) {LAST})",
     f"(flwor {RANGE} {JOIN} (where (and {CAST})) {LAST})", ["joins", "wheres"]),
    (f"(flwor (for at {path(0, ID)}) (where (chain (slot 2) {UP_TO})) {LAST})",
     f"(flwor (for at (filter {path(0, ID)} (chain (call position) {UP_TO}))) {LAST})", ["firsts"]),
    (f"(path (root) (each {step(CHILD, TEST)}))",
     f"(filter (path (root) (scan {B})) {TEST} {CHILD})", ["comparisons", "scanned"]),
    (f"(path (root) (each {step(TEST, CHILD)}))",
     f"(filter (path (root) (each {step(TEST)})) {CHILD})", ["scanned"]),
    (f"(filter (slot 9) {CHILD} {TEST})", f"(filter (slot 9) {TEST} {CHILD})", ["comparisons"]),
)
# Of each rule a query to which it applies.
QUERIES = {
    "comparisons": 'doc("x")/a/b[c][@id = "1"]/d',
    "first_tests": 'for $a in doc("x")//a where xs:integer($a/@id) < count(doc("x")//b) return $a',
    "firsts": 'for $a at $n in doc("x")//a where $n <= 10 return $a',
    "filters": 'for $a in doc("x")//a let $m := doc("x")/r/b[c = $a/c] return $m',
    "group_joins": 'for $a in doc("x")//a let $m := for $b in doc("x")//b where $b/c = $a/c'
                   ' return $b return $m',
    "group_returns": 'for $a in doc("x")//a return count(for $b in doc("x")//b'
                     ' where $b/c = $a/c return $b)',
    "invariants": '(doc("x")//a)[@id = max(doc("x")//a/xs:integer(@id))]',
    "joins": 'for $a in doc("x")//a, $b in doc("x")//b where $b/@id = $a/@id return $b',
    "narrow": 'for $a in doc("x")//a where $a/@id = "1" return $a/b',
    "nested": 'for $a in doc("x")//a return for $b in doc("x")//b where $b/@id = $a/@id return $b',
    "order": 'for $a in doc("x")//a let $c := $a/c where $c where $a/@id = "1" return $a',
    "plain_tests": 'doc("x")/a[string(@id) = "1"]',
    "positions": 'doc("x")/a[3 eq position()]',
    "predicates": 'doc("x")/a[b and position() < 3]',
    "range_joins": 'for $a in doc("x")//a, $b in doc("x")/r/b[c = $a/c] return $b',
    "returns": 'for $a in doc("x")//a return if ($a/@id = "1") then $a else ()',
    "scanned": 'doc("x")/a/b[@id = "1"]/c',
    "some_pairs": 'for $a at $n in doc("x")//a where some $b in $a/b satisfies $b = "1" return $n',
    "step_invariants": 'doc("x")//a[@id = max(doc("x")//a/xs:integer(@id))]',
    "unused_lets": 'for $a in doc("x")//a let $b := $a/b return $a',
    "wheres": 'for $a in doc("x")//a where $a/b and $a/@id = "1" return $a',
    "written": 'for $a in doc("x")//a let $b := $a/b where $b = $a/c return $a',
}
# Queries that are refused by the lexer, by the parser and by the static checks.
REFUSED = {"1e0": "prof:DOUBLE", "1 +": "XPST0003", "$x": "XPST0008", "count()": "XPST0017"}


def form(text: str) -> Form:
    """The one form that a text spells."""
    [found] = plan_forms.read(text)
    return found


def rules(before: Form, after: Form) -> list[str] | None:
    """The names of the rules that lead from a plan to another."""
    found = plan_rules.derived(before, after)
    return None if found is None else sorted({rule for _, rule in found})


def queries(name: str) -> Iterator[bytes]:
    """The queries of a table of rows."""
    for group in tables.groups(name):
        yield from (it.body for it in group.rows if it.kind == b"Q")


GROUP_LINES = """\
flwor
  for $0 in slot 9
  group join $1 in .. where $1/@id = $0/@id
    slot 8
  return slot 1"""


class Forms(unittest.TestCase):
    def test_what_is_read_is_spelled_again(self) -> None:
        for text in (text for before, after, _ in DERIVED for text in (before, after)):
            self.assertEqual(plan_forms.spelled(form(text)), text)

    def test_a_text_that_is_no_form_is_refused(self) -> None:
        for text in ("(a", "a)", "(a))", "()", "a"):
            with self.subTest(text), self.assertRaises(ValueError):
                plan_forms.read(text)

    def test_each_form_has_a_line(self) -> None:
        plan_of_flwor = form(FORM)
        layout = Layout({plan_of_flwor.parts[1]: ["joins"]})
        self.assertEqual("\n".join(layout.lines(plan_of_flwor, 5)), LINES)

    def test_a_group_join_opens_a_slot(self) -> None:
        joined = JOIN.replace("(join", "(group-join").replace("(carried 0) ", "")
        joined = joined.replace(path(0, B), "(slot 8)")
        shown = form(f"(flwor (for (slot 9)) {joined} {LAST})")
        self.assertEqual("\n".join(Layout().lines(shown)), GROUP_LINES)

    def test_tests_of_kinds_and_names(self) -> None:
        for axis, text, shown in (
            ("child", '(element "a")', "child::a"), ("self", "(element)", "self::*"),
            ("attribute", '(attribute "a")', "attribute::a"),
            ("attribute", '(element "a")', "attribute::element(a)"),
            ("child", "(attribute)", "child::attribute()"), ("parent", "(node)", "parent::node()"),
            ("child", '(processing-instruction "p")', "child::processing-instruction(p)"),
        ):
            self.assertEqual(plan_forms.test(axis, form(text)), shown)

    def test_names_of_a_normal_form(self) -> None:
        text = '(flwor (for "a" allowing-empty at "i" (root)) (group "a") (return (variable "i")))'
        self.assertEqual(Layout().lines(form(text)), [
            "flwor", "  for $a allowing empty at $i in root", "  group by $a", "  return $i"])


class Rules(unittest.TestCase):
    def test_each_file_of_a_rule_is_listed(self) -> None:
        files = {it.stem for it in (repository.TOP / "crates/xq_optimise/src").glob("*.rt")}
        self.assertEqual(files - NO_RULES, set(plan_rules.RULES))

    def test_what_stands_where_names_the_rule(self) -> None:
        for before, after, wanted in DERIVED:
            with self.subTest(after):
                self.assertEqual(rules(form(before), form(after)), wanted)
                self.assertEqual(rules(form(after), form(after)), [])

    def test_what_no_rule_makes_is_unknown(self) -> None:
        for before, after, _ in DERIVED:
            with self.subTest(after):
                self.assertIsNone(rules(form(before), form(f"(sequence {after})")))
                self.assertIsNone(rules(form(before.replace("position", "last").replace("id", "x")),
                                        form(after)))


@unittest.skipUnless(repository.kit(), "needs the kit")
class Program(unittest.TestCase):
    def run_tool(self, *words: str, given: bytes = b"") -> tuple[int, str]:
        """How the tool ends, and what it prints."""
        command = [sys.executable, "-P", "-m", "tools.gate.plan", *words]
        done = subprocess.run(command, input=given, stdout=subprocess.PIPE,
                              env=repository.environment())
        return done.returncode, done.stdout.decode()

    def test_each_rule_applies(self) -> None:
        self.assertEqual(set(QUERIES), set(plan_rules.RULES))
        for rule, query in QUERIES.items():
            with self.subTest(rule):
                status, printed = self.run_tool(query)
                self.assertEqual(status, 0)
                self.assertIn(f"\n{rule:<11} {plan_rules.RULES[rule]}", printed)
                self.assertRegex(printed, rf"   <- .*\b{rule}\b")

    def test_a_query_of_standard_input(self) -> None:
        status, printed = self.run_tool("-", given="\r\n1, \"é\r\"".encode())
        self.assertEqual((status, printed.count("&#xA;"), printed.count("é")), (0, 3, 3))
        self.assertTrue(printed.endswith("# rules that applied\nnone\n"))

    def test_a_refusal_is_told_by_its_code(self) -> None:
        for query, code in REFUSED.items():
            self.assertEqual(self.run_tool(query), (1, f"refused: {code}\n"))
        self.assertEqual(self.run_tool("-", given=b"\xff"), (1, "refused: prof:UTF8\n"))

    def test_a_deep_query(self) -> None:
        status, _ = self.run_tool("-", given=b"if (1) then (2, " * 60 + b"3" + b") else ()" * 60)
        self.assertEqual(status, 0)

    def test_the_rules_account_for_the_rows_of_the_optimiser(self) -> None:
        for query in (*queries("optimised.toml"), *queries("joins.toml")):
            with self.subTest(query), contextlib.suppress(plan.Refused):
                _, before, after = plan.stages(query)
                found = rules(before, after)
                is_same = plan_forms.spelled(before) == plan_forms.spelled(after)
                self.assertEqual(found == [], is_same)
                self.assertIsNotNone(found)


if __name__ == "__main__":
    unittest.main()
