"""Which rules of the optimiser lead from a plan to the optimised one, by comparing the two.

The rules are private functions of one pass, so they are not asked: each form of the optimised plan
is held beside the form of the plan that it stands for, and where the two differ, what stands there
names the rule. RULES has them by the names of their files in crates/xq_optimise/src.
"""

from __future__ import annotations

import collections
import itertools
from collections.abc import Callable, Iterable, Iterator, Sequence

from tools.gate.plan_forms import Form

RULES = {
    "comparisons": "an equality stands before other predicates that ask the node alone",
    "filters": "a predicate that compares a key of each item is a group join",
    "first_tests": "a `where` after the first `for` is a predicate of what that ranges over",
    "firsts": "a `where` up to a position is a predicate of the `for` before it",
    "group_joins": "a `let` of what a join keeps of its range is a group join",
    "group_returns": "a group join that is returned or counted is a clause",
    "invariants": "a part that is the same at each item is evaluated before all",
    "joins": "a `for` and the `where` after it are a `join`",
    "narrow": "a `where` that compares with a text is a predicate of the `for` before it",
    "nested": "a FLWOR goes on with the clauses of one that it returns",
    "order": "an equality stands before clauses that it doesn't need",
    "plain_tests": "a predicate compares a key without `.`, `data(..)` or `string(..)`",
    "positions": "`position()` stands first in a general comparison with a number",
    "predicates": "a conjunction in a predicate is as many predicates",
    "range_joins": "a `for` over what a predicate keeps, by a key of the tuple, is a `join`",
    "returns": "a conditional that is returned is a `where`",
    "scanned": "predicates are judged over all nodes of a scan",
    "some_pairs": "`some` of one pair of texts is a general comparison",
    "step_invariants": "a part that is the same at each node of a step is evaluated before all",
    "unused_lets": "a `let` at the end of the clauses that nothing reads is left out",
    "wheres": "the first conjuncts of a `where` are as many `where` clauses",
    "written": "a variable that an equality reads is written out",
}
# The rule that evaluates a part of a predicate first, by the form that has the predicate.
OF_LIFTED = {"filter": "invariants", "path": "step_invariants"}
# So many clauses at the end may be left out.
MOST_LEFT_OUT = 2
# A form of the optimised plan, and the rule that made it so.
Marks = list[tuple[Form, str]]
GENERAL = {"eq": "=", "ne": "!=", "lt": "<", "le": "<=", "gt": ">", "ge": ">="}
TURNED = {"=": "=", "!=": "!=", "<": ">", "<=": ">=", ">": "<", ">=": "<="}


def derived(before: Form, after: Form) -> Marks | None:
    """The rules that make one form of another, by where they did; None where these rules don't."""
    if after.word == "flwor" and before.word in OF_LIFTED:
        return of_lifted(before, after)
    if before.word == "path" and (found := of_path(before, after)) is not None:
        return found
    if before.word == "quantified" and after.word == "chain":
        return of_some(before, after)
    if before.word == "let" and after.word == "group-join":
        return of_group(before.parts[0], after)
    if before.word == "for" and after.word == "join":
        return of_range(before, after)
    if before.word != after.word:
        return None
    found = by_parts(before, after)
    if found is None and before.word in OF_FORMS:
        return OF_FORMS[before.word](before, after)
    return found


def by_parts(before: Form, after: Form) -> Marks | None:
    """The rules in the parts of a form that stays what it is."""
    if (before.word, before.words) != (after.word, after.words):
        return None
    return in_turn(before.parts, after.parts)


def in_turn(before: Sequence[Form], after: Sequence[Form]) -> Marks | None:
    """The rules in forms that stand for others in the same order."""
    if len(before) != len(after):
        return None
    marks: Marks = []
    for old, new in zip(before, after, strict=True):
        found = derived(old, new)
        if found is None:
            return None
        marks += found
    return marks


def assigned(before: Iterable[Form], after: Sequence[Form]) -> tuple[list[Form], Marks] | None:
    """For each form the first that may stand for it and that no other has."""
    left, taken, marks = list(after), [], Marks()
    for old in before:
        for new in left:
            found = derived(old, new)
            if found is not None:
                left.remove(new)
                taken.append(new)
                marks += found
                break
        else:
            return None
    return taken, marks


def position_test(form: Form) -> tuple[str, Form] | None:
    """The relation and the number of a comparison of `position()` with a literal."""
    if form.word != "chain" or len(form.parts) != 2 or form.parts[1].word != "operand":
        return None
    operator = form.parts[1].words[0]
    relation = GENERAL.get(operator, operator)
    left, right = form.parts[0], form.parts[1].parts[0]
    if is_position(left) and right.word == "integer" and relation in TURNED:
        return relation, right
    if is_position(right) and left.word == "integer" and relation in TURNED:
        return TURNED[relation], left
    return None


def is_position(form: Form) -> bool:
    """Whether the form is `position()`."""
    return form.word == "call" and form.words == ("position",)


def of_chain(before: Form, after: Form) -> Marks | None:
    """The rule that turns a comparison of the position, or that takes keys in their plain form."""
    old, new = position_test(before), position_test(after)
    if old is None or new is None:
        return of_plain(before, after)
    if old[0] != new[0] or old[1].words != new[1].words:
        return None
    return [(after, "positions")]


def plain_key(side: Form) -> Form:
    """The side of a comparison without `data(..)` or `string(..)` around it, and without `.`
    before its steps."""
    if side.word == "call" and side.words in (("data",), ("string",)):
        [side] = side.parts
    if side.word != "path" or side.parts[0].word != "context-item":
        return side
    first, *more = side.parts[1:]
    start = Form("step", first.words, first.parts) if first.word == "scan" else first.parts[0]
    return Form("path", (), (start, *more)) if more else start


def of_plain(before: Form, after: Form) -> Marks | None:
    """The rule that takes the keys of a comparison in their plain form."""
    if len(before.parts) != 2 or len(after.parts) != 2:
        return None
    olds, news = ((it.parts[0], it.parts[1].parts[0]) for it in (before, after))
    operators = tuple(it.parts[1].words for it in (before, after))
    if operators[0] != operators[1] and operators != (("=",), ("eq",)):
        return None
    plain = tuple(plain_key(it) for it in olds)
    found = in_turn(plain, news)
    return None if found is None or plain == olds else [(after, "plain_tests"), *found]


def of_predicates(before: Sequence[Form], after: Sequence[Form]) -> Marks | None:
    """The rules in a list of predicates."""
    left, marks = list(after), Marks()
    for old in before:
        found = derived(old, left[0]) if left else None
        if found is not None:
            taken = left[:1]
        elif old.word == "and":
            taken = conjunctions(left, len(old.parts))
            conjuncts = [it for form in taken for it in (
                form.parts if form.word == "and" else (form,))]
            matched = assigned(old.parts, conjuncts) if len(conjuncts) == len(old.parts) else None
            if matched is None:
                return None
            found = [*matched[1], *((it, "predicates") for it in taken)]
        else:
            return None
        marks += found
        del left[:len(taken)]
    return None if left else marks


def of_predicates_in_any_order(before: Sequence[Form], after: Sequence[Form], judging: Form,
                               ) -> Marks | None:
    """The rules in a list of predicates that a filter judges, where those that compare may have
    come first."""
    found = of_predicates(before, after)
    if found is not None:
        return found
    conjuncts = [it for form in before for it in (form.parts if form.word == "and" else (form,))]
    matched = assigned(conjuncts, after) if len(conjuncts) == len(after) else None
    if matched is None:
        return None
    splits = [(judging, "predicates")] if len(conjuncts) > len(before) else []
    return [*matched[1], *splits, (judging, "comparisons")]


def conjunctions(left: Sequence[Form], count: int) -> list[Form]:
    """The first predicates, until they have so many conjuncts."""
    taken: list[Form] = []
    for form in left:
        if count <= 0:
            break
        taken.append(form)
        count -= len(form.parts) if form.word == "and" else 1
    return taken


def of_step(before: Form, after: Form) -> Marks | None:
    """The rules in the predicates of a step."""
    if before.words != after.words or in_turn(before.parts[:1], after.parts[:1]) is None:
        return None
    return of_predicates(before.parts[1:], after.parts[1:])


def of_filter(before: Form, after: Form) -> Marks | None:
    """The rules in what is filtered, and in the predicates."""
    start = derived(before.parts[0], after.parts[0])
    predicates = of_predicates_in_any_order(before.parts[1:], after.parts[1:], after)
    return None if start is None or predicates is None else start + predicates


def unwound(form: Form, count: int) -> tuple[Form, list[tuple[Form, Form | None]]] | None:
    """What a path starts from, and its last steps, so many; each with the filter that judges its
    predicates over all nodes of the scan, where one does."""
    steps: list[tuple[Form, Form | None]] = []
    while len(steps) < count:
        judging = form if form.word == "filter" else None
        path = form.parts[0] if judging else form
        if path.word != "path":
            return None
        of_path_steps: list[tuple[Form, Form | None]] = [(it, None) for it in path.parts[1:]]
        of_path_steps[-1] = (path.parts[-1], judging)
        steps = of_path_steps + steps
        form = path.parts[0]
    return (form, steps) if len(steps) == count else None


def of_path(before: Form, after: Form) -> Marks | None:
    """The rules in a path, whose steps with predicates may be scans that are filtered."""
    found = unwound(after, len(before.parts) - 1)
    marks = derived(before.parts[0], found[0]) if found else None
    if found is None or marks is None:
        return None
    for old, (new, judging) in zip(before.parts[1:], found[1], strict=True):
        of_one = derived(old, new) if judging is None else of_scanned(old, new, judging)
        if of_one is None:
            return None
        marks += of_one
    return marks


def of_scanned(before: Form, scan: Form, judging: Form) -> Marks | None:
    """The rules where a filter stands for the predicates of a step, after a scan, or after the step
    with the first of them."""
    step = before.parts[0] if before.word == "each" else before
    start = scan.parts[0] if scan.word == "each" else scan
    if step.word != "step" or start.word not in ("scan", "step") or step.words != start.words:
        return None
    if in_turn(step.parts[:1], start.parts[:1]) is None:
        return None
    predicates = (*start.parts[1:], *judging.parts[1:])
    found = of_predicates_in_any_order(step.parts[1:], predicates, judging)
    return None if found is None else [(judging, "scanned"), *found]


def key_plan(key: Form) -> Form:
    """The plan that a key of a join stands for."""
    slot = Form("slot", key.words[1:])
    path = Form("path", (), (slot, *key.parts)) if key.parts else slot
    return path if key.words[0] == "value" else Form("call", key.words[:1], (path,))


def with_start(range_: Form, slot: str) -> Form:
    """The range of a join, from another slot."""
    start = Form("slot", (slot,))
    return Form("path", (), (start, *range_.parts[1:])) if range_.word == "path" else start


def written_out(join: Form) -> tuple[Form, Form]:
    """The `for` and the `where` that a join stands for."""
    range_, *others = join.parts
    for it in others:
        if it.word == "carried":
            range_ = with_start(range_, it.words[0])
    left, right = (key_plan(it) for it in others if it.word == "key")
    test = Form("chain", (), (left, Form("operand", join.words, (right,))))
    return Form("for", (), (range_,)), Form("where", (), (test,))


def focus_parts(key: Form) -> list[Form]:
    """The parts of a predicate that a key of the item in focus may stand for."""
    if not key.parts:
        return [Form("context-item")]
    first, *more = key.parts
    step = Form("step", first.words, first.parts)
    return [Form("path", (), (step, *more)) if more else step,
            Form("path", (), (Form("context-item"), *key.parts))]


def with_predicate(path: Form, test: Form) -> Form:
    """The path whose last scan is a step with this predicate."""
    *others, scan = path.parts
    step = Form("step", scan.words, (*scan.parts, test))
    return Form("path", (), (*others, Form("each", (), (step,))))


def of_variable(side: Form, slot: Form) -> Form:
    """What one side of a predicate gives, from the slot with the item in focus."""
    if side.word == "context-item":
        return slot
    first, *more = side.parts if side.word == "path" else (side,)
    if first.word == "step" and len(first.parts) == 1:
        return Form("path", (), (slot, Form("scan", first.words, first.parts), *more))
    if side.word in ("call", "chain", "operand", "path"):
        parts = (*(of_variable(it, slot) for it in side.parts[:1]), *side.parts[1:])
        if side.word != "path":
            parts = tuple(of_variable(it, slot) for it in side.parts)
        return Form(side.word, side.words, parts)
    return side


def slots(form: Form) -> Iterator[Form]:
    """The slots that a form reads."""
    if form.word == "slot":
        yield form
    for part in form.parts:
        yield from slots(part)


def bound_of(test: Form) -> tuple[str, tuple[str, ...]] | None:
    """The relation and the number with which a test compares the position, or a slot in its
    place."""
    asked = [Form("call", ("position",)) if it.word == "slot" else it for it in (
        test.parts if test.word == "chain" else ())]
    if len(asked) != 2:
        return None
    first, operand = asked
    right = Form("call", ("position",)) if operand.parts[0].word == "slot" else operand.parts[0]
    found = position_test(Form("chain", (), (first, Form("operand", operand.words, (right,)))))
    return None if found is None else (found[0], found[1].words)


def tests_of(clauses: Iterable[Form]) -> Iterator[Form]:
    """The tests of each `where`, the conjuncts of one by themselves."""
    for test in (it.parts[0] for it in clauses if it.word == "where"):
        yield from test.parts if test.word == "and" else (test,)


def joined_out(join: Form, olds: Iterable[Form]) -> tuple[Form, ...]:
    """The `for` and the `where` that a join stands for, or the join itself where it stands for one
    of these `for` clauses."""
    if any(it.word == "for" and of_range(it, join) is not None for it in olds):
        return (join,)
    return written_out(join)


def narrowed_out(clause: Form, olds: Sequence[Form]) -> tuple[Form, ...]:
    """The `for` and the `where` that a `for` over a filter stands for, or the clause itself."""
    range_ = clause.parts[0] if clause.word == "for" else clause
    range_ = evaluated_late(range_) or range_
    if range_.word != "filter" or range_.parts[-1].word != "chain":
        return (clause,)
    start, *others, (first, operand) = (*range_.parts[:-1], range_.parts[-1].parts)
    left = Form("filter", (), (start, *others)) if others else start
    if "at" in clause.words:
        bound = bound_of(range_.parts[-1])
        tests = [Form("where", (), (it,)) for it in tests_of(olds) if bound_of(it) == bound]
        return (Form("for", clause.words, (left, *clause.parts[1:])), *tests[:1])
    for old in tests_of(olds):
        for slot in slots(old):
            right = Form("operand", operand.words, (of_variable(operand.parts[0], slot),))
            test = Form("chain", (), (of_variable(first, slot), right))
            if derived(old, test) is not None:
                written = Form("for", clause.words, (left, *clause.parts[1:]))
                return written, Form("where", (), (test,))
    return (clause,)


def stood_for(group: Form) -> Iterator[tuple[str, Form]]:
    """The values of a `let` that a group join may stand for, each with its rule."""
    range_, *keys = group.parts
    slot = max((it.words[1] for it in keys), key=int)
    returned = Form("return", (), (Form("slot", (slot,)),))
    yield "group_joins", Form("flwor", (), (Form("join", group.words, group.parts), returned))
    sides = [focus_parts(it) if it.words[1] == slot else [key_plan(it)] for it in keys]
    for left, right in itertools.product(*sides):
        test = Form("chain", (), (left, Form("operand", group.words, (right,))))
        yield "filters", Form("filter", (), (range_, test))
        if range_.word == "path" and range_.parts[-1].word == "scan":
            yield "filters", with_predicate(range_, test)


def of_group(value: Form, group: Form) -> Marks | None:
    """The rules where a group join stands for a `let` of a value."""
    for rule, form in stood_for(group):
        found = derived(value, form)
        if found is not None:
            return [(group, it) for it in (rule, *(name for _, name in found))]
    return None


def of_range(clause: Form, join: Form) -> Marks | None:
    """The rules where a join stands for a `for` over the items that a predicate keeps."""
    if clause.words or any(it.word == "carried" for it in join.parts):
        return None
    for _, form in stood_for(join):
        found = derived(clause.parts[0], form)
        if found is not None:
            return [(join, it) for it in ("range_joins", *(name for _, name in found))]
    return None


def in_place(form: Form, slot: str, value: Form) -> Form:
    """The form with a value in place of a slot."""
    if form.word == "slot" and form.words == (slot,):
        return value
    parts = tuple(in_place(it, slot, value) for it in form.parts)
    if form.word == "path" and parts[0].word == "path":
        parts = (*parts[0].parts, *parts[1:])
    return Form(form.word, form.words, parts)


def evaluated_late(form: Form) -> Form | None:
    """The items that predicates keep where a part of the first of them is evaluated before all."""
    match form.parts:
        case (Form("let", _, (items,)), Form("return", _, (Form("flwor", _, (
                Form("let", _, (Form("if", _, (_, Form("then", _, (part,)), _)),)),
                Form("return", _, (whole,)))),))):
            pass
        case _:
            return None
    start = whole
    while start.word in ("filter", "path"):
        start = start.parts[0]
    if start.word != "slot":
        return None
    slot = start.words[0]
    return in_place(in_place(whole, str(int(slot) + 1), part), slot, items)


def of_lifted(before: Form, after: Form) -> Marks | None:
    """The rules where the items, and then a part of a predicate, are evaluated first."""
    written = evaluated_late(after)
    found = None if written is None else derived(before, written)
    return None if found is None else [(after, OF_LIFTED[before.word]), *found]


def of_some(before: Form, after: Form) -> Marks | None:
    """The rule that makes a general comparison of a quantified expression with one variable."""
    ranges, test = before.parts[:-1], before.parts[-1].parts[0]
    if before.words != ("some",) or len(ranges) != 1 or test.word != "chain":
        return None
    found = in_turn((*ranges[0].parts, *test.parts[1:]), after.parts)
    return None if found is None else [(after, "some_pairs"), *found]


def continued(value: Form, side: Form) -> Form:
    """The scans of one side of a comparison, from the value of its variable."""
    more = side.parts[1:] if side.word == "path" else ()
    start = value.parts if value.word == "path" else (value,)
    return Form("path", (), (*start, *more)) if len(start) + len(more) > 1 else value


def with_values(before: Form, after: Form, values: Sequence[Form]) -> bool:
    """Whether one test is another in which slots may have given way to values."""
    old, new = (it.parts[0] for it in (before, after))
    if not old.word == new.word == "chain" or len(old.parts) != 2 or len(new.parts) != 2:
        return False
    if old.parts[1].words != new.parts[1].words:
        return False
    sides = ((old.parts[0], new.parts[0]), (old.parts[1].parts[0], new.parts[1].parts[0]))
    return all(any(derived(it, right) is not None for it in (
        left, *(continued(value, left) for value in values))) for left, right in sides)


def of_where(before: Form, left: Sequence[Form], values: Sequence[Form],
             ) -> tuple[list[Form], Marks] | None:
    """The `where` clauses among these that stand for one, where variables have these values."""
    whole = assigned([before], left)
    if whole is not None:
        return whole
    if before.parts[0].word == "and":
        places, marks = list[Form](), Marks()
        parts = before.parts[0].parts
        for number, part in enumerate(parts):
            rest = [it for it in left if it not in places]
            others = Form("where", (), (Form("and", (), parts[number:]),))
            together = assigned([others], rest) if number else None
            found = together or of_where(Form("where", (), (part,)), rest, values)
            if found is None:
                return None
            places += found[0]
            marks += [*found[1], *((it, "wheres") for it in found[0])]
            if together:
                break
        return places, marks
    written = [it for it in left if with_values(before, it, values)][:1]
    return (written, [(it, "written") for it in written]) if written else None


def of_clauses(before: Sequence[Form], after: Sequence[Form], left_out: Sequence[Form],
               ) -> Marks | None:
    """The rules among clauses, in which the joins are written out, where these are left out."""
    tests = [it for it in after if it.word == "where"]
    others = collections.deque(it for it in after if it.word != "where")
    places, marks, values = list[Form](), Marks(), list[Form]()
    for old in before:
        values += old.parts if old.word == "let" else ()
        if any(old is it for it in left_out):
            continue
        found = of_where(old, tests, values) if old.word == "where" else (
            assigned([old], [others.popleft()]) if others else None)
        if found is None:
            return None
        places += found[0]
        marks += found[1]
        tests = [it for it in tests if it not in found[0]]
    if tests or others:
        return None
    return marks + [(it, "order") for number, it in enumerate(after) if it.word == "where" and any(
        later in places[:places.index(it)] for later in after[number:])]


def of_used_clauses(before: Sequence[Form], after: Sequence[Form], last: Form) -> Marks | None:
    """The rules among clauses, where up to two that nothing reads may have been left out."""
    lets = [it for it in before if it.word == "let"]
    for count in range(min(len(lets), MOST_LEFT_OUT) + 1):
        left_out = lets[len(lets) - count:]
        found = of_clauses(before, after, left_out)
        if found is not None:
            return [*found, *((last, "unused_lets") for _ in left_out[:1])]
    return None


def of_flwor(before: Form, after: Form) -> Marks | None:
    """The rules in a FLWOR expression."""
    found = of_parts(before, after)
    return of_returned_group(before, after) if found is None else found


def of_returned_group(before: Form, after: Form) -> Marks | None:
    """The rules where the last clause is a group join that was returned, or counted."""
    group, last = after.parts[-2:]
    old, new = before.parts[-1].parts[0], last.parts[0]
    if group.word != "group-join":
        return None
    if new.word == "call":
        if (old.word, old.words, len(old.parts)) != (new.word, new.words, 1):
            return None
        old = old.parts[0]
    bound = (*before.parts[:-1], Form("let", (), (old,)), last)
    found = of_parts(Form("flwor", before.words, bound), after)
    return None if found is None else [*found, (group, "group_returns")]


def rule_of(clause: Form) -> str:
    """The rule by which a `for` ranges over a filter in place of a `where` after it."""
    if "at" in clause.words:
        return "firsts"
    range_ = clause.parts[0]
    operator = range_.parts[-1].parts[-1] if range_.word == "filter" else None
    is_general = operator is not None and operator.words[0] in TURNED
    return "narrow" if is_general else "first_tests"


def of_parts(before: Form, after: Form) -> Marks | None:
    """The rules in the clauses of a FLWOR expression, and in what it returns."""
    olds, returned = before.parts[:-1], before.parts[-1].parts[0]
    is_nested = returned.word == "flwor" and after.parts[-1].parts[0].word != "flwor"
    if is_nested:
        olds, returned = (*olds, *returned.parts[:-1]), returned.parts[-1].parts[0]
    is_where = returned.word == "if" and after.parts[-1].parts[0].word != "if"
    if is_where:
        olds = (*olds, Form("where", (), returned.parts[:1]))
        returned = returned.parts[1].parts[0]
    clauses, of_join = list[Form](), dict[Form, Form]()
    narrowed = list[Form]()
    for clause in after.parts[:-1]:
        write = joined_out if clause.word == "join" else narrowed_out
        written = write(clause, olds)
        clauses += written
        of_join |= dict.fromkeys(written, clause) if len(written) > 1 else {}
        narrowed += [clause] if clause.word == "for" and len(written) > 1 else []
    found = of_used_clauses(olds, clauses, after.parts[-1])
    result = derived(returned, after.parts[-1].parts[0])
    if found is None or result is None:
        return None
    if is_where:
        found += [(it, "returns") for it in [it for it in clauses if it.word == "where"][-1:]]
    if is_nested:
        found.append((after, "nested"))
    whole = [(it, rule_of(it) if it in narrowed else "joins") for it in dict.fromkeys(
        of_join.values())]
    return [*((of_join.get(it, it), rule) for it, rule in found), *whole, *result]


OF_FORMS: dict[str, Callable[[Form, Form], Marks | None]] = {
    "chain": of_chain, "step": of_step, "filter": of_filter, "flwor": of_flwor,
}


def by_form(marks: Marks) -> dict[Form, list[str]]:
    """The rules of each form, each once."""
    found: dict[Form, list[str]] = {}
    for form, rule in marks:
        if rule not in found.setdefault(form, []):
            found[form].append(rule)
    return found
