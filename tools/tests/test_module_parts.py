"""Tests of module_parts.py."""

import unittest

from tools.user.module_parts import SMALL, Module, Parts

HEAD = ['source_filename = "rattle"\n', 'target triple = "x86_64-unknown-linux-gnu"\n']
TAIL = ["attributes #0 = { nounwind }\n", "!llvm.ident = !{!0}\n"]


def function(name: str, *calls: str, length: int = 1, linkage: str = "internal ") -> list[str]:
    """The text of a function of so many calls and other lines."""
    body = [f"  call void {it}()\n" for it in calls] + ["  ; a line\n"] * length
    return [f"define {linkage}void {name}() #0 {{\n", "start:\n", *body, "  ret void\n", "}\n"]


def text(*functions: list[str]) -> list[str]:
    """The text of a module with these functions, and with a constant that names one."""
    constant = '@table = private unnamed_addr constant { ptr } { ptr @"b::named" }\n'
    declared = "declare void @rattle_dealloc(ptr noundef) #0\n"
    found = [constant, "\n", *HEAD]
    for lines in functions:
        found += [*lines, "\n"]
    return [*found, declared, *TAIL]


MAIN = function("@main", '@"a::one"', linkage="")
LONG = 2 * SMALL
MODULE = text(
    MAIN,
    function('@"a::one"', '@"b::two"', '@"Vec<T>::push"', "@table", length=LONG),
    function('@"b::two"', '@"a::small"', length=LONG),
    function('@"a::small"', '@"b::large"'),
    function('@"b::large"', "@rattle_dealloc", length=LONG),
    function('@"Vec<T>::push"', length=LONG),
    function('@"b::named"', length=LONG),
    function('@"a::never"', '@"b::two"', length=LONG))


def parts(count: int) -> list[list[str]]:
    """The parts of the module, that of `main` first."""
    found = [[*lines] for lines in Parts.of(Module.read(MODULE), count).texts()]
    return sorted(found, key=lambda lines: MAIN[0] not in lines)


class Split(unittest.TestCase):
    def test_one_part_has_all_that_is_reached(self) -> None:
        [lines] = parts(1)
        defined = [it for it in lines if it.startswith("define")]
        self.assertEqual(len(defined), 7)
        self.assertFalse([it for it in lines if "hidden" in it or "a::never" in it])

    def test_head_and_tail_stand_in_each_part(self) -> None:
        for lines in parts(3):
            self.assertEqual(lines[:2], HEAD)
            self.assertEqual(lines[-2:], TAIL)

    def test_a_crate_is_in_one_part(self) -> None:
        whole = "".join(next(it for it in parts(3) if '"a::one"() #0 {' in "".join(it)))
        self.assertIn('define internal void @"Vec<T>::push"', whole)
        self.assertIn('declare hidden void @"b::two"() #0\n', whole)
        self.assertNotIn('define internal void @"b::large"', whole)

    def test_what_another_part_calls_is_seen_there(self) -> None:
        whole = "".join(next(it for it in parts(3) if '"b::two"() #0 {' in "".join(it)))
        for name, linkage in (("two", "hidden"), ("named", "hidden"), ("large", "internal")):
            self.assertIn(f'define {linkage} void @"b::{name}"() #0 {{', whole)

    def test_a_small_function_stands_with_whoever_calls_it(self) -> None:
        whole = "".join(next(it for it in parts(3) if '"b::two"() #0 {' in "".join(it)))
        self.assertIn('define internal void @"a::small"', whole)

    def test_a_constant_stands_where_it_is_named_and_no_unused_name_does(self) -> None:
        named = [it for it in parts(3) if "@table = private" in "".join(it)]
        self.assertEqual(len(named), 1)
        declared = [it for it in parts(3) if "declare void @rattle_dealloc" in "".join(it)]
        self.assertEqual(len(declared), 1)


if __name__ == "__main__":
    unittest.main()
