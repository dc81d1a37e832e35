"""Tests of lighter_module.py."""

import unittest

from tools.user.lighter_module import lighter


def check(name: str) -> list[str]:
    """The text of the function of a check."""
    return [
        f'define internal void @"rattle-llvm-checks::{name}"(i8 %a0) #8 {{\n', "start:\n",
        "  br i1 %r0, label %true, label %false\n", "\n", "false:\n",
        "  call void @llvm.trap()\n", "  unreachable\n", "}\n"]


class Lighter(unittest.TestCase):
    def test_checks_of_values_stay(self) -> None:
        for name in ("Overflow", "ZeroDivisor", "Cast", "Shift", "Offset", "Unreachable", "Null"):
            with self.subTest(name):
                self.assertEqual(list(lighter(check(name))), check(name))

    def test_checks_of_memory_hold_always(self) -> None:
        for name in ("Alignment", "Value"):
            lines = [*check(name), "; more\n", *check("Overflow")]
            first = f'define internal void @"rattle-llvm-checks::{name}"(i8 %a0) #8 {{\n'
            wanted = [first, "  ret void\n}\n", "; more\n", *check("Overflow")]
            with self.subTest(name):
                self.assertEqual(list(lighter(lines)), wanted)

    def test_variables_are_not_filled_before_they_are_set(self) -> None:
        fill = "  call void @llvm.memset.p0.i64(ptr %r1, i8 -86, i64 40, i1 false)\n"
        zero = "  call void @llvm.memset.p0.i64(ptr %r1, i8 0, i64 40, i1 false)\n"
        self.assertEqual(list(lighter([fill, zero])), [zero])


if __name__ == "__main__":
    unittest.main()
