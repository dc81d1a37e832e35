"""Tests of figures.py: what is written between the marks of a page, and nothing else."""

import datetime
import unittest

from bench import benches, figures

PAGE = "# M\n\na\n\n<!-- bench x -->\nold\n<!-- end -->\n\n<!-- bench y -->\nkept\n<!-- end -->\n"


class Figures(unittest.TestCase):
    def test_what_lies_between_marks_is_replaced(self) -> None:
        found = figures.written(PAGE, "x", "today", "words\n| a | b |\n| 1 | 2 |\nmore\n")
        self.assertEqual(found, PAGE.replace("old", "today\n\n| a | b |\n| 1 | 2 |"))

    def test_of_two_tables_the_last_is_taken(self) -> None:
        printed = "| clock |\n|---|\n| 3 |\n\n| processor |\n|---|\n| 2 |\n\nall are right\n"
        self.assertEqual(figures.block(printed), "| processor |\n|---|\n| 2 |")

    def test_what_has_no_table_stands_as_it_is(self) -> None:
        found = figures.written(PAGE, "y", "today", "a 1\nb \\2\n")
        self.assertEqual(found, PAGE.replace("kept", "today\n\n```\na 1\nb \\2\n```"))

    def test_a_benchmark_without_marks_is_named(self) -> None:
        with self.assertRaisesRegex(figures.NoMark, "bench z"):
            figures.written(PAGE, "z", "", "")

    def test_the_heading_says_when_and_of_what(self) -> None:
        found = figures.heading("abc", datetime.date(2026, 11, 29), 3.6)
        self.assertTrue(found.startswith("2026-11-29, commit abc, "))
        self.assertTrue(found.endswith(", load 4"))


class Commands(unittest.TestCase):
    def test_queries_run_beside_engines_for_the_page_alone(self) -> None:
        plain = benches.command_of("queries", "./serve", False)
        self.assertEqual(plain[-3:], ["bench.queries", "--server", "./serve"])
        for_page = benches.command_of("queries", "./serve", True)
        self.assertEqual(for_page[-4:], ["bench.queries", "--engines", "--server", "./serve"])
        self.assertNotIn("--engines", benches.command_of("limits", "./serve", True))


if __name__ == "__main__":
    unittest.main()
