"""Tests of bounds.py."""

from __future__ import annotations

import contextlib
import io
import unittest

from bench import bounds
from bench.bounds import Bound, Times


class Statistics(unittest.TestCase):
    def test_times_are_the_median_and_the_least(self) -> None:
        self.assertEqual(Times.of([5.0, 1.0, 9.0]), Times(5.0, 1.0))
        self.assertEqual(Times.of([2.0, 4.0]), Times(3.0, 2.0))

    def test_the_lesser_of_engines_may_be_of_two(self) -> None:
        self.assertEqual(bounds.lesser([Times(5.0, 1.0), Times(4.0, 3.0)]), Times(4.0, 1.0))

    def test_numbers_have_three_digits(self) -> None:
        shown = [bounds.figure(it) for it in (0.456, 9.994, 12.34, 123.4, 6543.2)]
        self.assertEqual(shown, ["0.46", "9.99", "12.3", "123", "6,543"])
        self.assertEqual(str(Times(12.0, 0.5)), "12.0 (0.50)")
        self.assertEqual(str(Times.of([3, 12, 4])), "4 (3)")


class Bounds(unittest.TestCase):
    def test_medians_judge(self) -> None:
        bound = bounds.ratio("order by", Times(5.0, 4.0), Times(10.0, 2.0), 1.0)
        self.assertEqual(bound, Bound("order by", 0.5, 2.0, 1.0))
        self.assertTrue(bound.is_kept)
        self.assertEqual(str(bound),
                         "order by: 0.50 (2.00 by least times), wanted at most 1: holds")

    def test_a_bound_itself_holds(self) -> None:
        self.assertTrue(str(Bound("x", 0.5, 0.5, 0.5)).endswith(": holds"))

    def test_less_than_a_tenth_more_is_met(self) -> None:
        bound = Bound("x", 1.09, 1.2, 1.0)
        self.assertTrue(bound.is_kept)
        self.assertTrue(str(bound).endswith(": is met"))

    def test_a_tenth_more_is_missed(self) -> None:
        bound = Bound("x", 1.1, 0.9, 1.0)
        self.assertFalse(bound.is_kept)
        self.assertTrue(str(bound).endswith(": is MISSED"))

    def test_all_are_said_and_one_that_is_missed_is_noticed(self) -> None:
        with contextlib.redirect_stdout(io.StringIO()) as out:
            kept = bounds.said([Bound("x", 2.0, 2.0, 1.0), Bound("y", 1.0, 1.0, 1.0)])
        self.assertFalse(kept)
        self.assertNotIn("least", str(Bound("z", 3.0, None, 2.0)))
        self.assertEqual(len(out.getvalue().splitlines()), 2)
        self.assertTrue(bounds.said([]))


class Tables(unittest.TestCase):
    def test_what_a_row_has_nothing_of_is_empty(self) -> None:
        rows: dict[str, dict[str, object]] = {"a": {"one": 1}, "b": {"two": 2.5, "one": "x"}}
        self.assertEqual(list(bounds.table(["Query", "one", "two"], rows)),
                         ["| Query | one | two |", "|---|---|---|", "| a | 1 |  |",
                          "| b | x | 2.5 |"])


if __name__ == "__main__":
    unittest.main()
