"""Tests of gate_time: the limit of a gate, and its yardstick."""

from __future__ import annotations

import pathlib
import sys
import tempfile
import time
import unittest

from tools.gate import gate_time
from tools.gate.gate_time import Limit, Part

SUMS: dict[Part, float] = {("xq_atoms", "proof"): 60.0, ("xq_tuples", "proof"): 600.0}


class Limits(unittest.TestCase):
    """When a gate is ended before its end."""

    def test_enough_time_is_no_fault(self) -> None:
        limit = Limit(170, 4)
        self.assertIsNone(limit.fault(SUMS, {("xq_parser", "proof")}, 20))

    def test_a_forecast_far_beyond_the_limit_is_a_fault(self) -> None:
        fault = Limit(170, 2).fault(SUMS, {("xq_parser", "proof")}, 20)
        self.assertIn("xq_tuples", fault or "")
        self.assertIn("170", fault or "")

    def test_no_forecast_while_the_yardstick_is_proved_or_where_crates_are_kept(self) -> None:
        limit = Limit(170, 1)
        self.assertIsNone(limit.fault(SUMS, {("xq_tuples", "proof")}, 20))
        self.assertIsNone(limit.fault({("xq_tuples", "proof"): 600.0}, set(), 20))

    def test_the_end_of_the_minutes_names_what_is_under_way(self) -> None:
        fault = Limit(170, 4).fault({}, {("xq_eval", "proof")}, 170)
        self.assertIn("xq_eval (proof)", fault or "")

    def test_a_gate_is_ended_with_what_it_began(self) -> None:
        begun = time.monotonic()
        with tempfile.TemporaryDirectory() as room:
            file = pathlib.Path(room, "times")
            status = gate_time.here(str(file), Limit(0.0, 1), ["sh", "-c", "sleep 300 & wait"])
            told = file.read_text(encoding="utf-8")
        self.assertEqual(status, gate_time.STATUS_OF_TOO_LITTLE_TIME)
        self.assertIn("processor minutes of the gate", told)
        self.assertLess(time.monotonic() - begun, 120)

    def test_a_gate_within_its_limit_keeps_its_status(self) -> None:
        ran = gate_time.watch([sys.executable, "-c", "raise SystemExit(3)"], ".", Limit(5, 1))
        self.assertEqual(ran.status, 3)


class Yardstick(unittest.TestCase):
    """The whole over the proof of one crate."""

    def test_the_whole_over_one_proof(self) -> None:
        self.assertIn("yardstick: 42.0", gate_time.yardstick(SUMS, 42 * 600.0))

    def test_none_where_crates_are_kept(self) -> None:
        self.assertIn("none", gate_time.yardstick({("xq_tuples", "proof"): 600.0}, 1.0))


if __name__ == "__main__":
    unittest.main()
