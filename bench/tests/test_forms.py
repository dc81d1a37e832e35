"""Tests of forms.py: its table, and what it judges. No server is started."""

from __future__ import annotations

import unittest

from bench import forms
from bench.bounds import Times
from bench.engines import NODES, SAXON
from bench.forms import OURS, Answers, Question


def answers(ours: list[float], **others: list[float]) -> Answers:
    """What was found of a question, by engine the time of each form."""
    question = Question("a question", tuple(f"form {place}" for place in range(len(ours))))
    times = {OURS: ours, **others}
    return Answers(question, {name: [Times(it, it) for it in of] for name, of in times.items()},
                   [])


class Table(unittest.TestCase):
    def test_there_are_as_many_questions_and_forms_as_are_wanted(self) -> None:
        found = forms.questions()
        self.assertGreaterEqual(len(found), 25)
        self.assertGreaterEqual(sum(len(it.forms) for it in found), 150)

    def test_each_part_is_written_out_and_no_form_stands_twice(self) -> None:
        for question in forms.questions():
            with self.subTest(question.name):
                self.assertEqual(len(set(question.forms)), len(question.forms))
                self.assertFalse([it for it in question.forms if "{" in it and "element" not in it])

    def test_a_question_is_chosen_by_its_name(self) -> None:
        self.assertEqual([it.name for it in forms.questions(["point", "join"])],
                         ["join", "point"])

    def test_another_name_is_refused(self) -> None:
        with self.assertRaisesRegex(SystemExit, "no question has this name: joins"):
            forms.questions(["joins"])


class Judging(unittest.TestCase):
    def test_a_form_of_more_than_three_times_the_fastest_is_a_cliff(self) -> None:
        self.assertEqual(answers([1.0, 3.0, 3.1, 9.0]).cliffs(), [2, 3])

    def test_what_nobody_notices_is_none(self) -> None:
        self.assertEqual(answers([0.1, 0.9]).cliffs(), [])

    def test_nine_of_ten_forms_may_be_slower_than_an_engine_but_for_one(self) -> None:
        peers = {SAXON.name: [2.0] * 10, NODES.name: [1.5] * 10}
        one, two = (answers([1.0] * (10 - slow) + [1.9] * slow, **peers) for slow in (1, 2))
        self.assertTrue(all(it.is_kept for it in forms.beside([one])))
        self.assertEqual([it.is_kept for it in forms.beside([two])], [False, True])

    def test_a_question_whose_fastest_form_is_slower_misses_its_bound(self) -> None:
        found = answers([3.0, 4.0], **{SAXON.name: [2.0, 9.0]})
        self.assertFalse([*forms.beside([found])][1].is_kept)

    def test_without_engines_there_is_no_bound(self) -> None:
        self.assertEqual([*forms.beside([answers([1.0])])], [])


if __name__ == "__main__":
    unittest.main()
