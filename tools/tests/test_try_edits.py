"""Tests of try_edits: what rt's lines tell, what is kept, and what it stands on."""

from __future__ import annotations

import pathlib
import tempfile
import unittest

from tools.gate import try_edits
from tools.gate.try_edits import Edit, Outcome, Record

LINES = [
    "rt: must-fail xq_a/one.edit: refused, as it must be: ./src/lib.rt:3:5: error: not proved",
    "rt: must-fail xq_a/two.edit: refused, as it must be (only because a proof file names what"
    " the edit took away, so this says little of the contract): ./proofs/X.antt",
    "rt: must-fail xq_a/three.edit: NOT REFUSED: the crate is still proved with this edit",
    "rt: must-fail xq_a/four.edit: BAD EDIT: this stands twice",
    "rt: must-fail xq_a/five.edit: NOT TRIED: its check was killed",
    "rt: xq_a: 1 of its 5 must-fail edits were tried by an earlier run on this machine",
]


class Lines(unittest.TestCase):
    """What rt says of edits."""

    def test_each_kind(self) -> None:
        found = {name: it[0] for name, it in try_edits.outcomes(LINES).items()}
        self.assertEqual(found, {
            "xq_a/one": Outcome.REFUSED, "xq_a/two": Outcome.BY_A_NAME,
            "xq_a/three": Outcome.PROVED, "xq_a/four": Outcome.BAD,
            "xq_a/five": Outcome.NOT_TRIED})

    def test_only_refusals_count(self) -> None:
        refused = {it for it in Outcome if it.is_refused}
        self.assertEqual(refused, {Outcome.REFUSED, Outcome.BY_A_NAME})


class Kept(unittest.TestCase):
    """What is kept between runs."""

    def setUp(self) -> None:
        self.room = tempfile.TemporaryDirectory()
        self.addCleanup(self.room.cleanup)
        self.top = pathlib.Path(self.room.name)
        for name in ("xq_a", "xq_b"):
            (self.top / "crates" / name / "src").mkdir(parents=True)
            (self.top / "crates" / name / "more-edits").mkdir()
            (self.top / "crates" / name / "src" / "lib.rt").write_text(name)
        (self.top / "crates.txt").write_text("xq_a:\nxq_b: xq_a itoa\n")
        (self.top / "crates" / "xq_b" / "more-edits" / "wrong.edit").write_text("file: src/lib.rt")

    def edit(self) -> Edit:
        [edit] = try_edits.edits_of(self.top, ["xq_b"])
        return edit

    def test_an_outcome_is_kept_over_the_same_sources(self) -> None:
        path = self.top / "out" / "edits.tsv"
        Record(path).add(self.edit(), Outcome.REFUSED)
        self.assertIs(Record(path).get(self.edit()), Outcome.REFUSED)
        self.assertEqual(self.edit().name, "xq_b/wrong")

    def test_a_change_below_is_a_change(self) -> None:
        record = Record(self.top / "out" / "edits.tsv")
        record.add(self.edit(), Outcome.REFUSED)
        (self.top / "crates" / "xq_a" / "src" / "lib.rt").write_text("changed")
        self.assertIsNone(record.get(self.edit()))

    def test_what_was_not_tried_is_not_kept(self) -> None:
        record = Record(self.top / "out" / "edits.tsv")
        record.add(self.edit(), Outcome.NOT_TRIED)
        self.assertIsNone(record.get(self.edit()))


if __name__ == "__main__":
    unittest.main()
