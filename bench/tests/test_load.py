"""Tests of load.py and shapes.py. No engine and no server is started.

"""

from __future__ import annotations

import pathlib
import sqlite3
import tempfile
import unittest
from unittest import mock

from bench import load, shapes
from bench.bounds import Times
from bench.engines import Driven, Spent
from bench.shapes import Row

PRINTED = ('document {element lib {element book {attribute id {"1"}, text {"A"}}, '
           'element book {attribute id {"2"}, text {"B"}}}}')
MOST_OF_A_FRAME = 1_048_832


class Rows(unittest.TestCase):
    def test_a_document_has_its_rows(self) -> None:
        self.assertEqual(shapes.rows_of(PRINTED), [
            Row(0, 7, 0, 0, "", ""), Row(1, 6, 1, 1, "lib", ""), Row(2, 2, 2, 1, "book", ""),
            Row(3, 0, 3, 2, "id", "1"), Row(4, 0, 3, 3, "", "A"), Row(5, 2, 2, 1, "book", ""),
            Row(6, 0, 3, 2, "id", "2"), Row(7, 0, 3, 3, "", "B")])

    def test_sqlite_takes_them(self) -> None:
        with tempfile.TemporaryDirectory() as room:
            path = f"{room}/c.db"
            self.assertGreater(load.inserted(shapes.rows_of(PRINTED), path).whole, 0)
            base = sqlite3.connect(path)
            names = base.execute("SELECT pre, level, name, value FROM node2 JOIN label "
                                 "ON label = id WHERE pre > 4 ORDER BY pre").fetchall()
            base.close()
        self.assertEqual(names, [(5, 2, "book", ""), (6, 3, "id", "2"), (7, 3, "", "B")])


class Shapes(unittest.TestCase):
    def test_each_fits_a_frame_beside_another_query(self) -> None:
        for name, shape in shapes.SHAPES.items():
            self.assertLess(len(shape(99).encode()), MOST_OF_A_FRAME - 100, name)

    def test_each_turn_has_other_texts_in_as_many_nodes(self) -> None:
        for name, shape in shapes.SHAPES.items():
            self.assertNotEqual(shape(1), shape(2), name)
            self.assertEqual(shape(1).count("{"), shape(2).count("{"), name)


class Log(unittest.TestCase):
    def setUp(self) -> None:
        self.room = tempfile.TemporaryDirectory()
        path = pathlib.Path(self.room.name) / "x.db"
        self.log = pathlib.Path(f"{path}-wal")
        self.base = sqlite3.connect(path, isolation_level=None)
        self.base.execute("PRAGMA journal_mode=WAL")
        self.base.execute("CREATE TABLE t (a)")

    def tearDown(self) -> None:
        self.base.close()
        self.room.cleanup()

    def test_no_log_has_no_page(self) -> None:
        self.assertEqual(shapes.written(b""), (b"", 0))

    def test_pages_since_the_look_before_are_counted(self) -> None:
        before = self.log.read_bytes()
        self.base.execute("INSERT INTO t VALUES (1)")
        self.assertEqual(shapes.pages(before, self.log.read_bytes()), 1)

    def test_a_log_that_began_anew_is_counted_from_its_begin(self) -> None:
        self.base.execute("INSERT INTO t VALUES (zeroblob(100000))")
        before = self.log.read_bytes()
        self.base.execute("PRAGMA wal_checkpoint")
        self.base.execute("INSERT INTO t VALUES (1)")
        after = self.log.read_bytes()
        self.assertEqual(len(after), len(before))
        self.assertLess(shapes.pages(before, after), 4)
        self.assertGreater(shapes.pages(before, after), 0)


class Bounds(unittest.TestCase):
    def test_of_literals_they_want_the_base(self) -> None:
        of = {what: {"xqs": Times(5.0, 5.0)} for what in ("records: stored", "records: read")}
        self.assertEqual(list(load.bounds(of)), [])
        of = {what: {**it, "base": Times(10.0, 10.0)} for what, it in of.items()}
        self.assertEqual([(it.ratio, it.most) for it in load.bounds(of)],
                         [(0.5, 0.58), (0.5, 0.5)])

    def test_of_edits_each_place_has_its_own(self) -> None:
        names = ("xqs", "xqs on a file", "base", "base on a file")
        of = {what: {name: Times(100.0, 100.0) for name in names} for what, _, _ in load.steps(1)}
        of["one text changed, stored: pages of log"] = {"xqs on a file": Times(21.0, 20.0)}
        found = list(load.bounds(of))
        self.assertEqual([it.most for it in found], [1.3, 1.2, 0.65, 1.3, 1.2, 0.65, 20])
        self.assertEqual(found[-1].ratio, 21.0)

    def test_each_edit_changes_the_text_to_another(self) -> None:
        texts = [query for turn in (0, 1) for what, query, is_stored in load.steps(turn)
                 if what.startswith("one text") and is_stored]
        self.assertEqual(len(set(texts)), 2 * load.EDITS)
        self.assertIn('element year {"2000"}', texts[0])

    def test_the_first_edit_is_judged_and_shown_by_itself_besides(self) -> None:
        engine = mock.Mock(spec=Driven)
        engine.name = "xqs"
        engine.run.return_value = [Spent(2.0, 0.0, 1.0)]
        found = load.Found()
        for what, query, is_stored in load.steps(0):
            load.step(found, what, engine, query, is_stored)
        self.assertEqual(found.worked[load.FIRST_TEXT], {"xqs": [1.0]})
        self.assertEqual(found.worked[load.CHANGED], {"xqs": [1.0] * load.EDITS})


if __name__ == "__main__":
    unittest.main()
