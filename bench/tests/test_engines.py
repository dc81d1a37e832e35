"""Tests of engines.py, and of what queries.py judges. No engine is started.

"""

from __future__ import annotations

import contextlib
import io
import pathlib
import tempfile
import unittest
from unittest import mock

from bench import engines, queries
from bench.bounds import Bound, Times
from bench.engines import Peer, Spent

ABSENT = Peer("Absent", "no-such-package", "no-such-*.jar", "AbsentPeer")


class Told:
    """An engine whose runs take one after another of some numbers, each run one more."""

    def __init__(self, name: str, begin: float) -> None:
        self.name, self.next, self.turns, self.last = name, begin, 0, "12"

    def run(self, query: str, count: int) -> list[Spent]:
        self.turns += 1
        found = [Spent(self.next + number, 0.5, 1.5) for number in range(count)]
        self.next += count
        return found

    def text(self) -> str:
        return self.last

    def end(self) -> None:
        pass


class Replies(unittest.TestCase):
    def test_nanoseconds_of_runs_become_milliseconds(self) -> None:
        self.assertEqual(engines.spent_of("2500000/500000/2000000 1000000/0/750000\n"),
                         [Spent(2.5, 0.5, 2.0), Spent(1.0, 0.0, 0.75)])

    def test_an_engine_that_ended_has_no_runs(self) -> None:
        self.assertEqual(engines.spent_of(""), [])

    def test_a_query_becomes_one_line_of_as_many_characters(self) -> None:
        query = queries.document(10)
        self.assertNotIn("\n", engines.one_line(query))
        self.assertEqual(len(engines.one_line(query)), len(query))


class Texts(unittest.TestCase):
    def test_atoms_stand_on_lines_of_their_own(self) -> None:
        self.assertEqual(engines.plain('"a", 12, -3, true()'), "a\n12\n-3\ntrue")

    def test_nodes_are_xml(self) -> None:
        reply = 'document {element a {attribute b {"1"}, text {"x "}, element c {}}}'
        self.assertEqual(engines.plain(reply), '<a b="1">x <c/></a>')

    def test_no_item_is_an_empty_text(self) -> None:
        self.assertEqual(engines.plain("()"), "")

    def test_another_result_is_that_of_another_than_the_first(self) -> None:
        self.assertEqual(engines.differing({"xqs": "1", "Saxon": "1", "BaseX": "2"}), ["BaseX"])
        self.assertEqual(engines.differing({}), [])


class Turns(unittest.TestCase):
    def test_engines_take_turns(self) -> None:
        one, two = Told("one", 0.0), Told("two", 100.0)
        found = engines.in_turn([one, two], "1")
        self.assertEqual([it.whole for it in found["one"]], [float(n) for n in range(15)])
        self.assertEqual(found["two"][0], Spent(100.0, 0.5, 1.5))
        self.assertEqual(one.turns, engines.TURNS)

    def test_all_queries_are_run_to_warm_up(self) -> None:
        one = Told("one", 0.0)
        engines.warm_up([one], ["1", "2"])
        self.assertEqual((one.turns, one.next), (2, 10.0))

    def test_an_engine_that_is_absent_is_left_out_and_named(self) -> None:
        with (tempfile.TemporaryDirectory() as room,
              contextlib.redirect_stdout(io.StringIO()) as out,
              engines.driven([ABSENT], "1", pathlib.Path(room)) as found):
            self.assertEqual(found, [])
        self.assertIn("Absent is left out", out.getvalue())
        self.assertIn("no-such-package", out.getvalue())

    def test_without_java_it_says_so(self) -> None:
        with mock.patch("shutil.which", return_value=None):
            self.assertEqual(ABSENT.missing(), "java, javac, no-such-package")


class Judged(unittest.TestCase):
    TIMES = {query: {"xqs": Times(10.0, 9.0), "Saxon": Times(20.0, 18.0), "BaseX": Times(8.0, 8.0)}
             for query, _ in queries.QUERIES}

    def ours(self, times: dict[str, float]) -> list[Bound]:
        """The bounds of all queries. Those that are named take so long, the others 3.2."""
        return queries.beside_engines(
            {query: {**of, "xqs": Times(times.get(query, 3.2), 3.2)}
             for query, of in self.TIMES.items()})

    def test_queries_of_the_bounds_are_queries(self) -> None:
        names = {name for name, _ in queries.QUERIES}
        self.assertLessEqual({*queries.INDEXED, *queries.HALF}, names)
        self.assertEqual(len(names), 16)

    def test_the_lesser_engine_is_the_bound(self) -> None:
        found = queries.beside_engines(self.TIMES)
        self.assertEqual([it.what.partition(",")[0] for it in found],
                         [name for name, _ in queries.QUERIES])
        self.assertEqual({(it.ratio, it.most) for it in found}, {(1.25, 1.0)})

    def test_an_engine_that_is_absent_judges_nothing(self) -> None:
        one = {query: {name: it for name, it in of.items() if name != "BaseX"}
               for query, of in self.TIMES.items()}
        self.assertEqual({it.ratio for it in queries.beside_engines(one)}, {0.5})
        none = {query: {"xqs": of["xqs"]} for query, of in self.TIMES.items()}
        self.assertEqual(list(queries.halved(queries.beside_engines(none))), [])
        self.assertEqual(list(queries.beside_database(none)), [])

    def test_twelve_are_to_take_half(self) -> None:
        slow = dict.fromkeys([name for name, _ in queries.QUERIES[:4]], 7.0)
        [bound] = queries.halved(self.ours(slow))
        self.assertTrue(bound.is_kept)
        [bound] = queries.halved(self.ours({**slow, "print all": 6.0}))
        self.assertEqual(bound.what, "number 12 of 16, print all, beside Saxon, BaseX")
        self.assertFalse(bound.is_kept)

    def test_some_are_judged_beside_the_database(self) -> None:
        times = {query: {**of, "BaseX database": Times(5.0, 5.0)}
                 for query, of in self.TIMES.items()}
        found = {it.what: it.is_kept for it in queries.beside_database(times)}
        self.assertEqual(found, {f"{query}, beside BaseX database": False
                                 for query in queries.INDEXED})

    def test_beside_the_base_some_are_to_take_half(self) -> None:
        self.assertEqual(list(queries.beside_base(self.TIMES)), [])
        times = {name: {**of, "base": Times(16.0, 16.0)} for name, of in self.TIMES.items()}
        most = {it.what.partition(",")[0]: it.most for it in queries.beside_base(times)}
        self.assertEqual({name for name, it in most.items() if it == 0.5}, set(queries.HALF))
        self.assertEqual(len(most), 16)

    def test_runs_become_a_row_and_a_result_that_differs_a_fault(self) -> None:
        found = queries.Measured()
        other = Told("other", 100.0)
        found.add("one", "1", [Told("xqs", 0.0), other])
        self.assertEqual(found.times("whole")["one"]["xqs"], Times(2.0, 0.0))
        self.assertEqual(found.times("processor")["one"]["xqs"], Times(1.5, 1.5))
        self.assertEqual(found.faults, [])
        found.add("one", "1", [Told("xqs", 5.0), other])
        self.assertEqual(found.times("whole")["one"]["xqs"], Times(4.5, 0.0))
        other.last = "13"
        found.add("two", "1", [Told("xqs", 0.0), other])
        self.assertEqual(found.faults, ["two: ANOTHER RESULT of other"])


if __name__ == "__main__":
    unittest.main()
