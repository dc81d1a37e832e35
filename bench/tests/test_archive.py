"""Tests of archive.py. No engine and no server is started."""

from __future__ import annotations

import unittest
from unittest import mock
from xml.etree import ElementTree

from bench import archive
from bench.archive import BASE, OURS, PASS, Figures


def figures(row: float, second: float, lookup: float, most: float = 0.0) -> Figures:
    """Figures of a program."""
    return Figures(row=row, scans={PASS: [second * 2, second]}, lookup=lookup, most=most)


class Documents(unittest.TestCase):
    def test_a_document_has_its_rows(self) -> None:
        root = ElementTree.fromstring(archive.written(7))
        elements = list(root.iter())
        rows = 1 + len(elements) + sum(len(it.attrib) for it in elements) + len(list(root))
        self.assertEqual(rows, archive.ROWS)
        self.assertEqual(archive.ROWS, 2_000)

    def test_its_bytes_are_those_of_its_rows_and_values(self) -> None:
        root = ElementTree.fromstring(archive.written(7))
        values = sum(len(value) for it in root.iter() for value in it.attrib.values())
        values += sum(len(it.text or "") for it in root)
        self.assertEqual(archive.bytes_of(7), archive.BYTES_OF_A_ROW * archive.ROWS + values)

    def test_addresses_rise(self) -> None:
        found = [archive.address(number) for number in (0, 9, 10, 5_999)]
        self.assertEqual(found, sorted(found))

    def test_what_fits_is_kept(self) -> None:
        self.assertEqual(archive.unkept(100, 1024), 0)
        self.assertGreater(archive.unkept(6_000, 128), 3_000)
        self.assertLess(archive.unkept(6_000, 128), 4_500)


class Judged(unittest.TestCase):
    def test_stores_are_judged_by_the_slowest_million(self) -> None:
        [found] = archive.bounds(10, [100.0, 90.0, 95.0], {OURS: {}})
        self.assertAlmostEqual(found.ratio, 100 / 90)
        self.assertEqual(list(archive.bounds(10, [100.0], {OURS: {}})), [])

    def test_the_second_pass_is_judged_by_rows_that_do_not_fit(self) -> None:
        with mock.patch("bench.archive.unkept", return_value=50):
            [found] = archive.bounds(100, [], {OURS: {1: figures(2.0, 250.0, 1.0)}})
        self.assertAlmostEqual(found.ratio, 250.0 / (50 * archive.ROWS * 2.0 / 1e3))

    def test_what_all_fits_is_not(self) -> None:
        self.assertEqual(list(archive.bounds(10, [], {OURS: {1024: figures(0.0, 1.0, 1.0)}})), [])

    def test_a_base_is_compared(self) -> None:
        of = {OURS: {1: figures(1.0, 1.0, 2.0)}, BASE: {1: figures(2.0, 1.0, 4.0)}}
        with mock.patch("bench.archive.unkept", return_value=50):
            found = list(archive.bounds(100, [], of))
        self.assertEqual([(it.ratio, it.most) for it in found[1:]], [(0.5, 0.6), (0.5, 1.0)])

    def test_memory_is_judged_of_the_whole_archive_alone(self) -> None:
        of = {OURS: {1024: figures(0.0, 1.0, 1.0, 2048.0)}}
        [found] = archive.bounds(archive.MOST // archive.ROWS, [], of)
        self.assertEqual((found.ratio, found.most), (2.0, 1.6))

    def test_other_engines_are_judged(self) -> None:
        times = {"a count": {OURS: 3.0, "BaseX on disk": 1.0}}
        self.assertEqual([(it.ratio, it.is_kept) for it in archive.beside(times)], [(3.0, False)])


if __name__ == "__main__":
    unittest.main()
