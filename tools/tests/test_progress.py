"""Tests of progress.py."""

import pathlib
import tempfile
import unittest

from tools.user import progress
from tools.user.progress import FIRST_LOOK, Progress


class CratesOfProcesses(unittest.TestCase):
    def test_a_check_names_its_crate(self) -> None:
        words = ["/kit/bin/rattle", "build", "--crate-name", "low", "src/lib.rt"]
        self.assertEqual(progress.crate_of(words), "low")

    def test_the_first_look_is_no_proof(self) -> None:
        words = ["/kit/bin/rattle", "check", "--crate-name", "app", "--only", ""]
        self.assertEqual(progress.crate_of(words), FIRST_LOOK)

    def test_what_goes_before_a_command_is_none(self) -> None:
        words = ["/usr/bin/python3", "-ISc", "..", "/kit/bin/rattle", "--crate-name", "low"]
        self.assertIsNone(progress.crate_of(words))
        self.assertIsNone(progress.crate_of(["/kit/bin/rattle", "--version"]))
        self.assertIsNone(progress.crate_of([""]))


class Lines(unittest.TestCase):
    def test_crates_that_are_done_are_news_once(self) -> None:
        so_far = Progress(["low", "app"], {}, 0)
        self.assertFalse(so_far.read(["rt: mend\n", "checked low::f, 1 of 6\n"]))
        self.assertTrue(so_far.read(["== low\n", "fn low::f: proved\n"]))
        self.assertFalse(so_far.read(["== low\n", "== summary\n", "low: ok\n"]))
        self.assertEqual(so_far.shown(61), "1 of 2 crates proved, 1 min 1 s")

    def test_what_is_at_work_has_its_minutes(self) -> None:
        so_far = Progress(["low", "app"], {"low": 2.5}, 0)
        so_far.see(["low", FIRST_LOOK], 30)
        so_far.see(["low", "app"], 60)
        line = "0 of 2 crates proved, 1 min 30 s; now app (0.5), low (1.0 of 2.5)"
        self.assertEqual(so_far.shown(90), line)

    def test_what_is_done_is_no_more_at_work(self) -> None:
        so_far = Progress(["low"], {}, 0)
        so_far.read(["== low\n"])
        so_far.see(["low"], 1)
        self.assertEqual(so_far.shown(1), "1 of 1 crates proved, 0 min 1 s")


class Clock(unittest.TestCase):
    def test_seconds_are_rounded_before_they_are_minutes(self) -> None:
        self.assertEqual(progress.clock(59.6), "1 min 0 s")
        self.assertEqual(progress.clock(3599.4), "59 min 59 s")


class Table(unittest.TestCase):
    def test_comments_are_left_out(self) -> None:
        with tempfile.TemporaryDirectory() as folder:
            path = pathlib.Path(folder, "minutes.txt")
            path.write_text("# a line\nlow 0.5\n\napp 12\n")
            self.assertEqual(progress.expected_minutes(path), {"low": 0.5, "app": 12.0})


if __name__ == "__main__":
    unittest.main()
