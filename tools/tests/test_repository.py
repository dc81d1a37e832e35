"""Tests of repository.py."""

import pathlib
import tempfile
import unittest

from tools.common import repository


class Libraries(unittest.TestCase):
    def test_comments_and_empty_lists(self) -> None:
        with tempfile.TemporaryDirectory() as folder:
            path = pathlib.Path(folder, "crates.txt")
            path.write_text("# a line\nlow:\napp: low itoa # two\n\n")
            self.assertEqual(repository.libraries(path), {"low": [], "app": ["low", "itoa"]})

    def test_those_below_come_first_and_once(self) -> None:
        listed = {"app": ["high", "low"], "low": ["itoa"], "high": ["low"], "other": ["itoa"]}
        self.assertEqual(repository.all_below(["app"], listed), ["low", "high", "app"])

    def test_libraries_of_the_kit_are_left_out(self) -> None:
        self.assertEqual(repository.all_below(["itoa"], {"low": ["itoa"]}), [])


if __name__ == "__main__":
    unittest.main()
