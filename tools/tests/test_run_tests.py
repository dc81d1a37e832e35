"""Modules of tests that run side by side: which they are, and what becomes of each."""

import contextlib
import io
import pathlib
import tempfile
import unittest

from tools.gate import run_tests

GOOD = "import unittest\n\nclass T(unittest.TestCase):\n    def test(self) -> None:\n        pass\n"


class RunTests(unittest.TestCase):
    def setUp(self) -> None:
        self.folder = pathlib.Path(self.enterContext(tempfile.TemporaryDirectory()))
        (self.folder / "tests").mkdir()
        (self.folder / "tests" / "__init__.py").touch()

    def write(self, name: str, text: str) -> None:
        (self.folder / name).write_text(text)

    def ran(self, *words: str) -> tuple[int, str]:
        """The status, and what was printed."""
        with contextlib.redirect_stdout(io.StringIO()) as out:
            status = run_tests.main([str(self.folder), *words])
        return status, out.getvalue()

    def test_modules_of_both_places(self) -> None:
        self.write("test_a.py", GOOD)
        self.write("tests/test_b.py", GOOD * 2)
        self.write("tests/support.py", GOOD)
        self.assertEqual(run_tests.modules(self.folder), ["tests.test_b", "test_a"])
        status, said = self.ran()
        self.assertEqual(status, 0)
        self.assertIn("2 tests, 0 skipped, 0 modules failed", said)

    def test_a_failure_is_told_with_what_was_said(self) -> None:
        self.write("test_a.py", GOOD.replace("pass", "self.fail('why it is')"))
        self.write("test_b.py", GOOD)
        status, said = self.ran("--jobs", "2")
        self.assertEqual(status, 1)
        self.assertIn("why it is", said)
        self.assertIn("test_b: 1 tests", said)

    def test_a_failure_by_chance_is_told_and_tried_again(self) -> None:
        mark = self.folder / "mark"
        first = f"import pathlib; p = pathlib.Path({str(mark)!r}); was = p.exists(); p.touch()"
        self.write("test_a.py", GOOD.replace("pass", f"{first}; self.assertTrue(was)"))
        status, said = self.ran()
        self.assertEqual(status, 0)
        self.assertIn("once more, one after the other: test_a", said)
        self.assertIn("0 modules failed", said)

    def test_what_does_not_end_is_ended(self) -> None:
        self.write("test_a.py", "import time\n" + GOOD.replace("pass", "time.sleep(60)"))
        status, said = self.ran("--minutes", "0.03")
        self.assertEqual(status, 1)
        self.assertIn("did not end in its time", said)


if __name__ == "__main__":
    unittest.main()
