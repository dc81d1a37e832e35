"""Tests of check_python.py."""

import contextlib
import io
import pathlib
import sys
import tempfile
import unittest
from unittest import mock

from tools.gate import check_python


class Findings(unittest.TestCase):
    """The checks run programs of this test in place of the installed ones."""

    def setUp(self) -> None:
        folder = tempfile.TemporaryDirectory()
        self.addCleanup(folder.cleanup)
        self.folder = pathlib.Path(folder.name)

    def program(self, script: str) -> str:
        path = self.folder / "program"
        path.write_text(f"#!/bin/sh\n{script}\n", encoding="utf-8")
        path.chmod(0o755)
        return str(path)

    def found(self, programs: tuple[str, ...], script: str) -> list[str]:
        check = check_python.Check(programs, (), self.folder)
        return check_python.findings(check, self.program(script))

    def test_status_0_has_no_finding(self) -> None:
        self.assertEqual(self.found(("mypy",), "echo Success"), [])

    def test_each_line_is_a_finding(self) -> None:
        self.assertEqual(self.found(("mypy",), "echo a; echo b; exit 1"), ["a", "b"])

    def test_a_program_that_says_nothing_is_named(self) -> None:
        (line,) = self.found(("mypy",), "exit 2")
        self.assertIn("status 2", line)

    def test_a_line_with_noqa_is_excused_from_style_alone(self) -> None:
        (self.folder / "file.py").write_text("import a  # noqa\nimport b\n", encoding="utf-8")
        script = "echo file.py:1:1: unused; echo file.py:2:1: unused; exit 1"
        self.assertEqual(self.found(("pyflakes",), script), ["file.py:2:1: unused"])
        self.assertEqual(len(self.found(("mypy",), script)), 2)


class Main(unittest.TestCase):
    """The status, and what is said of programs that are not there."""

    def said(self, program: str | None, found: list[str]) -> tuple[int, str]:
        with (
            mock.patch.object(check_python, "program_of", lambda check: program),
            mock.patch.object(check_python, "findings", lambda check, program: found),
            mock.patch.object(sys, "argv", ["check_python.py"]),
            contextlib.redirect_stdout(io.StringIO()) as printed,
        ):
            return check_python.main(), printed.getvalue()

    def test_what_is_not_installed_is_named_and_no_fault(self) -> None:
        status, said = self.said(None, ["a finding"])
        self.assertEqual(status, 0)
        self.assertIn("not installed: mypy, pycodestyle, pyflakes3 (apt-get", said)

    def test_a_finding_ends_with_1(self) -> None:
        status, said = self.said("program", ["file.py:1: a finding"])
        self.assertEqual(status, 1)
        self.assertIn("file.py:1: a finding", said)

    def test_no_finding_ends_with_0(self) -> None:
        self.assertEqual(self.said("program", [])[0], 0)


if __name__ == "__main__":
    unittest.main()
