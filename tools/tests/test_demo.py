"""Tests of ./demo: which program it shows."""

from __future__ import annotations

import pathlib
import shutil
import subprocess
import tempfile
import unittest

from tools.common.repository import TOP

# Stands for tools/run: gives the program that is asked for by `--if-built` or `--quick`, if a file
# of that name stands beside it.
RUN = """#!/bin/sh
[ -f "$(dirname "$0")/$2" ] && echo "built$2"
"""
SHOW = "import sys\nprint(sys.argv[1])\n"


class Chosen(unittest.TestCase):
    """A clone whose ./demo writes the program that it would show."""

    def setUp(self) -> None:
        folder = tempfile.TemporaryDirectory(prefix="xqs-demo-")
        self.addCleanup(folder.cleanup)
        self.top = pathlib.Path(folder.name)
        (self.top / "tools" / "common").mkdir(parents=True)
        (self.top / "tools" / "user").mkdir()
        for name in ("demo", "crates.txt", "tools/common/program.sh"):
            shutil.copy(TOP / name, self.top / name)
        self.write("tools/run", RUN)
        self.write("tools/user/show_run.py", SHOW)

    def write(self, name: str, text: str = "") -> None:
        """Writes a file that can be started."""
        path = self.top / name
        path.parent.mkdir(parents=True, exist_ok=True)
        path.write_text(text, encoding="utf-8")
        path.chmod(0o755)

    def shown(self) -> str:
        """What ./demo writes, or its status where it fails."""
        done = subprocess.run([self.top / "demo"], stdin=subprocess.DEVNULL, capture_output=True,
                              text=True)
        return done.stdout.strip() if done.returncode == 0 else f"status {done.returncode}"

    def test_a_program_is_built_quickly(self) -> None:
        self.write("tools/--quick")
        self.assertEqual(self.shown(), "built--quick")

    def test_one_that_is_there_comes_first(self) -> None:
        self.write("tools/--quick")
        self.write("tools/--if-built")
        self.assertEqual(self.shown(), "built--if-built")

    def test_the_proved_program_comes_before_all(self) -> None:
        self.write("tools/--if-built")
        self.write("crates/xq_serve/out/xq_serve")
        self.assertEqual(self.shown(), f"{self.top}/serve")

    def test_a_release_has_its_program(self) -> None:
        self.write("RELEASE.txt")
        self.assertEqual(self.shown(), f"{self.top}/serve")

    def test_nothing_is_shown_without_a_program(self) -> None:
        self.assertEqual(self.shown(), "status 1")


if __name__ == "__main__":
    unittest.main()
