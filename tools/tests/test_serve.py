"""Tests of ./serve: the words that it hands on to the program."""

from __future__ import annotations

import pathlib
import re
import shutil
import subprocess
import tempfile
import unittest

from tools.common.repository import TOP

PROGRAM = "#!/bin/sh\nprintf '%s\\n' \"$@\"\n"


class Words(unittest.TestCase):
    """A release whose program writes its words."""

    def setUp(self) -> None:
        self.folder = tempfile.TemporaryDirectory(prefix="xqs-serve-")
        self.addCleanup(self.folder.cleanup)
        self.serve = pathlib.Path(self.folder.name, "serve")
        shutil.copy(TOP / "serve", self.serve)
        self.serve.with_name("RELEASE.txt").touch()
        program = self.serve.with_name("bin") / "xq_server"
        program.parent.mkdir()
        program.write_text(PROGRAM, encoding="utf-8")
        program.chmod(0o755)

    def words(self, *given: str, bound: str = "unlimited") -> list[str]:
        """The words that the program gets, within a bound of memory in kB."""
        line = f'ulimit -S -v {bound}; exec "$0" "$@"'
        done = subprocess.run(["bash", "-c", line, self.serve, *given], stdin=subprocess.DEVNULL,
                              capture_output=True, text=True, check=True)
        return done.stdout.splitlines()

    def test_what_is_said_stays(self) -> None:
        for given in (["--kept", "5"], ["--file", "x.db", "--kept=300"], ["--kept"],
                      ["--kept", "no number"]):
            self.assertEqual(self.words(*given), given)

    def test_a_share_of_the_free_memory(self) -> None:
        free = re.search(r"MemAvailable: *(\d+) kB", pathlib.Path("/proc/meminfo").read_text())
        assert free is not None
        *others, kept, share = self.words("--file", "x.db")
        self.assertEqual((others, kept), (["--file", "x.db"], "--kept"))
        wanted = int(free[1]) / 1024 / 16
        self.assertTrue(128 <= int(share) <= max(128, 1.5 * wanted), (share, wanted))
        self.assertGreaterEqual(int(share), 0.5 * wanted)

    def test_a_share_of_the_bound(self) -> None:
        self.assertEqual(self.words(bound="4194304"), ["--kept", "256"])
        self.assertEqual(self.words(bound="1048576"), ["--kept", "128"])


if __name__ == "__main__":
    unittest.main()
