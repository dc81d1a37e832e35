"""Tests of rt_all.py."""

import pathlib
import tempfile
import unittest
from unittest import mock

from tools.common import repository
from tools.user import rt_all

# A script that stands for the kit's, and ends with 1 where it takes its first look.
SCRIPT = """import types

class Crate:
    def front_end(self):
        return 1

rtlib = types.SimpleNamespace(Crate=Crate)

def main(words):
    return Crate().front_end() if words == ["all", "check"] else 2
"""


class Main(unittest.TestCase):
    def status(self, script: str) -> int:
        with tempfile.TemporaryDirectory() as folder:
            (pathlib.Path(folder) / "bin").mkdir()
            (pathlib.Path(folder) / "bin" / "rt").write_text(script)
            with mock.patch.object(repository, "kit", lambda: pathlib.Path(folder)):
                return rt_all.main(["check"])

    def test_the_first_look_is_left_out(self) -> None:
        self.assertEqual(self.status(SCRIPT), 0)

    def test_a_script_without_it_is_run_as_it_is(self) -> None:
        self.assertEqual(self.status("def main(words):\n    return len(words)\n"), 2)


if __name__ == "__main__":
    unittest.main()
