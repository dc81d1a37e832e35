"""Rows of requests, of tools/rows, on the program: each has its own reply.

The program is the one that XQS_SERVER names, or the one that ./serve built. Without one these
tests are left out.
"""

import os
import shlex
import unittest

from tools.common.repository import BUILT
from tools.rows import runs, tables


def command() -> list[str]:
    """The words that start a server with documents in memory, or none."""
    words = shlex.split(os.environ.get("XQS_SERVER", ""))
    return words or ([str(BUILT)] if BUILT.exists() else [])


@unittest.skipUnless(command(), "there is no program: set XQS_SERVER")
class RowTest(unittest.TestCase):
    """The tables, each run of their groups on a server of its own."""

    def check(self, name: str, run: list[tables.Group]) -> None:
        """Checks the replies to a run."""
        with self.subTest(table=name, group=run[0].name):
            self.assertEqual([*runs.wrong(command(), run)], [])

    def test_rows_have_their_replies(self) -> None:
        for name in tables.tables():
            for run in tables.runs(name):
                self.check(name, run)

    def test_replies_are_queries_that_give_themselves(self) -> None:
        for name in tables.tables():
            self.check(name, [runs.read_back(tables.groups(name))])


if __name__ == "__main__":
    unittest.main()
