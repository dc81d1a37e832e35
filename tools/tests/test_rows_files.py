"""Files on which the program serves: what it opens, what it refuses, and what it leaves in them.

The files are made by stock SQLite from the statements of tools/rows/files.toml, and read by it.
"""

import contextlib
import os
import pathlib
import shutil
import sqlite3
import tempfile
import unittest
from collections.abc import Iterator, Mapping
from typing import Any

from tools.rows import runs, tables
from tools.rows.tables import Group
from tools.tests.test_rows import command

NOT_OPENED = (1, "xq_server: cannot open the store")
GIVEN = tables.read("files.toml")


@contextlib.contextmanager
def opened(path: pathlib.Path) -> Iterator[sqlite3.Connection]:
    """A connection of stock SQLite to a file, which is closed at the end."""
    with contextlib.closing(sqlite3.connect(path)) as connection, connection:
        yield connection


def make(path: pathlib.Path, statements: list[str]) -> None:
    """Makes a file by these statements; an absent one by none."""
    if not statements:
        return
    with opened(path) as connection:
        for statement in statements:
            connection.execute(GIVEN["statements"].get(statement, statement))


def shown(path: pathlib.Path, query: str) -> str:
    """The first column of each row that a query shows, each before a line."""
    with opened(path) as connection:
        return "".join(f"{row[0]}|" for row in connection.execute(query))


def content(folder: pathlib.Path) -> dict[str, bytes]:
    """The files of a folder, and what they hold."""
    return {path.name: path.read_bytes() for path in folder.iterdir() if path.is_file()}


@unittest.skipUnless(command(), "there is no program: set XQS_SERVER")
class OverFile(unittest.TestCase):
    """Tests over a new file, `self.path`, in a folder of its own."""

    def setUp(self) -> None:
        self.folder = pathlib.Path(tempfile.mkdtemp(prefix="xq-rows-"))
        self.addCleanup(shutil.rmtree, self.folder)
        self.path = self.folder / "x.db"

    def clear(self) -> None:
        """Removes all files."""
        for path in self.folder.iterdir():
            path.unlink()

    def over_file(self) -> list[str]:
        """The words that start a server on the file."""
        return [*command(), "--file", str(self.path)]


class FileTest(OverFile):
    """Files that are opened, and files that are refused."""

    def check_rows(self, name: str, given: list[Any]) -> None:
        """Checks the replies of a server over the file to these rows."""
        group = Group(name, tuple(map(tables.row_of, given)))
        self.assertEqual([*runs.wrong(self.over_file(), [group])], [])

    def is_opened(self) -> bool:
        """Whether a server opens the file; one that is refused stays as it was."""
        before = content(self.folder)
        ended = runs.served(self.over_file(), b"")
        if (ended.status, ended.line) != NOT_OPENED:
            self.assertEqual((ended.status, ended.line), (0, ""))
            return True
        self.assertEqual(content(self.folder), before)
        return False

    def check_judged(self, made: list[str], given: Mapping[str, Any]) -> None:
        """Checks whether a file is a store."""
        self.clear()
        make(self.path, [*made, *given["statements"]])
        self.assertEqual(self.is_opened(), given["is_store"], given["statements"])

    def test_files_are_judged(self) -> None:
        for table in GIVEN["judged"]:
            for given in table["files"]:
                with self.subTest(table=table["name"]):
                    self.check_judged(table["made"], given)

    def check_case(self, case: Mapping[str, Any]) -> None:
        """Checks what a store answers, what it leaves, and what the next server finds."""
        self.clear()
        make(self.path, case["made"])
        self.check_rows("asked", case["asked"])
        for query, wanted in case["shown"]:
            self.assertEqual(shown(self.path, query), wanted)
        self.check_rows("found", case["found"])

    def test_stores_are_asked_and_found_again(self) -> None:
        for case in GIVEN["case"]:
            with self.subTest(case["name"]):
                self.check_case(case)

    def test_bytes_that_are_no_store_are_refused(self) -> None:
        for text in GIVEN["refused"]:
            with self.subTest(text):
                self.path.write_text(text)
                self.assertFalse(self.is_opened())

    def test_an_empty_file_is_made_a_store_and_a_folder_is_none(self) -> None:
        self.path.touch()
        self.assertTrue(self.is_opened())
        self.check_rows("list", [{"kind": "L", "reply": "()"}])
        self.clear()
        self.path.mkdir()
        self.assertFalse(self.is_opened())
        os.rmdir(self.path)

    def check_pages(self, made: list[str], size: int) -> None:
        """Checks that pages of this size store a document, and that stock SQLite reads them."""
        self.clear()
        make(self.path, made)
        self.check_rows("stored", [{"put": "library", "reply": "stored"}])
        self.assertEqual(shown(self.path, "PRAGMA page_size"), f"{size}|")
        self.assertEqual(shown(self.path, "PRAGMA integrity_check"), "ok|")
        self.check_rows("found", [{"kind": "L", "reply": '"b"'}])

    def test_new_files_have_small_pages_and_others_keep_theirs(self) -> None:
        self.check_pages([], 1024)
        for size in (512, 1024, 4096, 65536):
            with self.subTest(size):
                self.check_pages([f"PRAGMA page_size = {size}", "layout", "node", "one"], size)

    def check_kept(self, group: Group) -> None:
        """Checks the replies of a server for each row."""
        self.clear()
        if group.base:
            shutil.copy(group.base, self.path)
        for row in group.rows:
            alone = Group(group.name, (row,))
            self.assertEqual([*runs.wrong(self.over_file(), [alone])], [])

    def test_each_request_finds_what_those_before_it_left(self) -> None:
        for group in tables.groups("kept.toml"):
            with self.subTest(group.name):
                self.check_kept(group)

    def test_tables_of_stores_hold_on_files(self) -> None:
        for run in tables.runs("stores.toml"):
            if run[0].name != "room":
                self.clear()
                with self.subTest(run[0].name):
                    self.assertEqual([*runs.wrong(self.over_file(), run)], [])


if __name__ == "__main__":
    unittest.main()
