"""The statements of the store in C SQLite: put, load, puts of one row, replace and drop of one
document.

    csqlite.py ROWS PATH     as compare.py calls it; the path may be :memory:
"""

import argparse
import contextlib
import sqlite3
import time
from collections.abc import Callable, Iterator

SINGLE = 100
MADE = (
    "CREATE TABLE layout (edition INTEGER NOT NULL) STRICT",
    "CREATE TABLE label (id INTEGER PRIMARY KEY, name TEXT NOT NULL UNIQUE) STRICT",
    "CREATE TABLE node2 (address TEXT NOT NULL, pre INTEGER NOT NULL, size INTEGER NOT NULL,"
    " level INTEGER NOT NULL, kind INTEGER NOT NULL, label INTEGER NOT NULL, value TEXT NOT NULL,"
    " PRIMARY KEY (address, pre)) STRICT",
    "INSERT INTO label VALUES (0, '')",
    "INSERT INTO layout VALUES (2)",
)
INSERT = "INSERT INTO node2 VALUES (?1, ?2, ?3, ?4, ?5, ?6, ?7)"
FIND = "SELECT id FROM label WHERE name = ?1"
NAME = "INSERT INTO label (name) VALUES (?1)"
RANGE = ("SELECT pre, size, level, kind, name, value FROM node2 INNER JOIN label ON label = id"
         " WHERE address = ?1 AND pre >= ?2 AND pre <= ?3 ORDER BY pre")
DELETE = "DELETE FROM node2 WHERE address = ?1"


def document(count: int) -> Iterator[tuple[int, int, int, int, str, str]]:
    """The rows of a document of so many."""
    yield 0, count - 1, 0, 0, "", ""
    if count > 1:
        yield 1, count - 2, 1, 1, "element", ""
    for pre in range(2, count):
        yield pre, 0, 2, 4, "", "some text that is a value"


class Store:
    """The tables of a store in a database."""

    def __init__(self, base: sqlite3.Connection, is_file: bool) -> None:
        self._base = base
        if is_file:
            base.execute("PRAGMA journal_mode=WAL")
            base.execute("PRAGMA synchronous=FULL")
        for statement in MADE:
            base.execute(statement)

    def put(self, address: str, count: int) -> None:
        """Stores a document of so many rows in place of the one that is there."""
        self._base.execute("BEGIN")
        self._base.execute(DELETE, (address,))
        numbers: dict[str, int | None] = {}
        for pre, size, level, kind, name, value in document(count):
            if name not in numbers:
                found = self._base.execute(FIND, (name,)).fetchone()
                numbers[name] = found[0] if found else self._base.execute(NAME, (name,)).lastrowid
            self._base.execute(INSERT, (address, pre, size, level, kind, numbers[name], value))
        self._base.execute("COMMIT")

    def load(self) -> int:
        """Reads all rows of the document; how many they are."""
        return len(self._base.execute(RANGE, ("m", 0, 4294967295)).fetchall())

    def put_single(self) -> None:
        """Stores documents of one row."""
        for number in range(SINGLE):
            self.put(f"single/{number}", 1)

    def drop(self) -> None:
        """Drops the document."""
        self._base.execute(DELETE, ("m",))


def main() -> None:
    """Prints the microseconds of each call."""
    words = argparse.ArgumentParser(
        description=__doc__, formatter_class=argparse.RawDescriptionHelpFormatter)
    words.add_argument("rows", type=int)
    words.add_argument("path")
    given = words.parse_args()
    with contextlib.closing(sqlite3.connect(given.path, isolation_level=None)) as base:
        store = Store(base, given.path != ":memory:")
        store.put("a", 100)
        store.put("z", 100)
        calls: tuple[tuple[str, Callable[[], object]], ...] = (
            ("put", lambda: store.put("m", given.rows)), ("load", store.load),
            ("first", lambda: store.put("first", 1)), ("single", store.put_single),
            ("replace", lambda: store.put("m", given.rows)), ("drop", store.drop))
        for name, call in calls:
            start = time.perf_counter()
            call()
            print(name, int((time.perf_counter() - start) * 1e6))


if __name__ == "__main__":
    main()
