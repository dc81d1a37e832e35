"""Each place that tools/rows/moved.txt names exists: no test was lost where it was moved."""

import functools
import pathlib
import re
import unittest
from collections.abc import Iterator

from tools.common.repository import TOP
from tools.rows import tables

MOVED = TOP / "tools" / "rows" / "moved.txt"
FORMER_TESTS = 179
ITEM = r"(?m)^\s*(?:pub )?(?:fn|const) {}\b"


@functools.cache
def text_of(pattern: str) -> str:
    """The files of this repository with such a path; nothing where there is none."""
    return "\n".join(it.read_text(encoding="utf-8") for it in sorted(TOP.glob(pattern)))


@functools.cache
def names_in(table: str) -> set[str]:
    """The names that a table's parts have; none where there is no such table."""
    path = tables.FOLDER / pathlib.Path(table).name
    given = tables.read(path.name) if path.exists() else {}
    return {it["name"] for part in ("group", "judged", "case") for it in given.get(part, [])}


def has_clause(function: str, clause: str) -> bool:
    """Whether a function of a crate has a clause with that name between its head and its body."""
    heads = re.finditer(rf"(?m)^\s*(?:pub )?fn {function}\b", text_of("crates/*/src/**/*.rt"))
    contracts = (re.split(r"(?m)^\s*\{$|;$", found.string[found.start():][:4_000], maxsplit=1)[0]
                 for found in heads)
    return any(re.search(rf"ensures {clause}\b", it) for it in contracts)


def is_test(path: str, name: str) -> bool:
    """Whether a script has this test, a class and its method."""
    group, _, method = name.partition(".")
    text = text_of(path)
    return f"class {group}(" in text and f"    def {method}(self)" in text


def exists(place: str) -> bool:
    """Whether a new place is there."""
    clause = re.fullmatch(r"clause (\w+) of (\w+)", place)
    if clause:
        return has_clause(clause[2], clause[1])
    if place.startswith("contract of "):
        return bool(re.search(ITEM.format(place.split()[-1]), text_of(place.split()[2])))
    path, _, name = place.partition(" ")
    if path.endswith(".toml"):
        return name in names_in(path)
    if path.endswith(".rt"):
        return bool(re.search(ITEM.format(name), text_of(path)))
    if name.startswith("-") or not name:
        return bool(text_of(path)) and all(
            it in ("--file", "--table") or names_in(it) for it in name.split())
    return is_test(path, name)


def lines() -> Iterator[tuple[str, list[str]]]:
    """Each former place with its new ones."""
    text = re.sub(r"(?m)^#.*\n", "", MOVED.read_text(encoding="utf-8"))
    for part in re.split(r"(?m)^(?=\S)", text.strip()):
        if part.strip():
            old, *new = part.strip().split("\n")
            yield old, [it.strip().removeprefix("-> ") for it in new]


class MovedTest(unittest.TestCase):
    """The list of what was moved."""

    def test_each_new_place_exists(self) -> None:
        for old, places in lines():
            with self.subTest(old):
                self.assertTrue(places)
                self.assertEqual([it for it in places if not exists(it)], [])

    def test_each_former_test_is_listed(self) -> None:
        names = {old.split()[0] for old, _places in lines()}
        tests = {it for it in names if not it.rpartition("::")[2].isupper()}
        self.assertEqual(len(tests), FORMER_TESTS)


if __name__ == "__main__":
    unittest.main()
