"""Shows which public functions and clauses differ between two commits.

    tools/run public_contracts OLD [NEW] [--rename A=B ..]     (NEW is the last commit if not given)

A public function is a `pub fn` of a file below crates/*/src, outside tests and what they have in
common; it is shown with its `requires` and `ensures`, white space folded. Words of OLD are renamed
first. Crates and files do not count, so that what moved stays the same. Lines begin with `-` for
OLD alone and `+` for NEW alone; the last line counts.
"""

import re
import subprocess
from collections.abc import Iterable

from tools.common import command_line
from tools.common.repository import TOP

SOURCE = re.compile(r"crates/\w+/src/.*\.rt$")
OF_TESTS = re.compile(r"_tests/|/xq_samples/")
HEAD = re.compile(r"(?m)^[ \t]*pub (?:const )?fn ")


def git(*words: str) -> str:
    """What git prints of this repository."""
    return subprocess.check_output(["git", *words], cwd=TOP, text=True)


def sources(commit: str) -> list[str]:
    """The paths of the crates' source files at a commit, without those of tests.

    Raises CalledProcessError where git knows no such commit.
    """
    names = git("ls-tree", "-r", "--name-only", commit, "crates").split("\n")
    return [it for it in names if SOURCE.match(it) and not OF_TESTS.search(it)]


def skip_braces(text: str, at: int) -> int:
    """The place after the group that opens at this place."""
    depth = 0
    for place in range(at, len(text)):
        depth += {"{": 1, "}": -1}.get(text[place], 0)
        if depth == 0:
            return place + 1
    return len(text)


def contract(text: str, at: int) -> str:
    """A function's head and clauses, from its first word to its body."""
    found, place = "", at
    while place < len(text):
        brace = text.find("{", place)
        semicolon = text.find(";", place)
        if brace < 0 or 0 <= semicolon < brace:
            return text[at:semicolon]
        before = text[place:brace]
        if not re.search(r"\b(requires|ensures|ghost)\b\*?\s*[\w+]*\s*:?\s*\Z|\b\w+:\s*\Z", before):
            return text[at:brace]
        place = skip_braces(text, brace)
    return found


def contracts(commit: str, renames: Iterable[tuple[str, str]]) -> set[str]:
    """The heads and clauses of the public functions at a commit, with words renamed.

    Raises CalledProcessError where git knows no such commit.
    """
    found: set[str] = set()
    for name in sources(commit):
        text = git("show", f"{commit}:{name}")
        text = re.sub(r"(?m)^\s*//.*$", "", text)
        for head in HEAD.finditer(text):
            shown = " ".join(contract(text, head.start()).split())
            for old, new in renames:
                shown = re.sub(rf"\b{re.escape(old)}\b", new, shown)
            found.add(shown)
    return found


def renaming(word: str) -> tuple[str, str]:
    """The old and the new name of `OLD=NEW`."""
    old, _, new = word.partition("=")
    return old, new


def main() -> None:
    """Shows what differs."""
    words = command_line.parser(__doc__)
    words.add_argument("old", help="a commit")
    words.add_argument("new", nargs="?", default="HEAD")
    words.add_argument("--rename", nargs="+", type=renaming, default=[], metavar="A=B")
    given = words.parse_args()
    old, new = contracts(given.old, given.rename), contracts(given.new, [])
    for shown in sorted(old - new):
        print(f"- {shown}\n")
    for shown in sorted(new - old):
        print(f"+ {shown}\n")
    gone, added = len(old - new), len(new - old)
    print(f"{len(old & new)} the same, {gone} in {given.old} alone, {added} new")


if __name__ == "__main__":
    main()
