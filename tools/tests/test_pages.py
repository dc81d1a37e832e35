"""The pages' links lead somewhere, and the files and commands that they name are there."""

import functools
import pathlib
import re
import shutil
import subprocess
import sys
import unittest
from collections.abc import Iterator

from tools.common.repository import TOP, environment
from tools.tests.test_scripts import OPTION, PAGES, modules

PAST = ("CHANGELOG.md",)
"""Pages that speak of files that are gone."""
LINK = re.compile(r"\[[^\]]*\]\(([^)\s]+)\)")
FILE = re.compile(r"(?<![\w./-])((?:tools|bench|clients|docs|crates)/[\w./-]*\w)")
SCRIPT = re.compile(r"\btools/run\s+(\w+)")
PLACE = re.compile(r"`(?:(xq_\w+)/)?(?:src/|specs/)?(\w+\.(?:rt|antt))`((?:(?::|,)\s`[\w:]+`)*)")
SAMPLES = re.compile(r"```.*?```", re.DOTALL)
CALL = re.compile(r"(?:`(?:\./)?|^ {4,}(?:\$ )?\./)xqs ([a-z]+)(?![\w:])([^`\n]*)", re.MULTILINE)
"""A command of the client, in the text or on a line of its own, and the words behind it."""
CLUMSY = re.compile(r"\b(?:of\s+which|(?:is|are)\s+to\s+be|such\s+of)\b", re.IGNORECASE)
"""Words that a plain sentence doesn't need."""
QUOTING = ("shapes.py",)
"""Files that have such words in a text of the data."""


def anchors(page: str) -> set[str]:
    """The anchors that GitHub gives the headings of a page."""
    headings = re.findall(r"^#+ (.+)$", SAMPLES.sub("", page), re.MULTILINE)
    kept = (re.sub(r"[^\w\- ]", "", it.lower()) for it in headings)
    return {it.replace(" ", "-") for it in kept}


def broken_links(file: pathlib.Path) -> Iterator[str]:
    """The links of a page that lead nowhere in the repository."""
    for link in LINK.findall(SAMPLES.sub("", file.read_text())):
        place, _, anchor = link.partition("#")
        if "://" in place:
            continue
        target = (file.parent / place).resolve() if place else file
        if not target.exists():
            yield f"{file.name}: {link}: there is no such file"
        elif anchor and target.suffix == ".md" and anchor not in anchors(target.read_text()):
            yield f"{file.name}: {link}: there is no such heading"


def calls(page: str) -> Iterator[tuple[str, list[str]]]:
    """The commands of the client that a page names, each with its options."""
    for command, words in CALL.findall(page):
        yield command, OPTION.findall(words.partition(" -- ")[0])


@functools.cache
def client_help(command: str) -> str:
    """What a command of the client shows as its help; nothing if a package that it wants lacks."""
    return subprocess.run([sys.executable, "-m", "xqs", command, "--help"], env=environment(),
                          capture_output=True, text=True).stdout


def absent_places(page: str) -> Iterator[str]:
    """The files of crates, and the functions in them, that a page names and that are not there.

    A file is named with its crate, or by its name alone. After it and a colon stand its items."""
    for crate, name, items in PLACE.findall(page):
        texts = [it.read_text() for folder in ("src", "specs")
                 for it in TOP.glob(f"crates/{crate or '*'}/{folder}/**/{name}")]
        if not texts:
            yield f"{crate}/{name}"
        for item in re.findall(r"`(?:\w+::)?(\w+)`", items):
            if not any(re.search(rf"\b(?:fn|struct|enum|def) {item}\b", it) for it in texts):
                yield f"{crate}/{name}: {item}"


class Pages(unittest.TestCase):
    def test_links_lead_somewhere(self) -> None:
        self.assertEqual([it for file in PAGES for it in broken_links(file)], [])

    def test_files_that_are_named_are_there(self) -> None:
        absent = [f"{file.name}: {name}" for file in PAGES if file.name not in PAST
                  for name in FILE.findall(file.read_text())
                  if "NAME" not in name and not any(TOP.glob(f"{name}*"))]
        self.assertEqual(absent, [])

    def test_sentences_are_plain(self) -> None:
        files = [*PAGES, *(it for folder in ("tools", "bench", "clients", "docs")
                           for ending in ("py", "sh", "js", "html")
                           for it in TOP.glob(f"{folder}/**/*.{ending}"))]
        self.assertGreater(len(files), 300)
        found = [f"{file.name}: {words}" for file in files if file.name not in QUOTING
                 for words in CLUMSY.findall(file.read_text(encoding="utf-8"))]
        self.assertEqual(found, [])

    def test_places_of_the_architecture_are_there(self) -> None:
        page = (TOP / "docs" / "ARCHITECTURE.md").read_text()
        self.assertGreater(len(PLACE.findall(page)), 40)
        self.assertEqual([*absent_places(page)], [])
        found = [*absent_places("`xq_eval/src/absent.rt`, `evaluation.rt`: `evaluate`, `no`")]
        self.assertEqual(found, ["xq_eval/absent.rt", "/evaluation.rt: no"])

    def test_scripts_that_are_named_are_there(self) -> None:
        known = {it.stem for it in modules()} | {"NAME"}
        named = {it for file in PAGES for it in SCRIPT.findall(file.read_text())}
        self.assertGreater(len(named), 20)
        self.assertEqual(named - known, set())

    def test_commands_that_are_named_are_there(self) -> None:
        known = set(re.findall(r'^    "(\w+)": Entry', (
            TOP / "clients" / "python" / "src" / "xqs" / "cli.py").read_text(), re.MULTILINE))
        named = {it for file in PAGES if file.name not in PAST
                 for it, _ in calls(file.read_text())}
        self.assertGreater(len(named), 10)
        self.assertEqual(named - known, set())

    def test_options_of_commands_are_there(self) -> None:
        named = {(command, option) for file in PAGES if file.name not in PAST
                 for command, options in calls(file.read_text()) for option in options}
        self.assertGreater(len(named), 20)
        absent = [(command, option) for command, option in sorted(named)
                  if (shown := client_help(command)) and not re.search(rf"{option}\b", shown)]
        self.assertEqual(absent, [])

    @unittest.skipUnless(shutil.which("git") and (TOP / ".git").exists(), "it wants a clone")
    def test_commits_that_are_named_are_there(self) -> None:
        page = (TOP / "docs" / "ARCHITECTURE.md").read_text()
        for commit in re.findall(r"\b[0-9a-f]{8}\b", page):
            found = subprocess.run(["git", "cat-file", "-e", f"{commit}^{{commit}}"], cwd=TOP,
                                   capture_output=True)
            is_whole = not (TOP / ".git" / "shallow").exists()
            self.assertTrue(found.returncode == 0 or not is_whole, commit)


class Reading(unittest.TestCase):
    def test_calls(self) -> None:
        page = "`xqs get a --xml` or\n    $ ./xqs load b --as c -- ./serve --file d\n"
        page += "    xqs get: no\n"
        self.assertEqual([*calls(page)], [("get", ["--xml"]), ("load", ["--as"])])

    def test_anchors(self) -> None:
        self.assertEqual(anchors("# A b, `c`\n\n## Who can ask\n\n```\n# no\n```\n"),
                         {"a-b-c", "who-can-ask"})


if __name__ == "__main__":
    unittest.main()
