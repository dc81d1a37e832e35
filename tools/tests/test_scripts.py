"""Each script starts by its name from any folder, and tools/README.md has a line for each file."""

import contextlib
import functools
import io
import pathlib
import re
import runpy
import subprocess
import sys
import tempfile
import unittest
import warnings
from unittest import mock

from tools.common.repository import TOP

FOLDERS = ("user", "gate", "trials", "release")
PAGE = TOP / "tools" / "README.md"
PAGES = (*sorted(TOP.glob("*.md")), *sorted(TOP.glob("docs/*.md")),
         *sorted(TOP.glob("clients/*/*.md")), PAGE)
"""All pages of the repository."""
LINE = re.compile(r"^\| `([\w.]+)` \|", re.MULTILINE)
CALL = re.compile(r"\btools/run\s+(\w+)([^`\n]*)")
OPTION = re.compile(r" (--[a-z-]+)")


def modules() -> list[pathlib.Path]:
    """The modules that `tools/run` knows."""
    folders = [*(TOP / "tools" / it for it in FOLDERS), TOP / "bench"]
    return [it for folder in folders for it in folder.glob("*.py") if it.stem != "__init__"]


def scripts() -> dict[str, str]:
    """The modules that read a command line, by the names of their files."""
    reads = ("parse_args(", "with folder(__doc__)")
    found = [it.relative_to(TOP).with_suffix("") for it in modules()
             if '__name__ == "__main__"' in (text := it.read_text())
             and any(word in text for word in reads)]
    return {it.name: ".".join(it.parts) for it in found}


@functools.cache
def help_of(module: str) -> tuple[object, str]:
    """How a module ends that is run here for its help, and what it prints."""
    with (
        mock.patch.object(sys, "argv", [f"{module.rpartition('.')[2]}.py", "--help"]),
        warnings.catch_warnings(action="ignore"),
        contextlib.redirect_stdout(io.StringIO()) as printed,
    ):
        try:
            runpy.run_module(module, run_name="__main__")
        except SystemExit as end:
            return end.code, printed.getvalue()
    return "no end", printed.getvalue()


def started(name: str, *words: str) -> subprocess.CompletedProcess[str]:
    """How a script ends that is started in another folder."""
    with tempfile.TemporaryDirectory() as folder:
        return subprocess.run([TOP / "tools" / "run", name, *words], cwd=folder, text=True,
                              stdin=subprocess.DEVNULL, capture_output=True)


class Scripts(unittest.TestCase):
    def test_each_shows_its_help(self) -> None:
        self.assertGreater(len(scripts()), 40)
        for name, module in scripts().items():
            with self.subTest(name):
                status, printed = help_of(module)
                self.assertEqual(status, 0)
                self.assertTrue(printed.startswith(f"usage: {name}.py "), printed[:80])

    def test_they_start_from_another_folder(self) -> None:
        for name in ("prove_program", "check_python", "after_gate", "package_deb", "queries"):
            with self.subTest(name):
                ended = started(name, "--help")
                self.assertEqual((ended.returncode, ended.stderr), (0, ""))
                self.assertIn("usage: ", ended.stdout)

    def test_options_that_pages_name_are_there(self) -> None:
        named = {(name, option) for page in PAGES for name, words in CALL.findall(page.read_text())
                 if name != "NAME" for option in OPTION.findall(words)}
        self.assertGreater(len(named), 5)
        for name, option in sorted(named):
            with self.subTest(name):
                self.assertRegex(help_of(scripts()[name])[1], rf"{option}\b")

    def test_a_name_without_a_script_is_refused(self) -> None:
        for name in ("absent", "../gate/gate_time", "tables"):
            with self.subTest(name):
                self.assertEqual(started(name).returncode, 2)

    def test_each_name_is_that_of_one_file(self) -> None:
        names = [it.stem for it in modules()]
        self.assertEqual([it for it in names if names.count(it) > 1], [])

    def test_what_a_release_has_starts_by_its_path(self) -> None:
        for name in ("try_dialogue", "show_run"):
            script = TOP / "tools" / "user" / f"{name}.py"
            ended = subprocess.run([sys.executable, "-I", script, "--help"], cwd="/",
                                   capture_output=True, text=True)
            self.assertEqual((ended.returncode, ended.stderr), (0, ""))


class Page(unittest.TestCase):
    def listed(self, part: str) -> list[str]:
        """The files that a part of the page lists."""
        text = PAGE.read_text().partition(f"\n## `{part}/`")[2].partition("\n## ")[0]
        return sorted(LINE.findall(text))

    def test_each_file_has_a_line(self) -> None:
        for part in (*FOLDERS, "bench"):
            folder = TOP / part if part == "bench" else TOP / "tools" / part
            files = sorted(it.name for it in folder.iterdir()
                           if it.is_file() and it.name != "__init__.py")
            with self.subTest(part):
                self.assertEqual(self.listed(part), files)


if __name__ == "__main__":
    unittest.main()
