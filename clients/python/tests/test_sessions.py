"""Runs the sessions of README.md and docs/, and compares their output line by line.

A session is an indented block with lines that begin with `$ `; the lines after such a line are its
output. White space and line breaks count as one blank, since pages wrap long lines; `..` stands for
anything, and so do sizes, times and process numbers.
"""

import importlib.util
import os
import re
import shlex
import shutil
import socket
import subprocess
import sys
import unittest
from collections.abc import Iterator
from dataclasses import dataclass
from typing import ClassVar

from tests.serving import PATIENCE
from tests.support import TOP, FolderTest, server_command

SOURCES = TOP / "clients" / "python" / "src"
PORT = "8984"
"""The port in the pages; the tests use another one."""
LIBRARY = ('<lib><book id="1"><title>Ink</title></book>'
           '<book id="2"><title>Paper</title></book></lib>')
ANYTHING = re.compile(r"\d+ bytes|\d+\.\d+ MB in \d+\.\d+ s|\(lines? \d+\)|process \d+"
                      r"|/\S+/x\.db\.sock|/\S+/serve-[0-9a-f]+\.log|\.\.")
"""What differs each time."""


MARKS = ("dc:title", "conut", "'1+'", "--in books", "xqs shell", "--seconds 2", "xqs load records",
         "xqs backup", "curl -T books.xml", "grep ETag", "xqs serve x.db", "query 1 --file x.db")
"""What tells the sessions of docs/CLIENTS.md that are run, the last in test_page_lines.py."""


@dataclass(frozen=True)
class Step:
    """A command of a session, and its output."""

    command: str
    prints: str


def sessions(page: str) -> Iterator[list[Step]]:
    """The sessions of a page."""
    for block in re.split(r"\n(?! *\n)(?! {4})", page):
        lines = [it.strip() for it in block.splitlines() if it.startswith("    ")]
        if any(it.startswith("$ ") for it in lines):
            yield list(_steps(lines))


def _steps(lines: list[str]) -> Iterator[Step]:
    at = next(at for at, it in enumerate(lines) if it.startswith("$ "))
    while at < len(lines):
        command, at = lines[at].removeprefix("$ "), at + 1
        while command.endswith("\\"):
            command, at = command[:-1] + lines[at], at + 1
        end = next((it for it in range(at, len(lines)) if lines[it].startswith("$ ")), len(lines))
        yield Step(command, "\n".join(lines[at:end]))
        at = end


def is_as_told(found: str, told: str) -> bool:
    """Whether the output is what the page shows."""
    parts = ANYTHING.split(" ".join(told.split()))
    pattern = ".*".join(re.escape(it.strip()) for it in parts)
    return re.fullmatch(pattern, " ".join(found.split()), re.DOTALL) is not None


class Sessions(FolderTest):
    """Runs sessions in a folder in which `./xqs` and `./serve` are the programs of the tests."""

    port: ClassVar[str]

    def setUp(self) -> None:
        super().setUp()
        self.script("serve", shlex.join(server_command()))
        self.script("xqs", f"{shlex.quote(sys.executable)} -m xqs")
        with socket.socket() as free:
            free.bind(("127.0.0.1", 0))
            self.place = f"127.0.0.1:{free.getsockname()[1]}"

    def script(self, name: str, words: str) -> None:
        """A program in the folder that runs another one."""
        path = self.folder / name
        path.write_text(f'#!/bin/sh\nexec {words} "$@"\n')
        path.chmod(0o755)

    def environment(self) -> dict[str, str]:
        """The environment of the commands. Their two streams come in order, as on a terminal."""
        own = {"PYTHONPATH": str(SOURCES), "XQS_SERVER": "./serve", "HOME": str(self.folder),
               "XDG_STATE_HOME": str(self.folder / "state"), "COLUMNS": "100",
               "PYTHONUNBUFFERED": "1"}
        return {**os.environ, **own}

    def run_command(self, command: str, typed: str = "") -> str:
        """The output of a command, on both streams."""
        ended = subprocess.run(
            ["bash", "-c", command.replace(f"127.0.0.1:{PORT}", self.place)], cwd=self.folder,
            env=self.environment(), input=typed, stdout=subprocess.PIPE, stderr=subprocess.STDOUT,
            text=True, timeout=PATIENCE)
        return ended.stdout

    def check(self, step: Step) -> None:
        """Runs a command, and compares its output."""
        with self.subTest(step.command):
            if step.command.startswith("cat "):
                (self.folder / step.command.split()[1]).write_text(step.prints + "\n")
            elif "xqs shell" in step.command:
                self.check_shell(step)
            else:
                found = self.run_command(step.command)
                self.assertTrue(is_as_told(found, step.prints), f"{found}\nis not\n{step.prints}")

    def check_shell(self, step: Step) -> None:
        """Types the texts after the prompts, and compares the output."""
        lines = step.prints.splitlines()
        prompt = re.compile(r"(xqs|\.\.\.)> ")
        typed = "\n".join(it[5:] for it in lines if prompt.match(it))
        told = "\n".join(it for it in lines if not prompt.match(it))
        found = self.run_command(step.command, typed + "\n")
        self.assertTrue(is_as_told(found, told), f"{found}\nis not\n{told}")

    def write(self, name: str, text: str) -> None:
        """A file of the folder."""
        path = self.folder / name
        path.parent.mkdir(exist_ok=True)
        path.write_text(text)


class Readme(Sessions):
    def test_its_session(self) -> None:
        steps = [it for some in sessions((TOP / "README.md").read_text()) for it in some]
        self.assertGreater(len(steps), 7)
        for step in steps:
            is_here = "xxd" not in step.command or shutil.which("xxd")
            if is_here and not step.command.startswith("export "):
                self.check(step)


class Protocol(Sessions):
    @unittest.skipUnless(shutil.which("xxd"), "it wants xxd")
    def test_its_session(self) -> None:
        for steps in sessions((TOP / "docs" / "PROTOCOL.md").read_text()):
            for step in steps:
                self.check(step)


class Clients(Sessions):
    """docs/CLIENTS.md; each session begins with the files and documents that its text mentions."""

    def steps(self, mark: str) -> list[Step]:
        """The session with a command that has the mark."""
        page = (TOP / "docs" / "CLIENTS.md").read_text()
        found = [it for it in sessions(page) if any(mark in step.command for step in it)]
        self.assertEqual(len(found), 1, mark)
        return found[0]

    def go_through(self, mark: str) -> None:
        """Runs a session."""
        for step in self.steps(mark):
            self.check(step)

    def store(self, address: str, text: str, *words: str) -> None:
        """Stores a document of XML in the file of the sessions."""
        self.write("in.xml", text)
        words_of = shlex.join(["store", address, "in.xml", "--file", "x.db", *words])
        self.assertIn("stored", self.run_command(f"./xqs {words_of}"))

    def test_names_with_a_colon(self) -> None:
        self.store("feed", '<f xmlns:dc="u"><dc:title xml:lang="en">Ink</dc:title>'
                   '<dc:title xml:lang="de">Tinte</dc:title></f>', "--names", "flat")
        self.go_through("dc:title")

    def test_queries_by_hand(self) -> None:
        self.store("books/a.xml", LIBRARY)
        for mark in ("conut", "'1+'", "--in books", "xqs shell"):
            self.go_through(mark)

    def test_a_file_in_the_background(self) -> None:
        for address in ("a", "b"):
            self.store(address, "<a/>")
        self.go_through("xqs serve x.db")

    def test_a_request_that_is_too_long(self) -> None:
        self.go_through("--seconds 2")

    def test_folders_and_backups(self) -> None:
        self.write("records/a.xml", "<a/>")
        self.write("records/b.xml", '<b xmlns="u"/>')
        self.write("records/c.xml", "<c>\n  <d>text</c>\n")
        for mark in ("xqs load records", "xqs backup"):
            self.go_through(mark)

    @unittest.skipUnless(shutil.which("curl") and importlib.util.find_spec("aiohttp"),
                         "it wants curl and python3-aiohttp")
    def test_http(self) -> None:
        self.write(".curlrc", "silent\n")  # (as if its output were a terminal)
        self.write("books.xml", '<lib><book id="1">A &amp; B</book></lib>')
        self.write("new.xml", "<lib/>")
        words = ["./xqs", "web", "--token-file", "token", "--listen", self.place, "--", "./serve",
                 "--file", "x.db"]
        web = subprocess.Popen(words, cwd=self.folder, env=self.environment(), text=True,
                               stdin=subprocess.DEVNULL, stderr=subprocess.PIPE)
        self.addCleanup(web.communicate)
        self.addCleanup(web.terminate)
        assert web.stderr is not None
        self.assertIn("listens at", web.stderr.readline())
        self.go_through("curl -T books.xml")
        tag, change = self.steps("grep ETag")
        self.assertTrue(self.run_command(tag.command).startswith("ETag: "))
        self.assertEqual(self.run_command(tag.command).strip(), tag.prints)
        self.check(change)


class Reading(unittest.TestCase):
    def test_what_is_as_told(self) -> None:
        for found, told in (("a b\nc", "a\nb c"), ("2 documents, 17 bytes", "2 documents, 4 bytes"),
                            ("a\nx: 1\nb", "a\n..\nb"), ("1 stored; 0.1 MB in 2.3 s",
                                                         "1 stored; 0.0 MB in 0.1 s")):
            self.assertTrue(is_as_told(found, told), (found, told))
        for found, told in (("a b", "a"), ("a", "a b"), ("3 documents", "2 documents")):
            self.assertFalse(is_as_told(found, told), (found, told))

    def test_sessions_are_found(self) -> None:
        page = "x\n\n    $ a \\\n        b\n    1\n    $ c\n\n    $ d\n    2\n\ny\n\n    e\n"
        self.assertEqual(list(sessions(page)),
                         [[Step("a b", "1"), Step("c", ""), Step("d", "2")]])
