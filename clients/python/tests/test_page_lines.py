"""Shell lines of README.md, CONTRIBUTING.md and docs/CLIENTS.md that are no session hold as well.

Each line is run here or in test_sessions.py, or it has a reason not to be: see NOT_RUN.
"""

import contextlib
import doctest
import re
import subprocess
from collections.abc import Iterator

from tests.support import TOP
from tests.test_sessions import MARKS, Sessions, sessions

README = (TOP / "README.md").read_text()
CLIENTS = (TOP / "docs" / "CLIENTS.md").read_text()
PAGES = (README, CLIENTS, (TOP / "CONTRIBUTING.md").read_text())
LINE = re.compile(r"^ {4,6}((?:\./|tools/|bench/|rt |cd |curl |printf |pip |apt |cp |systemctl "
                  r"|mkdir |export |python3 )\S.*)$", re.MULTILINE)
RUN = ("./serve", "./xqs serve x.db", "./xqs mux ", "./xqs status ", "./xqs --help")
"""How the lines begin that are run here."""
NOT_RUN = {
    "apt install": "it wants root and a package",
    "pip install": "it changes the system",
    "cp clients/": "it changes the system",
    "systemctl ": "it changes the system",
    "./demo": "it builds a program",
    "./check": "it runs this test",
    "./serve --unproved": "it builds a program",
    "./serve </dev/null": "it proves the program",
    "./xqs web ": "test_sessions.py runs it at a port of its own",
    "./xqs node ": "it wants brokers; with_packages runs nodes",
    "./xqs snapshot ": "it wants a node",
    "cd crates/": "the gate proves each crate",
    "rt ": "the gate proves each crate",
    "mkdir -p out; rt ci": "it is the gate",
    "tools/run ": "it takes minutes or hours; tools/tests/test_pages.py looks at its words",
    "tools/release/release.sh ": "it wants the log of a gate",
}
"""How the others begin, and why they are not."""
NUMBER = re.compile(r"\d[\d,.:]*")


def shape(text: str) -> str:
    """A text without its numbers and line breaks."""
    return NUMBER.sub("0", " ".join(text.split()))


def block(page: str, begin: str) -> list[str]:
    """The lines of a page's block that begins so."""
    found = re.search(rf"(?m)^ {{4}}{re.escape(begin)}(?:.*\n)(?: {{4}}.*\n)*", page)
    return [it[4:] for it in found[0].splitlines()] if found else []


class Lines(Sessions):
    """Lines that are run one by one, and stay for a while."""

    @contextlib.contextmanager
    def running(self, command: str) -> Iterator[list[str]]:
        """Runs a command below; gives what it says until it listens."""
        with subprocess.Popen(
            ["bash", "-c", f"exec {command}"], cwd=self.folder, env=self.environment(), text=True,
            stdin=subprocess.PIPE, stdout=subprocess.PIPE, stderr=subprocess.STDOUT
        ) as process:
            assert process.stdout is not None
            said: list[str] = []
            try:
                while not said or said[-1] and "listens at" not in said[-1]:
                    said.append(process.stdout.readline().rstrip())
                yield said
            finally:
                process.terminate()
                process.stdout.read()

    def store_two(self) -> None:
        """Two documents in the file of the pages."""
        self.write("a.xml", "<a/>")
        for address in ("a", "b"):
            self.assertEqual(self.run_command(f"./xqs store {address} a.xml --file x.db"),
                             "stored\n")

    def test_serving(self) -> None:
        for line in block(README, "./serve "):
            command = re.split(" {2,}", line)[0]
            with self.subTest(command):
                if command.startswith("./xqs mux"):
                    with self.running(command) as said:
                        self.assertIn("listens at unix:xq.sock", said[-1])
                elif command.startswith("./xqs serve"):
                    self.assertIn("is served by process", self.run_command(command))
                    self.assertIn("no longer served", self.run_command("./xqs stop x.db"))
                elif not any(command.startswith(it) for it in NOT_RUN):
                    self.assertEqual(self.run_command(command), "")

    def test_help(self) -> None:
        self.assertIn("usage: xqs", self.run_command("./xqs --help"))

    def test_a_file_is_held(self) -> None:
        self.store_two()
        (step,) = next(it for it in sessions(CLIENTS) if "query 1 --file" in it[0].command)
        with subprocess.Popen(["bash", "-c", "exec ./xqs shell --file x.db"], cwd=self.folder,
                              env=self.environment(), stdin=subprocess.PIPE,
                              stdout=subprocess.PIPE, text=True) as shell:
            assert shell.stdin is not None and shell.stdout is not None
            shell.stdin.write("1\n")
            shell.stdin.flush()
            self.assertEqual(shell.stdout.readline(), "1\n")
            found = shape(self.run_command(step.command))
            shell.stdin.close()
        programs = re.compile(r"process 0 \(.*?\)")
        self.assertEqual(programs.sub("process 0", found),
                         programs.sub("process 0", shape(step.prints)))

    def test_many_clients(self) -> None:
        self.store_two()
        command, *told = block(CLIENTS, "./xqs mux unix:xq.sock -- ")
        with self.running(command) as said:
            self.assertEqual(said, told[:1])
            status, *figures = block(CLIENTS, "./xqs status unix:xq.sock")
            found = self.run_command(status).splitlines()
            self.assertEqual(shape(found[0]), shape(figures[0]))
            self.assertRegex(found[1], r"^server 1: ready, documents in file, ")
            with contextlib.chdir(self.folder):
                self.check_library("\n".join(block(CLIENTS, ">>> from xqs import connect")))
            (self.folder / "new").mkdir()
            self.script("new/serve", "./serve")
            upgrade, *told = block(CLIENTS, "./xqs mux --upgrade ")
            self.assertIn(told[0], self.run_command(upgrade))

    def check_library(self, text: str) -> None:
        """Runs a session of Python."""
        test = doctest.DocTestParser().get_doctest(text, {}, "the page", None, 0)
        self.assertGreater(len(test.examples), 1)
        self.assertEqual(doctest.DocTestRunner().run(test).failed, 0)


class Coverage(Sessions):
    """No line and no session of the pages was forgotten."""

    def test_each_line_is_run_or_named(self) -> None:
        lines = [it for page in PAGES for it in LINE.findall(page)]
        self.assertGreater(len(lines), 30)
        known = (*RUN, *NOT_RUN)
        self.assertEqual([it for it in lines if not it.startswith(known)], [])

    def test_each_session_is_run(self) -> None:
        for session in sessions(CLIENTS):
            with self.subTest(session[0].command):
                self.assertTrue(any(mark in step.command for mark in MARKS for step in session))
