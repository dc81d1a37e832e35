"""The command line: versions, servers behind `--`, warnings, and a file that is in use."""

import io
import os
import shlex
import subprocess
import sys
import unittest
from contextlib import redirect_stderr, redirect_stdout
from unittest import mock

import xqs
from tests.serving import RunningMux
from tests.support import FolderTest, file_server, server_command
from xqs import NotStarted, connect
from xqs.cli import COMMANDS, connection_options, main, server_of, with_server
from xqs.endpoints import Command
from xqs.in_use import file_of, holders, why_not_opened


def ran(*words: str) -> tuple[int, str, str]:
    """The status, output and messages of a command."""
    out, said = io.StringIO(), io.StringIO()
    with redirect_stdout(out), redirect_stderr(said):
        try:
            status = main(words)
        except SystemExit as error:
            status = int(error.code or 0)
    return status, out.getvalue(), said.getvalue()


class Words(FolderTest):
    def test_version(self) -> None:
        self.assertEqual(ran("--version"), (0, f"xqs {xqs.__version__}\n", ""))

    def test_a_server_behind_a_mark(self) -> None:
        server = file_server(self.folder / "x.db")
        file = self.folder / "a.xml"
        file.write_text("<a/>")
        for words, shown in (
            (["store", "a", str(file)], "stored\n"), (["list"], "a\n"),
            (["query", 'doc("a")'], "document {element a {}}\n"),
            (["get", "a"], "document {element a {}}\n"), (["shell", "-c", "1 + 1"], "2\n"),
            (["query", "--", "-(1)"], "-1\n"), (["drop", "a"], ""), (["gc"], ""),
        ):
            with self.subTest(words):
                self.assertEqual(ran(*words, "--", *server)[:2], (0, shown))

    def test_what_is_no_server(self) -> None:
        with mock.patch.dict(os.environ, {"XQS_SERVER": shlex.join(server_command())}):
            self.assertEqual(ran("query", "--", "-(1)")[:2], (0, "-1\n"))
        self.assertIn("command must follow --", ran("query", "1", "--")[2])
        self.assertIn("two servers", ran("query", "1", "--server", "x", "--", "y")[2])
        self.assertEqual(with_server(COMMANDS["list"], ["--", "a", "b c"]),
                         ["--server", "a 'b c'"])
        self.assertEqual(ran("query", "1", "--", "/nowhere/server")[0], 1)

    def test_how_much_a_server_keeps(self) -> None:
        for words, command in (
            ("--kept 300", "./serve --kept 300"), ("", "./serve"),
            ("--kept=1048576 --file x.db", "./serve --file x.db --kept 1048576"),
        ):
            given = connection_options().parse_args(["--server", "./serve", *words.split()])
            self.assertEqual(server_of(given), Command(tuple(command.split())))
        for word in ("0", "1048577", "-1", "1.5", "many", ""):
            status, out, said = ran("list", "--server", "./serve", f"--kept={word}")
            self.assertEqual((status, out), (2, ""))
            self.assertIn(f"--kept: not a number from 1 to 1,048,576: {word!r}", said)
        status, out, said = ran("list", "--server", "unix:x.sock", "--kept", "5")
        self.assertEqual((status, out), (1, ""))
        self.assertIn("--kept goes with a command that is started, not with unix:x.sock", said)

    def test_documents_in_memory(self) -> None:
        file = self.folder / "a.xml"
        file.write_text("<a/>")
        server = shlex.join(server_command())
        said = ran("store", "a", str(file), "--server", server)[2]
        self.assertIn("in memory and will be lost when this command ends", said)
        with mock.patch.dict(os.environ, {"XQS_SERVER": f"env A=b {server}"}):
            self.assertIn("in memory", ran("store", "a", str(file))[2])
            self.assertIn("in memory", ran("load", str(self.folder), "--journal",
                                           str(self.folder / "j"))[2])
            self.assertNotIn("in memory", ran("query", "1")[2])
        on_file = ("--server", server, "--file", str(self.folder / "x.db"))
        self.assertNotIn("in memory", ran("store", "a", str(file), *on_file)[2])

    def test_its_own_words_after_an_interrupt(self) -> None:
        process = subprocess.run([sys.executable, "-m", "xqs"], capture_output=True, check=False,
                                 cwd=os.path.join(os.path.dirname(__file__), "..", "src"))
        self.assertEqual(process.returncode, 2)


class InUse(FolderTest):
    def test_who_holds_a_file(self) -> None:
        path = self.folder / "x.db"
        with connect(file_server(path)) as client:
            client.list()
            [holder] = holders(path)
            self.assertEqual(holder.words[-1], str(path))
            self.assertNotEqual(holder.process, os.getpid())
            with connect(file_server(path)) as other:
                with self.assertRaisesRegex(NotStarted, f"in use by process {holder.process} "):
                    other.query("1")
            status, _, said = ran("query", "1", "--server", shlex.join(server_command()),
                                  "--file", str(path))
            self.assertEqual(status, 1)
            self.assertIn(f"in use by process {holder.process}", said)
        with connect(file_server(path)) as client:
            self.assertEqual(client.list(), [])

    def test_a_multiplexer_is_named(self) -> None:
        with RunningMux() as mux:
            status, _, said = ran("list", "--", *mux.command)
            self.assertEqual(status, 1)
            self.assertIn(f"started by process {mux.process.pid} (", said)
            self.assertIn("xqs mux", said)

    def test_other_reasons(self) -> None:
        def why(path: object) -> str:
            return why_not_opened(["serve", "--file", str(path)])

        self.assertIn("there is no folder", why(self.folder / "none" / "x.db"))
        self.assertIn("is a folder", why(self.folder))
        self.assertEqual(why_not_opened(["serve"]), "")
        self.assertEqual(str(file_of(["serve", "--file=a b"])), "a b")
        if os.getuid():
            (self.folder / "x.db").touch(0o400)
            self.assertIn("can't be read and written", why(self.folder / "x.db"))


if __name__ == "__main__":
    unittest.main()
