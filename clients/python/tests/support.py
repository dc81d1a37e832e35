"""What the tests share: the server's command, a server for each class of tests, its files."""

import io
import os
import shlex
import shutil
import tempfile
import unittest
from contextlib import redirect_stderr, redirect_stdout
from pathlib import Path
from unittest import mock

from xqs import Client, connect
from xqs.cli import main
from xqs.requests import store_of
from xqs.temporary import Temporary

TOP = Path(__file__).resolve().parents[3]
"""The repository's root."""
LIBRARY = (
    'document {element lib {element book {attribute id {"1"}, text {"A"}}, '
    'element book {attribute id {"2"}, text {"B"}}}}'
)
"""The document of docs/LANGUAGE.md's examples."""


long_test = unittest.skipUnless(os.environ.get("XQS_LONG"), "it takes long; set XQS_LONG=1")
"""For tests that take minutes or gigabytes."""


def server_command() -> list[str]:
    """The words that start a server with documents in memory."""
    return shlex.split(os.environ.get("XQS_SERVER", "")) or [str(TOP / "serve")]


def file_server(path: str | Path) -> list[str]:
    """The words that start a server on a file."""
    return [*server_command(), "--file", str(path)]


def store_part(client: Client, address: str = "", text: str = "document {}") -> None:
    """Stores a document as an interrupted load leaves one."""
    client.request_later(store_of(address or Temporary().next(), text)).result()


class FolderTest(unittest.TestCase):
    """Tests with a folder of their own, `self.folder`."""

    def setUp(self) -> None:
        self.folder = Path(tempfile.mkdtemp(prefix="xqs-test-"))
        self.addCleanup(shutil.rmtree, self.folder)


class ServerTest(FolderTest):
    """Tests over one server, `self.server`, whose documents are dropped after each test."""

    server: Client

    @classmethod
    def setUpClass(cls) -> None:
        cls.server = connect(server_command())
        cls.addClassCleanup(cls.server.close)

    def tearDown(self) -> None:
        for address in self.server.list():
            self.server.drop(address)


class CommandTest(FolderTest):
    """Runs the command over a server on a file."""

    def setUp(self) -> None:
        super().setUp()
        self.words = ["--server", " ".join(server_command()), "--file", str(self.folder / "x.db")]
        state = mock.patch.dict(os.environ, {"XDG_STATE_HOME": str(self.folder / "state")})
        state.start()
        self.addCleanup(state.stop)

    def run_command(self, *words: str | Path) -> tuple[int, str, str]:
        """The status, output and messages of a command."""
        out, said = io.StringIO(), io.StringIO()
        with redirect_stdout(out), redirect_stderr(said):
            status = main([str(words[0]), *self.words, *map(str, words[1:])])
        return status, out.getvalue(), said.getvalue()

    def write(self, path: str, text: str | bytes) -> Path:
        """A file of the folder `in`."""
        file = self.folder / "in" / path
        file.parent.mkdir(parents=True, exist_ok=True)
        file.write_bytes(text.encode() if isinstance(text, str) else text)
        return file
