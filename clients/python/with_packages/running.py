"""A running `xqs web` for tests, and requests to it."""

import base64
import http.client
import io
import subprocess
import sys
import tempfile
import time
import urllib.request
import zipfile
from collections.abc import Iterable, Mapping
from pathlib import Path
from typing import NamedTuple

from tests.serving import PATIENCE, SOURCES
from tests.support import file_server

TOKEN = "a-token-of-the-tests-alone"


class Answer(NamedTuple):
    """An answer."""

    status: int
    body: str
    headers: Mapping[str, str]


class RunningWeb:
    """A running web server, by default over a server on a file of its own.

    `words` are those of the command line. With `place` it connects there and starts no server, else
    it has `servers` servers.
    """

    def __init__(self, *words: str, place: str = "", has_token: bool = True,
                 servers: int = 1) -> None:
        self._folder = tempfile.TemporaryDirectory(prefix="xqs-web-test-")
        self.folder = Path(self._folder.name)
        self.token_file = self.folder / "token"
        if has_token:
            self.token_file.touch(mode=0o600)
            self.token_file.write_text(TOKEN + "\n")
            words = (*words, "--token-file", str(self.token_file))
        command = ["--servers", str(servers), "--", *file_server(self.folder / "x.db")]
        server = ["--server", place] if place else command
        self.errors = self.folder / "errors"
        with self.errors.open("wb") as errors:
            self.process = subprocess.Popen(
                [sys.executable, "-m", "xqs", "web", "--listen", "0", *words, *server],
                cwd=SOURCES, stdin=subprocess.DEVNULL, stdout=errors, stderr=errors)
        try:
            self.url = self.wait_for("listens at ").strip()
        except BaseException:
            self.process.kill()
            self.process.wait()
            raise
        self.host = self.url.removeprefix("http://").rstrip("/")

    def said(self) -> str:
        """Its messages so far."""
        return self.errors.read_text()

    def wait_for(self, words: str) -> str:
        """Waits until the words appear. Returns the rest of their line."""
        end = time.monotonic() + PATIENCE
        while words not in self.said():
            if time.monotonic() > end or self.process.poll() is not None:
                raise AssertionError(f"{words!r} was not said: {self.said()!r}")
            time.sleep(0.01)
        return self.said().split(words)[1].split("\n")[0]

    def ask(self, method: str, path: str, body: str | bytes | Iterable[bytes] | None = None,
            **headers: str) -> Answer:
        """Sends a request, in chunks if the body comes in pieces; `_` in the name of a header
        stands for a hyphen."""
        connection = http.client.HTTPConnection(self.host, timeout=4 * PATIENCE)
        named = {name.replace("_", "-"): value for name, value in headers.items()}
        data = body.encode() if isinstance(body, str) else body
        try:
            connection.request(method, path, data, named)
            response = connection.getresponse()
            return Answer(response.status, response.read().decode(), dict(response.getheaders()))
        finally:
            connection.close()

    def put(self, address: str, body: str | bytes | Iterable[bytes], kind: str = "application/xml",
            **headers: str) -> Answer:
        """Stores a document, with the token."""
        return self.ask("PUT", f"/rest/{address}", body, Content_Type=kind,
                        Authorization=self.account, **headers)

    def delete(self, address: str, **headers: str) -> Answer:
        """Drops a document, with the token."""
        return self.ask("DELETE", f"/rest/{address}", Authorization=self.account, **headers)

    @property
    def account(self) -> str:
        """The header with the token."""
        return f"Bearer {TOKEN}"

    def basic(self, user: str, password: str = TOKEN) -> str:
        """The header with a user and a password."""
        return f"Basic {base64.b64encode(f'{user}:{password}'.encode()).decode()}"

    def archive(self, path: str) -> dict[str, str]:
        """The files of an archive, by their names."""
        with urllib.request.urlopen(f"{self.url}{path[1:]}", timeout=PATIENCE) as response:
            archive = zipfile.ZipFile(io.BytesIO(response.read()))
        return {name: archive.read(name).decode() for name in archive.namelist()
                if not name.endswith("/")}

    def server_id(self) -> int:
        """The process id of the server, below its keeper."""
        return _child_of(_child_of(self.process.pid))

    def terminate(self) -> int:
        """Ends it by SIGTERM. Returns its exit status."""
        self.process.terminate()
        return self.process.wait(PATIENCE)

    def __enter__(self) -> "RunningWeb":
        return self

    def __exit__(self, *_: object) -> None:
        if self.process.poll() is None:
            self.process.terminate()
            try:
                self.process.wait(5)
            except subprocess.TimeoutExpired:
                self.process.kill()
                self.process.wait()
        said = self.said()
        self._folder.cleanup()
        assert "Traceback" not in said and "exception" not in said, said


def _child_of(parent: int) -> int:
    found = subprocess.run(["pgrep", "-P", str(parent)], capture_output=True, text=True, check=True)
    return int(found.stdout.split()[0])
