"""Helpers for tests of `xqs web`: one server for all tests of a class, and requests to it."""

import json
import socket
import unittest
import urllib.parse
from contextlib import suppress

from tests.support import FolderTest

try:
    import aiohttp  # noqa: F401 (the package under test wants it)
except ImportError as error:
    raise unittest.SkipTest("aiohttp is not installed") from error

from running import TOKEN as TOKEN  # noqa: F401
from running import Answer as Answer
from running import RunningWeb as RunningWeb

ENDLESS = "every $x in 1 to 1000000, $y in 1 to 1000000 satisfies $x > 0"
BOOK = '<book id="1"><t>A &amp; B</t><!-- c --><?p q?></book>'
BOMB = ('<!DOCTYPE a [<!ENTITY b "bbbbbbbbbb"><!ENTITY c "&b;&b;&b;&b;&b;&b;&b;&b;">'
        "]><a>&c;&c;&c;</a>")
XQUERY = "application/xquery"


def asked(query: str, **parameters: str) -> str:
    """The path with a query."""
    return "/rest?" + urllib.parse.urlencode({"query": query, **parameters})


def read_all(connection: socket.socket) -> bytes:
    """The bytes until the stream ends, in order or not."""
    data = bytearray()
    with suppress(ConnectionResetError):
        while piece := connection.recv(1 << 16):
            data += piece
    return bytes(data)


class WebTest(FolderTest):
    """One server for all tests of a class."""

    web: RunningWeb
    words: tuple[str, ...] = ()

    @classmethod
    def setUpClass(cls) -> None:
        cls.web = cls.enterClassContext(RunningWeb(*cls.words))

    def tearDown(self) -> None:
        if self.web.process.poll() is None:
            for address in json.loads(self.web.ask("GET", "/rest", Accept="application/json").body):
                self.web.delete(address)

    def check(self, answer: Answer, status: int, body: str | None = None) -> None:
        """Checks a status, and the body if one is given."""
        self.assertEqual((answer.status, body and answer.body), (status, body), answer)

    def check_refused(self, answer: Answer, status: int, code: str) -> None:
        """Checks the status and code of a refusal; the code comes before its sentence."""
        self.assertEqual((answer.status, answer.headers.get("Xqs-Code")), (status, code), answer)
        self.assertTrue(answer.body.startswith(f"{code}: "), answer.body)
