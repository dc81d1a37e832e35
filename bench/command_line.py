"""The command line of a benchmark that builds a program of its own in a folder."""

from __future__ import annotations

import contextlib
import tempfile
from collections.abc import Iterator

from tools.common.command_line import parser


@contextlib.contextmanager
def folder(page: str | None) -> Iterator[str]:
    """The folder that the one word names, or one that is removed at the end."""
    words = parser(page)
    words.add_argument("folder", nargs="?", help="keeps what is built for the next call")
    given = words.parse_args()
    with tempfile.TemporaryDirectory() as scratch:
        yield given.folder or scratch
