"""Sends rows of tables (row_tables.py) to servers, and says which have other replies.

The frames of a run are sent ahead, to a server of its own, and their replies are compared once it
has ended. A row that is refused is sent twice, one right after the other, unless its group stands
`once`: a refusal changes nothing. Each reply of a query is itself a query, which gives itself over
no documents.
"""

import contextlib
import pathlib
import shutil
import subprocess
import tempfile
from collections.abc import Iterable, Iterator, Sequence
from dataclasses import dataclass

from tools.rows.tables import Group, Row
from xqs.protocol import MAX_REPLY, MAX_REQUEST, Kind, Splitter, framed, tag_of

SECONDS = 120
SHOWN = 300


@dataclass(frozen=True)
class Reply:
    """A reply: its tag, status and text."""

    tag: int
    status: int
    text: bytes


@dataclass(frozen=True)
class Ended:
    """What a server wrote, and how it ended."""

    output: bytes
    status: int
    line: str


def request(tag: int, row: Row) -> bytes:
    """The frame of a row, whatever its kind."""
    return framed(tag.to_bytes(4, "big") + row.kind + row.body)


def replies(output: bytes) -> list[Reply]:
    """The replies that a server wrote."""
    messages = Splitter(MAX_REPLY).feed(output)
    return [Reply(tag_of(it), it[4], it[5:]) for it in messages]


def whole_replies(output: bytes) -> tuple[list[Reply], bytes]:
    """The whole replies with which the output begins, and what is left of it."""
    found = replies(output)
    return found, output[sum(9 + len(reply.text) for reply in found):]


def served(command: Sequence[str], data: bytes) -> Ended:
    """What a server answers to these bytes, and then to the end of its input."""
    done = subprocess.run(command, input=data, capture_output=True, timeout=SECONDS)
    return Ended(done.stdout, done.returncode, done.stderr.decode().strip())


def asked(run: Iterable[Group]) -> list[tuple[str, Row]]:
    """The rows as they are sent, each with the name of its group."""
    return [(group.name, row) for group in run for row in group.rows
            for _time in range(2 if row.status == 1 and not group.once else 1)]


def shown(text: bytes) -> str:
    """A text as it is shown."""
    return repr(text[:SHOWN])


def difference(row: Row, tag: int, reply: Reply | None) -> str:
    """How the reply differs from the row's, or nothing."""
    if reply == Reply(tag, row.status, row.text) or is_of_no_tag(row, reply):
        return ""
    found = "no reply" if reply is None else f"{reply.status} {shown(reply.text)}"
    return (f"{row.kind.decode()} {shown(row.body)}: {found}, wanted {row.status} "
            f"{shown(row.text)}")


def is_of_no_tag(row: Row, reply: Reply | None) -> bool:
    """Whether it is the reply to a frame without a tag."""
    return row.text == b"prof:FRAME" and reply == Reply(0, row.status, row.text)


@contextlib.contextmanager
def over_copy(base: pathlib.Path | None) -> Iterator[list[str]]:
    """The words for a server over a copy of the file, where there is one."""
    if base is None:
        yield []
        return
    with tempfile.TemporaryDirectory() as folder:
        yield ["--file", shutil.copy(base, folder)]


def wrong(command: Sequence[str], run: Sequence[Group]) -> Iterator[str]:
    """What is wrong with the replies of a server to a run."""
    sent = asked(run)
    frames = [request(tag, row) for tag, (_name, row) in enumerate(sent, 1)]
    with over_copy(run[0].base) as words:
        ended = served([*command, *words], b"".join(frames))
    found = [*replies(ended.output), *[None] * len(sent)]
    if (ended.status, ended.line) != (0, ""):
        yield f"the server ended with status {ended.status}: {ended.line}"
    for tag, ((name, row), reply) in enumerate(zip(sent, found, strict=False), 1):
        if said := difference(row, tag, reply):
            yield f"{name}: {said}"


def read_back(groups: Iterable[Group]) -> Group:
    """The replies of the queries of these groups as queries that give themselves."""
    texts = {row.text for group in groups for row in group.rows
             if row.kind == Kind.QUERY and row.status == 0 and len(row.text) + 5 <= MAX_REQUEST}
    return Group("read back", tuple(Row(b"Q", text, 0, text) for text in sorted(texts)))
