"""`xqs backup` and `xqs restore`: all documents as constructors in one file, and back.

The file is text in UTF-8. The first line names the format. Then each document has a line `document
BYTES SHA256 ADDRESS`, its constructor of BYTES bytes, and a line feed. The last line is `end
COUNT`. The digest is that of the constructor as the server prints it.
"""

import argparse
import hashlib
import os
import sys
import tempfile
from collections.abc import Callable, Iterator, Sequence
from dataclasses import dataclass
from pathlib import Path
from typing import IO, BinaryIO

from xqs.cli import connected, connection_options, server_of, warn_of_memory
from xqs.client import Client
from xqs.errors import Refused, XqError
from xqs.fetch import write_text
from xqs.progress import Progress, progress_of, silent
from xqs.stores import store_again
from xqs.temporary import is_temporary

FORM = b"xqs backup 1\n"
_IN_MEMORY = 32_000_000
_PIECE = 1 << 20


class NoBackup(XqError, ValueError):
    """A file that is not a whole backup, or was changed."""


@dataclass(frozen=True)
class Entry:
    """A document of a backup: its address, the digest of its constructor, and the constructor's
    place and length in the file, in bytes."""

    address: str
    digest: str
    start: int
    size: int


def digest_of(
    client: Client, address: str, is_still: bool = False,
    read: Callable[[int], object] = lambda _: None
) -> str:
    """The digest of a document of any length; `is_still` as in `back_up`. `read` is called with the
    number of bytes read so far."""
    digest, count = hashlib.sha256(), 0

    def write(text: str) -> None:
        nonlocal count
        data = text.encode()
        digest.update(data)
        count += len(data)
        read(count)

    write_text(client, address, write, is_still)
    return digest.hexdigest()


def back_up(
    client: Client, file: BinaryIO, is_still: bool = False, progress: Progress | None = None
) -> int:
    """Writes all documents except temporary ones. Returns their number.

    `is_still` says that nobody stores or drops meanwhile. Then temporary documents are written too,
    and no document is copied in order to read it.
    """
    file.write(FORM)
    addresses = _addresses(client, is_still)
    progress = progress or silent()
    progress.begin(len(addresses), 0)
    for address in addresses:
        before = file.tell()
        _write_entry(client, address, file, is_still, progress)
        progress.step(file.tell() - before)
    file.write(f"end {len(addresses)}\n".encode())
    return len(addresses)


def _addresses(client: Client, is_still: bool) -> list[str]:
    return [it for it in client.list() if is_still or not is_temporary(it)]


def _write_entry(
    client: Client, address: str, file: BinaryIO, is_still: bool, progress: Progress
) -> None:
    digest = hashlib.sha256()
    with tempfile.SpooledTemporaryFile(_IN_MEMORY) as held:

        def write(text: str) -> None:
            data = text.encode()
            digest.update(data)
            held.write(data)
            progress.reach(held.tell())

        write_text(client, address, write, is_still, progress)
        file.write(f"document {held.tell()} {digest.hexdigest()} {address}\n".encode())
        held.seek(0)
        _copy(held, file)
    file.write(b"\n")


def _copy(source: IO[bytes], target: BinaryIO) -> None:
    while piece := source.read(_PIECE):
        target.write(piece)


def entries(file: BinaryIO) -> Iterator[Entry]:
    """The documents of a backup, each checked by its digest. Raises NoBackup."""
    if file.readline() != FORM:
        raise NoBackup("the file is not a backup")
    count = 0
    while (line := file.readline()).startswith(b"document "):
        entry = _entry(line, file.tell())
        if _digest(file, entry.size) != entry.digest or file.read(1) != b"\n":
            raise NoBackup(f"the backup's document {entry.address} is cut short or was changed")
        yield entry
        count += 1
        file.seek(entry.start + entry.size + 1)
    if line != f"end {count}\n".encode() or file.read(1):
        raise NoBackup(f"the backup is cut short, or has more, after {count} documents")


def _entry(line: bytes, start: int) -> Entry:
    try:
        _, size, digest, address = line.decode("ascii").removesuffix("\n").split(" ")
        return Entry(address, digest, start, int(size))
    except ValueError as error:
        raise NoBackup(f"not a line of a backup: {line[:80]!r}") from error


def _digest(file: BinaryIO, size: int) -> str:
    digest = hashlib.sha256()
    left = size
    while left and (piece := file.read(min(left, _PIECE))):
        digest.update(piece)
        left -= len(piece)
    return digest.hexdigest()


def restore(
    client: Client, file: BinaryIO, replace: bool, progress: Progress | None = None
) -> int:
    """Stores the documents of a backup and reads each one back. Returns their number.

    The whole file is checked before the first document is stored. Raises NoBackup; ValueError if an
    address has a document already and documents may not be replaced; Refused and Wanting.
    """
    wanted = list(entries(file))
    there = set(client.list())
    taken = [it.address for it in wanted if it.address in there]
    if taken and not replace:
        raise ValueError(
            f"{len(taken)} addresses have a document already, as {taken[0]}; --replace replaces "
            "them"
        )
    progress = progress or silent()
    progress.begin(len(wanted), sum(it.size for it in wanted), passes=2)
    for entry in wanted:
        _restore_entry(client, file, entry, progress)
        progress.step(2 * entry.size)
    return len(wanted)


def _restore_entry(client: Client, file: BinaryIO, entry: Entry, progress: Progress) -> None:
    """Stores a document and reads it back. Raises NoBackup."""
    file.seek(entry.start)
    store_again(client, entry.address, file.read(entry.size).decode(), progress)
    digest = digest_of(client, entry.address, read=lambda it: progress.reach(entry.size + it))
    if digest != entry.digest:
        raise NoBackup(f"the document {entry.address} does not read back as it was")


def check_against(
    client: Client, file: BinaryIO, is_still: bool = False, progress: Progress | None = None
) -> list[str]:
    """The addresses whose documents now differ from the backup; `is_still` as in `back_up`."""
    held = {it.address: it for it in entries(file)}
    now = set(_addresses(client, is_still))
    progress = progress or silent()
    progress.begin(len(held), sum(it.size for it in held.values()))
    changed: list[str] = []
    for address in held.keys() & now:
        if digest_of(client, address, is_still, progress.reach) != held[address].digest:
            changed.append(address)
        progress.step(held[address].size)
    return sorted(changed) + sorted(held.keys() ^ now)


def main(words: Sequence[str]) -> int:
    """Runs `xqs backup`."""
    parser = argparse.ArgumentParser(
        prog="xqs backup",
        parents=[connection_options()],
        description="Writes all documents to one file, and reads it back. Each document is a "
        "consistent snapshot; documents that change meanwhile are listed.",
    )
    parser.add_argument("backup", type=Path)
    parser.add_argument("--force", action="store_true", help="replace an existing file")
    given = parser.parse_args(words)
    if given.backup.exists() and not given.force:
        raise FileExistsError(f"{given.backup} exists already; --force replaces it")
    part = given.backup.with_name(given.backup.name + ".part")
    try:
        with connected(given) as client, open(part, "w+b") as file:
            with progress_of() as progress:
                count = back_up(client, file, progress=progress)
                file.flush()
                os.fsync(file.fileno())
                file.seek(0)
                changed = check_against(client, file, progress=progress)
        os.replace(part, given.backup)
    finally:
        part.unlink(missing_ok=True)
    for address in changed:
        print(f"{address}: was changed meanwhile")
    print(f"{count} documents, {given.backup.stat().st_size:,} bytes", file=sys.stderr)
    return 1 if changed else 0


def _pass_state(file: BinaryIO) -> None:
    """Skips the head of a node's snapshot, so that the file stands at its backup; leaves any other
    file at its beginning."""
    # (here, since snapshots build on backups)
    from xqs.cluster import snapshots

    if file.readline() == snapshots.FORM:
        file.seek(0)
        snapshots.read_state(file)
    else:
        file.seek(0)


def restore_main(words: Sequence[str]) -> int:
    """Runs `xqs restore`."""
    parser = argparse.ArgumentParser(
        prog="xqs restore",
        parents=[connection_options()],
        description="Stores the documents of a backup, or of a node's snapshot, and reads each "
        "back. The whole file is checked before the first one is stored; other documents stay as "
        "they are.",
    )
    parser.add_argument("backup", type=Path)
    parser.add_argument("--replace", action="store_true", help="replace existing documents")
    given = parser.parse_args(words)
    place = server_of(given)
    warn_of_memory(place, "restore")
    with connected(given, place) as client, open(given.backup, "rb") as file:
        _pass_state(file)
        try:
            with progress_of() as progress:
                count = restore(client, file, given.replace, progress)
        except Refused as error:
            print(f"xqs restore: {error.request}: {error}", file=sys.stderr)
            return 1
    print(f"{count} documents are restored, and read back the same", file=sys.stderr)
    return 0
