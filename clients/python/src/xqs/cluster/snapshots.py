"""Snapshots: the documents at one place of the log, with all that is needed to go on from there.

A file `OFFSET.snapshot` has the line `xqs snapshot 1`, the line `state BYTES SHA256`, the state of
a follower in BYTES bytes, a line feed, and then a backup in the form of `xqs backup`, with the
documents of temporary addresses too.
"""

import hashlib
import os
import re
from collections.abc import Callable
from dataclasses import dataclass
from pathlib import Path
from typing import BinaryIO

from xqs import backup as backup
from xqs.backup import NoBackup
from xqs.client import Client
from xqs.cluster.state import NoState, State
from xqs.cluster.steps import passed
from xqs.errors import XqError

FORM = b"xqs snapshot 1\n"
KEPT = 3
"""How many snapshots stay in a folder, the newest ones."""

_NAME = re.compile(r"(\d{16})\.snapshot")
_HEAD = re.compile(rb"state (\d{1,12}) ([0-9a-f]{64})\n")


class NoSnapshot(XqError, ValueError):
    """A file that is no whole snapshot."""


class WrongSnapshot(XqError):
    """A snapshot whose documents are not those of the server."""


@dataclass(frozen=True)
class Snapshot:
    """A whole snapshot: its file, and the state in which it was taken."""

    path: Path
    state: State


def path_of(folder: Path, offset: int) -> Path:
    """The file of the snapshot after the message with that offset."""
    return folder / f"{offset + 1:016}.snapshot"


def write(client: Client, state: State, folder: Path) -> tuple[Path, int]:
    """Takes a snapshot of a server that nobody else changes. Returns its file, and the number of
    documents.

    The file is written, read back, compared with the documents, and only then gets its name. Raises
    WrongSnapshot if they differ.
    """
    path = path_of(folder, state.offset)
    part = path.with_name(f"{path.name}.{os.getpid()}.part")
    try:
        with open(part, "w+b") as file:
            passed("snapshot begun")
            count = write_to(client, state, file)
            file.flush()
            os.fsync(file.fileno())
        passed("snapshot written")
        with open(part, "rb") as file:
            read_state(file)
            if changed := backup.check_against(client, file, is_still=True):
                raise WrongSnapshot(f"{len(changed)} documents changed under a snapshot, as "
                                    f"{changed[0]}")
        os.replace(part, path)
        sync_folder(folder)
        passed("snapshot named")
    finally:
        part.unlink(missing_ok=True)
    return path, count


def write_to(client: Client, state: State, file: BinaryIO) -> int:
    """Writes a snapshot. Returns the number of documents."""
    text = state.to_json().encode()
    digest = hashlib.sha256(text).hexdigest()
    file.write(FORM + f"state {len(text)} {digest}\n".encode() + text + b"\n")
    return backup.back_up(client, file, is_still=True)


def sync_folder(folder: Path) -> None:
    """Syncs the names in a folder to the disk."""
    number = os.open(folder, os.O_RDONLY)
    try:
        os.fsync(number)
    finally:
        os.close(number)


def read_state(file: BinaryIO) -> State:
    """The state at the head of a snapshot; the file then stands at its backup. Raises
    NoSnapshot."""
    if file.readline() != FORM:
        raise NoSnapshot("the file is not a snapshot")
    head = _HEAD.fullmatch(file.readline())
    if head is None:
        raise NoSnapshot("the snapshot has no state")
    text = file.read(int(head[1]))
    if hashlib.sha256(text).hexdigest() != head[2].decode() or file.read(1) != b"\n":
        raise NoSnapshot("the snapshot's state is cut short or was changed")
    try:
        return State.of_json(text.decode())
    except NoState as error:
        raise NoSnapshot(str(error)) from error


def judge(path: Path) -> Snapshot:
    """The snapshot in a file, with each document checked by its digest. Raises NoSnapshot,
    OSError."""
    with open(path, "rb") as file:
        state = read_state(file)
        try:
            for _ in backup.entries(file):
                pass
        except NoBackup as error:
            raise NoSnapshot(str(error)) from error
    return Snapshot(path, state)


def newest(folder: Path, say: Callable[[str], None],
           fits: Callable[[State], bool] = lambda state: True) -> Snapshot | None:
    """The newest snapshot of a folder that is whole and fits; reports each newer one that is not
    whole."""
    for path in reversed(files(folder)):
        try:
            found = judge(path)
        except (NoSnapshot, OSError) as error:
            say(f"{path} is left out: {error}")
            continue
        if fits(found.state):
            return found
    return None


def files(folder: Path) -> list[Path]:
    """The snapshots of a folder, the oldest first."""
    return sorted(it for it in folder.iterdir() if _NAME.fullmatch(it.name))


def restore(client: Client, snapshot: Snapshot) -> int:
    """Stores the documents of a snapshot in a server that has none, and reads each back. Returns
    their number.

    Raises NoBackup; ValueError if the server has documents; Refused and Wanting.
    """
    with open(snapshot.path, "rb") as file:
        read_state(file)
        return backup.restore(client, file, replace=False)


def remove_old(folder: Path, kept: int = KEPT) -> None:
    """Removes all snapshots except the newest ones, and unfinished files that a crash left."""
    for path in [*files(folder)[:-kept], *folder.glob("*.snapshot.*.part")]:
        path.unlink(missing_ok=True)
