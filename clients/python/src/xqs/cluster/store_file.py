"""The file of a node's documents, and beside it a note of its place in the log.

`X.db.node` says whether a server runs on the file, or has ended in order. After an orderly end it
says how far the server had followed the log, and the size and sum of the file. If the file differs,
since a server was killed or something else wrote there, its place is unknown: the node begins anew.
"""

import hashlib
import json
import os
from dataclasses import dataclass
from pathlib import Path

from xqs.cluster.snapshots import sync_folder
from xqs.cluster.state import NoState, State
from xqs.cluster.steps import passed
from xqs.errors import XqError

_WITH_IT = ("", "-wal")
"""The file and its database log, which belong together."""
RUNNING = {"is": "running"}


class NotOurs(XqError):
    """A file of documents that never followed a log."""


@dataclass(frozen=True)
class StoreFile:
    """A file of documents that follows a log."""

    path: Path

    @property
    def note(self) -> Path:
        """The note beside the file."""
        return self.path.with_name(self.path.name + ".node")

    def begin(self) -> State | None:
        """The state from which a server on the file goes on; None if it begins without documents.
        From then on the note says that a server runs on the file.

        The files of a server that did not end in order are renamed to `X.db.left`. Raises NotOurs
        if there is a file that never followed a log.
        """
        state = self._ended_state()
        if state is None:
            if self.path.exists() and not self.note.exists():
                raise NotOurs(f"{self.path} exists, but never followed a log: give another "
                              "--file, and load its documents into the node")
            self._set_aside()
        self._write_note(RUNNING)
        return state

    def end(self, state: State) -> None:
        """Notes that the server ended in order, in this state."""
        passed("file ended")
        self._write_note({"is": "ended", "state": state.to_json(), "size": self._size(),
                          "sum": self._sum()})
        passed("file noted")

    def _ended_state(self) -> State | None:
        try:
            fields = json.loads(self.note.read_text())
            if fields["is"] != "ended" or fields["size"] != self._size():
                return None
            state = State.of_json(fields["state"])
            return state if fields["sum"] == self._sum() else None
        except (OSError, ValueError, KeyError, TypeError, NoState):
            return None

    def _parts(self) -> list[Path]:
        return [self.path.with_name(self.path.name + end) for end in _WITH_IT]

    def _size(self) -> int:
        return sum(it.stat().st_size for it in self._parts() if it.exists())

    def _sum(self) -> str:
        digest = hashlib.sha256()
        for part in self._parts():
            digest.update(_digest(part) if part.exists() else b"")
        return digest.hexdigest()

    def _set_aside(self) -> None:
        left = self.path.with_name(self.path.name + ".left")
        for part, end in zip(self._parts(), _WITH_IT, strict=True):
            aside = left.with_name(left.name + end)
            if part.exists():
                os.replace(part, aside)
            else:
                aside.unlink(missing_ok=True)

    def _write_note(self, fields: dict[str, object] | dict[str, str]) -> None:
        part = self.note.with_name(self.note.name + ".part")
        with open(part, "w") as file:
            file.write(json.dumps(fields))
            file.flush()
            os.fsync(file.fileno())
        os.replace(part, self.note)
        sync_folder(self.path.parent)


def _digest(path: Path) -> bytes:
    with open(path, "rb") as file:
        return hashlib.file_digest(file, "sha256").digest()
