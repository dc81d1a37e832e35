"""What a load has done so far, in a file, so that it can resume after a kill.

The file has one JSON value per line: first what is loaded and how, then each file with its size,
its time and its outcome. A line that was cut, as by a kill, is ignored.
"""

import hashlib
import json
import os
from pathlib import Path
from typing import Any, TextIO


def default_place(key: str) -> Path:
    """The journal file of a load with this key, by default: in the user's state folder."""
    state = os.environ.get("XDG_STATE_HOME") or Path.home() / ".local" / "state"
    return Path(state) / "xqs" / f"load-{hashlib.sha256(key.encode()).hexdigest()[:16]}.jsonl"


class Journal:
    """A journal in a file. Each line is on the disk for a later run as soon as it is written."""

    def __init__(self, path: Path, head: dict[str, str], anew: bool = False) -> None:
        """Continues the file if it has this head, else begins it anew. Raises OSError."""
        self.path = path
        self._files: dict[str, dict[str, Any]] = {}
        self.temporary: list[str] = []
        path.parent.mkdir(parents=True, exist_ok=True)
        is_same = not anew and self._read(head)
        self._file: TextIO = open(path, "a" if is_same else "w", encoding="utf-8")
        if not is_same:
            self._write(head)

    def result(self, path: str, stat: os.stat_result) -> str | None:
        """The outcome of a file that has not changed since; None if unknown."""
        entry = self._files.get(path)
        if entry and entry["size"] == stat.st_size and entry["time"] == stat.st_mtime_ns:
            return str(entry["result"])
        return None

    def add(self, path: str, stat: os.stat_result, result: str) -> None:
        """Notes the outcome of a file: `stored`, or why it is refused."""
        self._write(
            {"path": path, "size": stat.st_size, "time": stat.st_mtime_ns, "result": result}
        )

    def add_temporary(self, start: str) -> None:
        """Notes that documents may exist under addresses with this prefix."""
        self._write({"temporary": start})

    def close(self) -> None:
        """Closes the file and keeps it."""
        self._file.close()

    def finish(self) -> None:
        """Closes the file and removes it: the load is done."""
        self._file.close()
        self.path.unlink(missing_ok=True)

    def _read(self, head: dict[str, str]) -> bool:
        try:
            lines = self.path.read_text(encoding="utf-8", errors="replace").splitlines(True)
        except FileNotFoundError:
            return False
        values = [_value(line) for line in lines if line.endswith("\n")]
        if not values or values[0] != head:
            return False
        for value in values[1:]:
            if value and "path" in value:
                self._files[value["path"]] = value
            elif value and "temporary" in value:
                self.temporary.append(value["temporary"])
        if lines and not lines[-1].endswith("\n"):
            self.path.write_text("".join(lines[:-1]), encoding="utf-8")
        return True

    def _write(self, value: dict[str, Any]) -> None:
        self._file.write(json.dumps(value) + "\n")
        self._file.flush()


def _value(line: str) -> dict[str, Any] | None:
    try:
        value = json.loads(line)
    except ValueError:
        return None
    return value if isinstance(value, dict) else None
