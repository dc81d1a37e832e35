"""Files with one JSON value a line."""

import json
import os
from typing import Any, TypeAlias

# An object of JSON: which values it has depends on the file.
Line: TypeAlias = dict[str, Any]


def lines_of(path: str | os.PathLike[str]) -> list[Line]:
    """The values of the file, line by line."""
    with open(path, encoding="utf-8", newline="\n") as file:
        return [json.loads(line) for line in file]
