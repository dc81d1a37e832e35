"""Addresses of files, and files of addresses, such that a folder keeps its names when it is loaded
and exported again.

An address has only letters, digits and `. _ / -`. Any other character of a file's name is written
by its number, as `_x0020_` for a space (the escapes of ISO 9075-14). So is a `_` that begins such a
text in the name itself.
"""

import re
from pathlib import PurePosixPath

from xqs import protocol
from xqs.errors import XqError

_ESCAPED = re.compile(r"_x([0-9A-F]{4,6})_")
_TO_ESCAPE = re.compile(r"[^A-Za-z0-9._/-]|_(?=x[0-9A-F]{4,6}_)")
_LONGEST_NAME = 255


class NoPath(XqError, ValueError):
    """An address for which there is no file below a folder."""


def _by_number(found: re.Match[str]) -> str:
    return f"_x{ord(found[0]):04X}_"


def _character(found: re.Match[str]) -> str:
    number = int(found[1], 16)
    return chr(number) if number < 0x110000 else found[0]


def address_of(path: str, prefix: str = "") -> str:
    """The address of a file, from its path below the folder, with `/` between names.

    Raises ValueError if it would be too long.
    """
    address = prefix + _TO_ESCAPE.sub(_by_number, path)
    if len(address) > protocol.MAX_ADDRESS:
        raise ValueError(f"its address would have {len(address)} bytes, over the limit of 200")
    return address


def path_of(address: str) -> PurePosixPath:
    """The path of an address's file below the folder.

    Raises NoPath if the address begins or ends with a slash, has `.`, `..` or nothing between two
    slashes, or would be a different one when that file is loaded.
    """
    path = _ESCAPED.sub(_character, address)
    if _TO_ESCAPE.sub(_by_number, path) != address:
        raise NoPath(f"{address} has an escape that would be lost if its file were loaded")
    names = path.split("/")
    if "" in names or "." in names or ".." in names or "\0" in path:
        raise NoPath(f"{address} is no path below a folder")
    if any(len(name.encode("utf-8", "surrogatepass")) > _LONGEST_NAME for name in names):
        raise NoPath(f"{address} has a name over 255 bytes")
    return PurePosixPath(path)
