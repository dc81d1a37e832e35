"""Frames of requests and replies, as in docs/PROTOCOL.md. This module does no input or output.

All lengths are in bytes. A *message* is what follows the four bytes of a frame's length.
"""

import struct
from collections.abc import Iterator
from enum import Enum

from xqs.errors import NotAnAddress, NoText, XqError

MAX_REQUEST = 1_048_832
"""The longest message of a request: tag, kind and body."""
MAX_REPLY_TEXT = 16_777_216
"""The longest text of a reply."""
MAX_REPLY = MAX_REPLY_TEXT + 5
"""The longest message of a reply: tag, status and text."""
FRAME_LIMIT = 1_000_000
"""How many frames a server answers before it ends."""
MAX_ADDRESS = 200
"""The longest address."""
MAX_NODES = 1_000_000
"""The most nodes of a document."""
MAX_LEVEL = 100
"""The deepest level of a node; the document has level 0."""
MAX_TAG = 2**32 - 1

_LENGTH = struct.Struct(">I")
_HEAD = struct.Struct(">II")
_REQUEST_HEAD = struct.Struct(">IIc")
_ADDRESS_BYTES = frozenset(
    b"ABCDEFGHIJKLMNOPQRSTUVWXYZabcdefghijklmnopqrstuvwxyz0123456789._/-"
)


class Kind(bytes, Enum):
    """The kinds of requests."""

    QUERY = b"Q"
    STORE = b"S"
    DROP = b"D"
    LIST = b"L"


class Status(int, Enum):
    """The statuses of replies."""

    DONE = 0
    REFUSED = 1
    WANTING = 2


class FrameFault(XqError, ValueError):
    """A message that is too long, or too short for its fields."""


def is_address(raw: bytes) -> bool:
    """Whether the bytes are a valid address."""
    return 1 <= len(raw) <= MAX_ADDRESS and _ADDRESS_BYTES.issuperset(raw)


def address_bytes(address: str) -> bytes:
    """The bytes of an address. Raises NotAnAddress if it is invalid."""
    raw = address.encode("utf-8", "surrogatepass")
    if not is_address(raw):
        raise NotAnAddress(
            f"not an address: {address!r} (1 to {MAX_ADDRESS} of A-Z a-z 0-9 . _ / -)"
        )
    return raw


def store_body(address: str, query: str) -> bytes:
    """The body of a store: the address after its length, and the query.

    Raises NotAnAddress if the address is invalid, NoText if the query has no UTF-8.
    """
    raw = address_bytes(address)
    return bytes([len(raw)]) + raw + utf8(query)


def utf8(text: str) -> bytes:
    """The bytes of a text. Raises NoText if it has no UTF-8."""
    try:
        return text.encode()
    except UnicodeEncodeError as error:
        raise NoText(f"the text has no UTF-8: character {error.start + 1} is an unpaired "
                     "surrogate") from error


def frame(tag: int, kind: Kind, body: bytes = b"") -> bytes:
    """The frame of a request. Raises FrameFault if it would be above the limit."""
    length = len(body) + 5
    if length > MAX_REQUEST:
        raise FrameFault(f"a request of {length:,} bytes, over the limit of {MAX_REQUEST:,}")
    return _REQUEST_HEAD.pack(length, tag, kind.value) + body


def reply(tag: int, status: Status, text: bytes) -> bytes:
    """The frame of a reply, as the server writes it."""
    return _LENGTH.pack(len(text) + 5) + _LENGTH.pack(tag) + bytes([status]) + text


def framed(message: bytes) -> bytes:
    """A message with its length in front."""
    return _LENGTH.pack(len(message)) + message


def head_of(length: int, tag: int) -> bytes:
    """The length and the tag of a frame whose kind and body have so many bytes."""
    return _HEAD.pack(4 + length, tag)


def tag_of(message: bytes) -> int:
    """The tag of a message. Raises FrameFault if it is too short for one."""
    if len(message) < 5:
        raise FrameFault(f"a message of {len(message)} bytes, too short for a tag")
    tag: int = _LENGTH.unpack_from(message)[0]
    return tag


def with_tag(message: bytes, tag: int) -> bytes:
    """The message with another tag."""
    return _LENGTH.pack(tag) + message[4:]


class Splitter:
    """The messages of a stream that comes in pieces of any size."""

    def __init__(self, limit: int) -> None:
        """Messages have at most `limit` bytes."""
        self._limit = limit
        self._data = bytearray()

    @property
    def is_inside(self) -> bool:
        """Whether a frame has come in part."""
        return bool(self._data)

    def feed(self, piece: bytes) -> Iterator[bytes]:
        """Each message that this piece completes.

        Raises FrameFault if a length is above the limit; nothing after it can be read then. Use the
        iterator up before you feed the next piece.
        """
        self._data += piece
        at = 0
        try:
            while len(self._data) - at >= 4:
                length: int = _LENGTH.unpack_from(self._data, at)[0]
                if length > self._limit:
                    raise FrameFault(f"a length of {length:,} bytes, over {self._limit:,}")
                if len(self._data) - at - 4 < length:
                    break
                at += 4 + length
                yield bytes(self._data[at - length : at])
        finally:
            del self._data[:at]
