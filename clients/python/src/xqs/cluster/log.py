"""What a node needs of the engine that keeps the log."""

from collections.abc import AsyncGenerator
from typing import Protocol

from xqs.errors import XqError


class Away(XqError):
    """The log can't be reached now; the caller tries again."""


class CannotFollow(XqError):
    """The log is not one that a server can follow, so a node can't begin with it."""


class Log(Protocol):
    """Messages in one order, the same for all readers, with consecutive offsets."""

    name: str

    @property
    def is_up(self) -> bool:
        """Whether the log can be written now."""

    @property
    def is_read(self) -> bool:
        """Whether the log can be read now."""

    async def publish(self, message: bytes) -> None:
        """Adds a message; returns once a majority of brokers keeps it.

        Raises Away if that is unknown: the message may be in the log later.
        """

    def messages(self, after: int) -> AsyncGenerator[tuple[int, bytes], None]:
        """The messages after an offset, each with its own, as they come; raises Away at the end.

        They begin later if the log no longer has the first ones. Raises CannotFollow if something
        else has the log's name.
        """

    async def first_message(self) -> tuple[int, bytes]:
        """The oldest message that the log has, with its offset. Raises Away."""

    async def end_offset(self) -> int:
        """The offset of a message that is added now. Raises Away."""

    async def copies(self) -> dict[str, bool | None]:
        """For each broker of the log whether it has a copy; None if it doesn't answer."""

    def drop_reading(self, why: str) -> None:
        """Gives up the connection that reads, so that another one is made."""

    def drop_writing(self, why: str) -> None:
        """Gives up the connection that writes, so that another one is made."""
