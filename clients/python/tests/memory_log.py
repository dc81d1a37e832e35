"""A log in memory in place of an engine, with faults that tests plant."""

import asyncio
import os
from collections.abc import AsyncGenerator, Callable

from xqs.cluster.batches import probe
from xqs.cluster.log import Away


class MemoryLog:
    """Messages in one order; `first` is the offset of the oldest one that is left."""

    def __init__(self, name: str = "log") -> None:
        self.name = name
        self.kept: list[bytes] = []
        self.first = 0
        self.links: list[MemoryLink] = []
        self.copies: dict[str, bool | None] = {"memory": True}

    def append(self, message: bytes) -> int:
        """Adds a message. Returns its offset."""
        self.kept.append(message)
        for link in self.links:
            link.grown.set()
        return len(self.kept) - 1

    def trim(self, first: int) -> None:
        """Forgets all messages before an offset."""
        self.first = first

    def link(self) -> "MemoryLink":
        """A connection to the log, for one node."""
        link = MemoryLink(self)
        self.links.append(link)
        return link


class MemoryLink:
    """A node's connection to a log in memory.

    `plan` may say what happens to each message that is published: `keep`, `lose`, or `keep
    unconfirmed`; after the last two the connection ends, and comes back. With `refuse` the message
    is not kept, and the connection stays. While `is_stuck` nothing comes, and nothing reports that.
    A connection that `fails_with` an error is up, and raises it for each request of messages until
    it is given up.
    """

    def __init__(self, log: MemoryLog) -> None:
        self.log = log
        self.name = log.name
        self.is_up = True
        self.came_up: Callable[[], None] = lambda: None
        self.plan: Callable[[bytes], str] = lambda message: "keep"
        self.grown = asyncio.Event()
        self.is_stuck = False
        self.fails_with: Away | None = None
        self.drops: list[str] = []
        self._ends = 0

    async def publish(self, message: bytes) -> None:
        """Adds a message, or fails, as planned."""
        await asyncio.sleep(0)
        if not self.is_up:
            raise Away("it is down")
        plan = self.plan(message)
        if plan == "refuse":
            raise Away(plan)
        if plan != "lose":
            self.log.append(message)
        if plan != "keep":
            self.drop(plan)
            raise Away(plan)

    async def messages(self, after: int) -> AsyncGenerator[tuple[int, bytes], None]:
        """The messages after an offset, until the connection ends."""
        at, ends = max(after + 1, self.log.first), self._ends
        if not self.is_up:
            raise Away("it is down")
        if self.fails_with:
            raise self.fails_with
        while True:
            while at >= len(self.log.kept) or self.is_stuck:
                self.grown.clear()
                await self.grown.wait()
                if self._ends != ends:
                    raise Away("the connection ended")
            yield at, self.log.kept[at]
            if self._ends != ends:
                raise Away("the connection ended")
            at += 1

    @property
    def is_read(self) -> bool:
        """Whether the log can be read."""
        return self.is_up

    async def first_message(self) -> tuple[int, bytes]:
        """The oldest message, with its offset."""
        if self.is_stuck:
            await asyncio.Event().wait()
        if not self.is_up or self.log.first >= len(self.log.kept):
            raise Away("it is down")
        return self.log.first, self.log.kept[self.log.first]

    async def end_offset(self) -> int:
        """The offset of a message that is added now."""
        if not self.is_up:
            raise Away("it is down")
        return self.log.append(probe(os.urandom(8)))

    async def copies(self) -> dict[str, bool | None]:
        """For each broker whether it has a copy."""
        return dict(self.log.copies)

    def drop(self, why: str) -> None:
        """Ends the connection, and makes another one at once."""
        self._ends += 1
        self.grown.set()
        if self.is_up:
            asyncio.get_running_loop().call_soon(self.came_up)

    def drop_reading(self, why: str) -> None:
        """Ends the connection that reads."""
        self.fails_with = None
        self.drops.append(why)
        self.drop(why)

    def drop_writing(self, why: str) -> None:
        """Ends the connection that writes."""
        self.drops.append(why)
        self.drop(why)

    def go_down(self) -> None:
        """The log can't be reached from now on."""
        self.is_up = False
        self.drop("down")

    def come_up(self) -> None:
        """The log can be reached again."""
        self.is_up = True
        self.came_up()
