"""Three brokers restarted in turn beside writers: no node falls behind for good.

`XQS_RESTARTS` is the number of restarts; before a release it should be 100.
"""

import asyncio
import os
import shutil
import signal
import statistics
import tempfile
import time
import unittest
from pathlib import Path

try:
    import aio_pika  # noqa: F401
except ImportError as error:
    raise unittest.SkipTest("aio_pika is not installed") from error

from brokers import PATIENCE, Brokers, missing
from clusters import SHARED, RunningNode, Writer, all_taken, follows_again
from tests.histories import History, faults

RESTARTS = int(os.environ.get("XQS_RESTARTS", "4"))
WITHOUT_PROGRESS = 20.0
"""Seconds that a node may be without progress once all brokers are back."""
GIVEN_UP = 300.0
"""Seconds after which a node counts as one that never follows again."""

if why := missing():
    raise unittest.SkipTest(why)


class Restarts(unittest.IsolatedAsyncioTestCase):
    """Restarts of brokers by SIGTERM, one after another, while clients write at all nodes."""

    async def asyncSetUp(self) -> None:
        asyncio.get_running_loop().set_debug(False)
        self.folder = Path(tempfile.mkdtemp(prefix="xqs-restarts-"))
        self.addCleanup(shutil.rmtree, self.folder, True)
        self.brokers = Brokers()
        self.addCleanup(self.brokers.close)
        await asyncio.to_thread(self.brokers.start_all)
        self.history = History()

    def begun(self, name: str, *options: str, first: int) -> RunningNode:
        """A node that has begun."""
        node = RunningNode(name, self.brokers, "log", self.folder, "--seconds", "20", *options,
                           first=first)
        self.addCleanup(node.end)
        node.begin()
        return node

    async def test_each_node_follows_after_each_restart(self) -> None:
        nodes = [self.begun("n1", first=0), self.begun("n2", first=1),
                 self.begun("n3", "--file", str(self.folder / "x.db"), first=2)]
        writers = [Writer(node, number, self.history) for node in nodes for number in range(2)]
        work = [asyncio.create_task(it.work(time.monotonic() + 1e6)) for it in writers]
        worst: list[float] = []
        for turn in range(RESTARTS):
            await self.restart(self.brokers.names[turn % 3])
            back = time.monotonic()
            taken = await asyncio.gather(*(self.progress(it, back) for it in nodes))
            worst.append(max(taken))
            print(f"restart {turn + 1}: {' '.join(f'{it:.1f}' for it in taken)} s", flush=True)
            if max(taken) > WITHOUT_PROGRESS:
                self.tell(nodes)
        for task in work:
            task.cancel()
        await asyncio.gather(*work, return_exceptions=True)
        self.assertEqual([it.faults for it in writers], [[] for _ in writers])
        await all_taken(nodes)
        maps = [await node.documents() for node in nodes]
        self.assertEqual(faults(self.history, maps, SHARED.encode()), [])
        print(f"{RESTARTS} restarts: {len(self.history.writes):,} writes, at most {max(worst):.1f} "
              "s without progress once a broker was back, median "
              f"{statistics.median(worst):.1f} s; the load is {os.getloadavg()[0]:.1f}")
        self.assertLessEqual(max(worst), WITHOUT_PROGRESS)

    async def restart(self, name: str) -> None:
        """Ends a broker in order, and starts it again with the data that it kept."""
        self.brokers.signal(name, signal.SIGTERM)
        await asyncio.to_thread(self.brokers.wait_for_end, name)
        self.brokers.start(name)
        await asyncio.to_thread(self.brokers.wait_for, name)

    async def progress(self, node: RunningNode, back: float) -> float:
        """Seconds from the broker's return to the first store that the node answers."""
        taken = await follows_again(node, back, GIVEN_UP)
        if taken is None:
            self.tell([node])
            self.fail(f"{node.name} has not followed again within {GIVEN_UP:g} seconds")
        return taken

    @staticmethod
    def tell(nodes: list[RunningNode]) -> None:
        """Prints the last messages of the nodes."""
        for node in nodes:
            print(f"--- {node.name}\n" + "\n".join(node.said().splitlines()[-25:]), flush=True)


assert PATIENCE > WITHOUT_PROGRESS

if __name__ == "__main__":
    unittest.main()
