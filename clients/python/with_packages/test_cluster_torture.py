"""Three brokers and three nodes on three machines, which are killed, stopped, cut off and filled.

`XQS_TORTURE_SECONDS` is the length; before a release it should be 600. `XQS_TORTURE_FAULTS`, as
`part stop_broker`, selects faults. This needs root.
"""

import asyncio
import os
import random
import shutil
import signal
import tempfile
import time
import unittest
from collections.abc import Awaitable, Callable, Iterator
from contextlib import suppress
from pathlib import Path

try:
    import aio_pika  # noqa: F401
except ImportError as error:
    raise unittest.SkipTest("aio_pika is not installed") from error

from brokers import missing as missing_brokers
from clusters import SHARED, RunningNode, Watcher, Writer, all_taken, follows_again
from machines import Machines
from machines import missing as missing_machines
from run_cluster_page import blocks, carry, own
from tests.histories import History, faults
from tests.support import TOP, server_command
from xqs import aio
from xqs.cluster.snapshots import judge
from xqs.errors import Refused, Unknown, Wanting, XqError

SECONDS = float(os.environ.get("XQS_TORTURE_SECONDS", "120"))
SEED = int(os.environ.get("XQS_SEED", "85"))
FAULTS = os.environ.get("XQS_TORTURE_FAULTS", "").split()
WITHOUT_PROGRESS = 20.0
"""Seconds that a node may be without progress once its brokers are back."""
GIVEN_UP = 120.0
DISK, LEFT = 400, 30
"""Megabytes of a broker's disk, and how many are left when it is full."""
ENDLESS = ("document {text {string(every $x in 1 to 1000000, $y in 1 to 1000000 "
           "satisfies $x > 0)}}")
GREEDY = ("document {text {string(count(for $x in 1 to 1000000, $y in 1 to 1000 "
          "return ($x, $y)))}}")
NODE = "xqs node --listen"

if why := missing_brokers() or missing_machines():
    raise unittest.SkipTest(why)


class MachineNode(RunningNode):
    """A node on a machine of its own; its socket and its snapshots are visible here too."""

    def __init__(self, name: str, machines: Machines, folder: Path, *options: str) -> None:
        self.name = name
        self.place = f"unix:{folder}/{name}.sock"
        self.snapshots = folder / f"snapshots-{name}"
        self.snapshots.mkdir()
        self._folder = folder
        self._machines = machines
        words = ["exec /opt/xq_server/xqs node --listen", self.place, "--name", name, "--snapshots",
                 str(self.snapshots), *options, "-- /opt/xq_server/serve"]
        self._script = f"set -a; . /etc/xqs/node; set +a; {' '.join(words)}"
        self.lives = 0

    def begin(self, end_at: str = "", is_awaited: bool = True) -> None:
        """Starts it."""
        self.lives += 1
        self.errors = self._folder / f"{self.name}-{self.lives}.said"
        self.process = self._machines.start(self.name, self._script, self.errors)
        if is_awaited:
            self.wait_until_it_listens()

    def _signal(self, number: signal.Signals, words: str = NODE) -> None:
        for process in self._machines.process_ids(self.name, words):
            with suppress(ProcessLookupError):
                os.kill(process, number)

    def kill(self) -> None:
        """Ends it at once; its servers end with it."""
        self._signal(signal.SIGKILL)
        self.process.wait()

    def ask_to_end(self) -> float:
        """Ends it by SIGTERM. Returns the seconds that this took."""
        begin = time.monotonic()
        self._signal(signal.SIGTERM)
        self.process.wait(60)
        return time.monotonic() - begin

    def server_ids(self) -> list[int]:
        """The ids of its servers, on this machine."""
        return self._machines.process_ids(self.name, server_command()[0] + " ")

    def end(self) -> None:
        """Ends it."""
        if self.process.poll() is None:
            self.kill()


class Torture(unittest.IsolatedAsyncioTestCase):
    """One fault after another, and after each one a check that all nodes follow."""

    async def asyncSetUp(self) -> None:
        asyncio.get_running_loop().set_debug(False)
        self.folder = Path(tempfile.mkdtemp(prefix="xqs-torture-"))
        self.addCleanup(shutil.rmtree, self.folder, True)
        self.machines = Machines(server_command(), TOP)
        self.addCleanup(self.machines.close)
        await asyncio.to_thread(self.set_up_brokers)
        self.history = History()
        self.chance = random.Random(SEED)
        self.findings: list[str] = []
        self.counts: dict[str, int] = {}
        self.worst = 0.0

    def set_up_brokers(self) -> None:
        """Follows the page's instructions, with small disks, up to the start of nodes, and starts
        the looks at the brokers."""
        for name in self.machines.names:
            self.machines.run(name, f"mount -t tmpfs -o size={DISK}M tmpfs /var/lib/rabbitmq; "
                                    "chown rabbitmq: /var/lib/rabbitmq")
        page = (TOP / "docs" / "CLUSTER.md").read_text()
        for number, block in enumerate(blocks(page)):
            if block.said:
                break
            script = "\n".join(block.lines).replace("20000000000", "100000000").replace(
                '"x-stream-max-segment-size-bytes": 100000000', '"x-stream-max-segment-size-bytes"'
                ": 20000000")
            for name in block.machines:
                self.machines.run(name, own(script, name))
            if number == 0:
                carry(self.machines)
        for name in self.machines.names:
            self.machines.run(name, "systemctl enable --now xqs-broker.timer")

    def node(self, name: str, *options: str) -> MachineNode:
        """A node that has begun."""
        node = MachineNode(name, self.machines, self.folder, "--seconds", "10", "--every", "2000",
                           "--memory", "3G", *options)
        node.begin()
        self.addCleanup(node.end)
        return node

    async def test_a_torture(self) -> None:
        self.nodes = [self.node("m1"), self.node("m2", "--fresh"),
                      self.node("m3", "--file", "/var/lib/xqs/x.db")]
        writers = [Writer(node, number, self.history) for node in self.nodes for number in range(2)]
        for writer in writers:
            writer.others = writers
        until = time.monotonic() + SECONDS
        watchers = [Watcher(node) for node in self.nodes]
        work = [asyncio.create_task(it.work(until + 1e6, it.name.startswith("m2")))
                for it in writers]
        work += [asyncio.create_task(it.work(until + 1e6)) for it in watchers]
        for fault, number in self.plan():
            if time.monotonic() > until:
                break
            await self.one(fault, number)
        for task in work:
            task.cancel()
        await asyncio.gather(*work, return_exceptions=True)
        self.findings += [fault for it in writers for fault in it.faults]
        self.findings += [fault for it in watchers for fault in it.faults]
        print(await self.judged(), flush=True)
        self.assertEqual(self.findings, [])

    def plan(self) -> Iterator[tuple[Callable[[str], Awaitable[None]], str]]:
        """Each fault of each machine in turn, and then random ones."""
        faults: list[Callable[[str], Awaitable[None]]] = [
            self.restart_broker, self.store_endlessly, self.part, self.kill_node, self.kill_broker,
            self.end_node, self.fill_disk, self.kill_server, self.stop_broker, self.stop_server,
            self.store_greedily]
        names = self.machines.names
        if FAULTS:
            faults = [it for it in faults if it.__name__ in FAULTS]
        for number, fault in enumerate(faults):
            yield fault, names[number % 3]
        while True:
            yield self.chance.choice(faults), self.chance.choice(names)

    async def one(self, fault: Callable[[str], Awaitable[None]], name: str) -> None:
        """One fault, and how soon all nodes follow after it."""
        what = f"{fault.__name__.replace('_', ' ')} {name}"
        await fault(name)
        back = time.monotonic()
        taken = await asyncio.gather(*(follows_again(it, back, GIVEN_UP) for it in self.nodes))
        self.counts[fault.__name__] = self.counts.get(fault.__name__, 0) + 1
        print(f"{what}: {' '.join('never' if it is None else f'{it:.1f}' for it in taken)} s",
              flush=True)
        for node, seconds in zip(self.nodes, taken, strict=True):
            self.worst = max(self.worst, GIVEN_UP if seconds is None else seconds)
            if seconds is None or seconds > WITHOUT_PROGRESS:
                self.findings.append(f"{node.name} without progress after {what}: {seconds}")
                print(f"--- {node.name}", *node.said().splitlines()[-20:], sep="\n", flush=True)

    async def at(self, name: str, script: str) -> None:
        """Runs a script on a machine."""
        await asyncio.to_thread(self.machines.run, name, script)

    def signal_broker(self, name: str, number: signal.Signals) -> None:
        """Sends a broker a signal."""
        for process in self.machines.process_ids(name, "beam.smp"):
            with suppress(ProcessLookupError):
                os.kill(process, number)

    async def restart_broker(self, name: str) -> None:
        await self.at(name, "systemctl stop rabbitmq-server; systemctl start rabbitmq-server")

    async def kill_broker(self, name: str) -> None:
        self.signal_broker(name, signal.SIGKILL)
        await asyncio.sleep(self.chance.uniform(0.5, 3.0))
        await self.at(name, "systemctl start rabbitmq-server")

    async def stop_broker(self, name: str) -> None:
        self.signal_broker(name, signal.SIGSTOP)
        await asyncio.sleep(self.chance.uniform(4.0, 14.0))
        self.signal_broker(name, signal.SIGCONT)
        stopped = "ps axo pid,stat,comm | awk '$2 ~ /^T/'"
        await self.at(name, f'sleep 0.2; found=$({stopped}); echo "$found"; [ -z "$found" ]')
        await self.at(name, "rabbitmqctl --timeout 300 await_startup")

    async def part(self, name: str) -> None:
        self.machines.part(name)
        await asyncio.sleep(self.chance.uniform(8.0, 25.0))
        self.machines.join(name)
        await self.at(name, "for _ in $(seq 15); do rabbitmqctl --timeout 20 await_startup && "
                            "exit; sleep 1; done; ps axo pid,stat,wchan:20,etimes,args; "
                            "tail -n 80 /var/log/rabbitmq/rabbit@$(hostname).log; "
                            "cat /var/log/xqs-broker; exit 1")

    async def fill_disk(self, name: str) -> None:
        await self.at(name, "cd /var/lib/rabbitmq; free=$(df --output=avail -m . | tail -n 1); "
                            f"fallocate -l $((free - {LEFT}))M fill")
        await asyncio.sleep(14)
        await self.at(name, "rm /var/lib/rabbitmq/fill; for _ in $(seq 60); do "
                            "rabbitmq-diagnostics check_local_alarms && exit; sleep 1; done; "
                            "exit 1")

    def of(self, name: str) -> MachineNode:
        """The node of a machine."""
        return next(it for it in self.nodes if it.name == name)

    async def kill_node(self, name: str) -> None:
        node = self.of(name)
        await asyncio.to_thread(node.kill)
        node.begin(is_awaited=False)
        await node.wait()

    async def end_node(self, name: str) -> None:
        node = self.of(name)
        seconds = await asyncio.to_thread(node.ask_to_end)
        if node.process.returncode or seconds > 8:
            self.findings.append(f"{name} ended with {node.process.returncode} after {seconds:.1f}")
        node.begin(is_awaited=False)
        await node.wait()

    async def kill_server(self, name: str) -> None:
        for server in self.of(name).server_ids()[:1]:
            with suppress(ProcessLookupError):
                os.kill(server, signal.SIGKILL)

    async def stop_server(self, name: str) -> None:
        servers = self.of(name).server_ids()[:1]
        for number, seconds in ((signal.SIGSTOP, 4.0), (signal.SIGCONT, 0.0)):
            for server in servers:
                with suppress(ProcessLookupError):
                    os.kill(server, number)
            await asyncio.sleep(seconds)

    async def store_endlessly(self, name: str) -> None:
        await self.refused(name, ENDLESS, "xqs:SECONDS")

    async def store_greedily(self, name: str) -> None:
        await self.refused(name, GREEDY, "memory")

    async def refused(self, name: str, query: str, code: str) -> None:
        """Checks that a store is refused, and that nothing else happens."""
        try:
            async with asyncio.timeout(90):
                async with await aio.connect(self.of(name).place) as client:
                    await client.store("never", query)
            self.findings.append(f"{name} stored {query}")
        except (Refused, Wanting) as error:
            if error.code not in (code, "xqs:SECONDS", "store"):
                self.findings.append(f"{name} refused {query} as {error.code}")
        except (Unknown, OSError, TimeoutError, XqError) as error:
            self.findings.append(f"{name} did not refuse {query}: {error!r}")

    async def judged(self) -> str:
        """Checks all that was seen against the documents of all nodes. Returns the text to
        print."""
        await all_taken(self.nodes)
        maps = [await node.documents() for node in self.nodes]
        self.findings += faults(self.history, maps, SHARED.encode())
        for node in self.nodes:
            await node.snapshot()
        for path in self.folder.glob("*.said"):
            before, found, behind = path.read_text().partition("Traceback")
            if found:
                print(f"--- {path.name}", before[-1000:] + found + behind[:3000], sep="\n")
                self.findings.append(f"{path.name} has a traceback")
        looks = [await asyncio.to_thread(self.machines.run, it, "cat /var/log/xqs-broker")
                 for it in self.machines.names]
        woken = sum(it.count("hangs") for it in looks)
        states = [judge(max(it.snapshots.glob("*.snapshot"))).state for it in self.nodes]
        history = self.history
        known = sum(it.is_acknowledged for _, it in history.writes) + history.counted
        unknown = sum(not it.is_acknowledged for _, it in history.writes) + history.doubtful
        counts = ", ".join(f"{name.replace('_', ' ')} {count}"
                           for name, count in sorted(self.counts.items()))
        return (f"{SECONDS:g} s, seed {SEED}: place {max(it.place for it in states):,}, {known:,} "
                f"writes acknowledged, {unknown} unknown, {len(history.reads):,} reads; at most "
                f"{self.worst:.1f} s without progress; {counts}; hung brokers "
                f"were woken {woken} times; the load is {os.getloadavg()[0]:.1f}")


if __name__ == "__main__":
    unittest.main()
