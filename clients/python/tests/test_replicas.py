"""Several servers that are kept in step, with simulated servers: thousands of requests, kills and
refusals in random orders, each checked by a model."""

import asyncio
import collections
import os
import random
import re
import unittest
from collections.abc import Callable, Coroutine, Sequence
from pathlib import Path
from typing import Any, TypeVar
from unittest import mock

from xqs import replica as replica_module
from xqs.mux_backend import Own, ServerEnded
from xqs.mux_clients import Settings
from xqs.mux_many import ManyServers
from xqs.mux_peer import Peer, Request
from xqs.protocol import Splitter
from xqs.replica import FEW, GATHERED, IN_PIPE, Copy, Replica, State, address_of

DONE, REFUSED, WANTING = 0, 1, 2
ROUNDS = int(os.environ.get("XQS_ROUNDS", "12"))
T = TypeVar("T")
ADDRESSES = (b"counter", b"w0", b"w1", b"w2")
READ = b"Qall"
_ASKED = re.compile(rb'(?:doc\(|\$a := )"([^"]+)"')


class Process:
    """The parts of a process that the code looks at."""

    def __init__(self) -> None:
        self.pid = 0
        self.returncode: int | None = None


class PlayedServer:
    """A simulated server: documents are numbers. It stands in for `mux_backend.Backend`."""

    chance = random.Random(0)
    file: dict[bytes, int] = {}
    running: list["PlayedServer"] = []
    faults: list[str] = []
    wants = 0.0

    def __init__(self, has_file: bool, on_reply: Callable[[Request, bytes], None]) -> None:
        self.has_file, self._on_reply = has_file, on_reply
        self.documents = PlayedServer.file if has_file else {}
        self.in_flight: collections.deque[Request] = collections.deque()
        self.ended, self.process = asyncio.Event(), Process()
        self.frames, self.overdue, self.last_work = 0, None, 0.0
        self._wake = asyncio.Event()
        self.task = asyncio.create_task(self._work())
        PlayedServer.running.append(self)

    @classmethod
    async def start(cls, command: Sequence[str], on_reply: Callable[[Request, bytes], None],
                    seconds: float | None, memory: int | None) -> "PlayedServer":
        for _ in range(cls.chance.randrange(20)):
            await asyncio.sleep(0)
        return cls("--file" in command, on_reply)

    def put(self, *requests: Request) -> None:
        self.in_flight.extend(requests)
        self.frames += len(requests)
        self._wake.set()

    async def _work(self) -> None:
        while True:
            self._wake.clear()
            while not self.in_flight:
                await self._wake.wait()
                self._wake.clear()
            for _ in range(self.chance.randrange(6)):
                await asyncio.sleep(0)
            if not self.in_flight:
                continue
            request, reply = self.in_flight[0], self.reply(self.in_flight[0])
            self.in_flight.popleft()
            if isinstance(request, Own) and not request.done.done():
                request.done.set_result(reply)
            self._on_reply(request, reply)

    def reply(self, request: Request) -> bytes:
        """Carries a request out."""
        payload, address = request.payload, address_of(request.payload)
        if request.changes() and self.chance.random() < self.wants:
            return b"\2memory"
        if payload[:1] == b"S":
            text = payload[2 + payload[1]:]
            before = self.documents.get(address)
            self.documents[address] = (before or 0) + 1 if text == b"add" else int(text[9:])
            return b"\0stored" if before is None else b"\0replaced"
        if payload[:1] == b"D":
            found = self.documents.pop(address, None)
            return b"\1prof:ABSENT" if found is None else b"\0dropped"
        if payload[:1] == b"L":
            names = b", ".join(b'"%s"' % it for it in sorted(self.documents))
            return b"\0" + (names or b"()")
        if asked := _ASKED.search(payload):
            value = self.documents.get(asked[1])
            return b"\1FODC0002" if value is None else b"\0document " + b"%d" % value
        return b"\0" + b",".join(b"%d" % self.documents.get(it, 0) for it in ADDRESSES)

    def worked(self) -> float:
        return 0.0

    def status(self) -> str:
        return "ended by chance"

    def leave_for_nobody(self, patience: float) -> bool:
        return False

    def kill(self) -> None:
        """Ends it; a write to a file that it worked on may have been carried out."""
        if self.ended.is_set():
            return
        self.task.cancel()
        front = self.in_flight[0] if self.in_flight else None
        if front is not None and front.changes() and self.has_file and self.chance.random() < 0.5:
            self.reply(front)
        self.process.returncode = -9
        PlayedServer.running.remove(self)
        self.ended.set()
        for request in self.in_flight:
            if isinstance(request, Own):
                request.fail()

    async def finish(self) -> None:
        while self.in_flight:
            await asyncio.sleep(0)
        self.kill()


class Writer:
    """The writing end of a client's connection: it takes replies as they leave."""

    def __init__(self, take: Callable[[int, bytes], None]) -> None:
        self._take, self._splitter = take, Splitter(1 << 20)
        self.transport: Any = mock.Mock(get_write_buffer_size=lambda: 0)
        self.is_closed = False

    def write(self, data: bytes) -> None:
        for message in self._splitter.feed(data):
            try:
                self._take(int.from_bytes(message[:4], "big"), message[4:])
            except AssertionError as error:
                PlayedServer.faults.append(f"a reply that can't be: {error}")

    async def drain(self) -> None:
        await asyncio.sleep(0)

    def close(self) -> None:
        self.is_closed = True

    def is_closing(self) -> bool:
        return self.is_closed

    async def wait_closed(self) -> None:
        pass

    def get_extra_info(self, name: str) -> None:
        return None


class Model:
    """What is known of the numbers: those that were answered or read."""

    def __init__(self) -> None:
        self.least = [0] * len(ADDRESSES)
        self.counted = self.unknown = self.reads = self.writes = self.wanting = 0


class PlayedClient:
    """A client that sends ahead: stores of its own number, increments, and reads."""

    def __init__(self, number: int, servers: ManyServers, model: Model,
                 chance: random.Random) -> None:
        self._number, self._servers, self._model, self._chance = number, servers, model, chance
        self._value = self._tag = 0
        self._awaited: collections.deque[tuple[int, bytes, Any]] = collections.deque()
        self._connect()

    def _connect(self) -> None:
        self._writer: Any = Writer(self._take)
        self._peer = Peer(mock.Mock(), self._writer, 8, 1 << 20)
        self._last, self._own = [0] * len(ADDRESSES), 0

    async def run(self, count: int) -> None:
        """Sends this number of frames, and waits for their replies."""
        for _ in range(count):
            if self._peer.gone:
                self._note_end()
                self._connect()
            await self._send()
            if self._chance.random() < 0.3:
                await asyncio.sleep(0)
        while self._awaited and not self._peer.gone:
            await asyncio.sleep(0)
        self._note_end()

    async def _send(self) -> None:
        self._tag += 1
        kind = self._chance.random()
        known: Any
        if kind < 0.5 or self._number >= len(ADDRESSES):
            payload, known = READ, (list(self._model.least), self._value)
        elif kind < 0.75:
            self._value += 1
            address = ADDRESSES[self._number]
            payload, known = b"S\2%sdocument %d" % (address, self._value), self._value
        else:
            payload, known = b"S\7counteradd", None
        request = Request(self._peer, self._tag, payload)
        try:
            await self._peer.expect(request)
        except OSError:
            return
        self._awaited.append((self._tag, payload, known))
        await self._servers.replicas.handle(request)

    def _note_end(self) -> None:
        self._model.unknown += sum(it[1].endswith(b"add") for it in self._awaited)
        self._awaited.clear()

    def _take(self, tag: int, reply: bytes) -> None:
        awaited, payload, known = self._awaited.popleft()
        assert awaited == tag, (awaited, tag)
        if reply[0] == WANTING:
            self._model.wanting += 1
        elif payload == READ:
            self._check(known, [int(it) for it in reply[1:].split(b",")])
        else:
            assert reply[0] == DONE, reply
            self._model.writes += 1
            if known is None:
                self._model.counted += 1
            else:
                self._own = known
                self._model.least[self._number] = known

    def _check(self, known: tuple[list[int], int], values: list[int]) -> None:
        """Checks that a read is no staler than what was known, what this client read before, and
        its own stores, and that it sees none that came after it."""
        floor, sent = known
        for least in (floor, self._last):
            assert all(it >= them for it, them in zip(values, least, strict=True)), (values, least)
        if self._number < len(ADDRESSES):
            assert self._own <= values[self._number] <= sent, (self._own, values, sent)
        self._model.reads += 1
        self._last = values
        self._model.least = [max(pair) for pair in zip(values, self._model.least, strict=True)]


class LineTest(unittest.IsolatedAsyncioTestCase):
    """What is sent together of a server's line."""

    def setUp(self) -> None:
        self.sent: list[list[bytes]] = []
        self.replica = Replica(2, lambda replica, request, reply: None)
        self.in_flight: collections.deque[Request] = collections.deque()
        self.replica._backend = mock.Mock(in_flight=self.in_flight, put=self.note)

    def note(self, *requests: Request) -> None:
        """Notes what the server is sent together."""
        self.sent.append([request.payload for request in requests])
        self.in_flight.extend(requests)

    def put(self, *payloads: bytes) -> None:
        """Puts copies of writes into the line."""
        for payload in payloads:
            self.replica.put(Copy(None, 0, payload))

    async def test_copies_go_together(self) -> None:
        self.put(b"Da", b"Db")
        self.assertEqual(self.sent, [])
        await asyncio.sleep(5 * GATHERED)
        self.assertEqual(self.sent, [[b"Da", b"Db"]])

    async def test_a_read_takes_the_copies_before_it_along(self) -> None:
        self.put(b"Da", b"Db")
        self.replica.put(Request(None, 0, READ))
        self.assertEqual(self.sent, [[b"Da", b"Db", READ]])
        await asyncio.sleep(5 * GATHERED)
        self.assertEqual(len(self.sent), 1)

    async def test_a_line_that_is_full_does_not_wait(self) -> None:
        self.put(*[b"Da"] * IN_PIPE)
        self.assertEqual(self.sent, [[b"Da"] * IN_PIPE])

    def take(self, count: int) -> None:
        """The server answers so many of the requests that it was sent."""
        for _ in range(count):
            self.replica._take(self.in_flight.popleft(), b"\0dropped")

    async def test_what_waits_for_room_goes_together_and_the_server_is_never_without(self) -> None:
        self.put(*[b"Da"] * IN_PIPE, b"Db", b"Dc")
        self.replica.put(Request(None, 0, READ))
        self.assertEqual(self.sent, [[b"Da"] * IN_PIPE])
        self.take(IN_PIPE - FEW - 1)
        self.assertEqual(len(self.sent), 1)
        self.put(b"Dd")
        self.take(1)
        self.assertEqual(self.sent[1:], [[b"Db", b"Dc", READ, b"Dd"]])
        self.assertEqual((self.replica.line_bytes, len(self.in_flight)), (0, IN_PIPE))

    async def test_a_reply_does_not_send_copies_that_wait_for_others(self) -> None:
        self.replica.put(Request(None, 0, READ))
        self.put(b"Da")
        self.take(1)
        self.put(b"Db")
        self.assertEqual(self.sent, [[READ]])
        await asyncio.sleep(5 * GATHERED)
        self.assertEqual(self.sent, [[READ], [b"Da", b"Db"]])


class ReplicasTest(unittest.TestCase):
    """No client sees what one server would not have given."""

    def play(self, seed: int, on_file: bool, wants: float = 0.0) -> Model:
        """One round: clients, kills, and servers that run out of memory, in a random order."""
        chance = random.Random(seed)
        return self.run_played(chance, wants, self.round(chance, on_file))

    @staticmethod
    def run_played(chance: random.Random, wants: float, work: Coroutine[Any, Any, T]) -> T:
        """Runs it over simulated servers."""
        PlayedServer.chance, PlayedServer.file, PlayedServer.wants = chance, {}, wants
        PlayedServer.running, PlayedServer.faults = [], []
        with (mock.patch.object(replica_module, "Backend", PlayedServer),
              mock.patch("xqs.mux_many.LOOK", 0.0), mock.patch("xqs.mux_looks.LOOK", 0.0),
              mock.patch("xqs.comparing.write_evidence", lambda *_: Path("nowhere")),
              mock.patch("xqs.mux_many.START_DELAYS", [0.0] * 99),
              mock.patch("xqs.mux_many.LONGEST_DELAY", 0.0)):
            return asyncio.run(asyncio.wait_for(work, 60))

    async def round(self, chance: random.Random, on_file: bool) -> Model:
        """Runs the round, and checks at the end that all servers have the same documents."""
        said: list[str] = []
        settings = Settings(servers=3, compare=20, slow=1e9, frames=chance.choice([300, 10**6]))
        servers = ManyServers(["s", *(["--file", "x"] if on_file else [])], settings, said.append)
        await servers.start()
        model = Model()
        clients = [PlayedClient(number, servers, model, chance) for number in range(1, 6)]
        works = [asyncio.create_task(it.run(120)) for it in clients]
        while not all(it.done() for it in works) and not PlayedServer.faults:
            for _ in range(chance.randrange(5, 200)):
                await asyncio.sleep(0)
            self.harm(servers, chance, on_file)
        self.assertEqual(PlayedServer.faults, [], said)
        for work in works:
            work.result()
        await self.settle(servers)
        self.check(model, servers, said)
        await servers.abandon()
        return model

    @staticmethod
    def harm(servers: ManyServers, chance: random.Random, on_file: bool) -> None:
        """Kills a server, but not the last one in memory that holds the documents."""
        holding = servers.replicas.holding()
        if not PlayedServer.running:
            return
        victim: Any = chance.choice(PlayedServer.running)
        if on_file or len(holding) > 1 or holding[0].backend is not victim:
            victim.kill()

    async def settle(self, servers: ManyServers) -> None:
        """Waits until all servers hold the documents, and have carried out their queues."""
        while any(it.state is not State.READY or it.waiting or not it.runs
                  for it in servers.replicas.all):
            await asyncio.sleep(0)

    def check(self, model: Model, servers: ManyServers, said: list[str]) -> None:
        """Checks that all have the same documents, and that each increment was carried out once, or
        is unknown."""
        backends: list[Any] = [it.backend for it in servers.replicas.all]
        documents = [it.documents for it in backends]
        self.assertEqual(servers.replicas.differs, "", said)
        self.assertTrue(all(it == documents[0] for it in documents), (documents, said))
        count = documents[0].get(b"counter", 0)
        self.assertTrue(model.counted <= count <= model.counted + model.unknown,
                        (count, model.counted, model.unknown))

    async def leave_alone(self) -> None:
        """Removes a server while the others end."""
        servers = ManyServers(["s"], Settings(servers=3), lambda line: None)
        await servers.start()
        await self.settle(servers)
        last, replicas = servers.replicas.all[2], servers.replicas

        async def end_others(_: object) -> None:
            while others := replicas.holding(last):
                for it in others:
                    it.backend.kill()
                await asyncio.sleep(0)

        with mock.patch.object(servers, "_until_idle", end_others):
            self.assertFalse(await servers.leave(last, "it is to leave"))
        self.assertIn(last, replicas.holding())
        self.assertIs(replicas.first, last)
        await servers.abandon()

    async def fail_to_fill(self) -> None:
        """A server in memory fails to start more often than allowed, while the file is opened
        again; then both go on."""
        said: list[str] = []
        servers = ManyServers(["s", "--file", "x"], Settings(servers=2), said.append)
        await servers.start()
        await self.settle(servers)
        first, other = servers.replicas.all
        real, is_open, tries = servers._bring_up, asyncio.Event(), collections.Counter[str]()

        async def planted(it: Replica) -> None:
            tries[it.name] += 1
            if it is first:
                await is_open.wait()
            elif not is_open.is_set():
                raise ServerEnded("planted")
            await real(it)

        with mock.patch.object(servers, "_bring_up", planted):
            for it in (first, other):
                it.backend.kill()
            while tries[other.name] < 300 and not servers.failed.is_set():
                await asyncio.sleep(0)
            self.assertFalse(servers.failed.is_set(), said)
            is_open.set()
            await self.settle(servers)
        await servers.abandon()

    def test_who_has_no_file_gives_up_for_nobody(self) -> None:
        self.run_played(random.Random(1), 0.0, self.fail_to_fill())

    def test_the_last_one_in_memory_does_not_leave(self) -> None:
        self.run_played(random.Random(1), 0.0, self.leave_alone())

    def test_with_a_file(self) -> None:
        reads = writes = 0
        for seed in range(ROUNDS):
            with self.subTest(seed=seed):
                model = self.play(seed, True)
                reads, writes = reads + model.reads, writes + model.writes
        self.assertGreater(min(reads, writes), 20 * ROUNDS)

    def test_in_memory(self) -> None:
        for seed in range(ROUNDS):
            with self.subTest(seed=seed):
                model = self.play(seed, False)
                self.assertEqual(model.unknown, 0)

    def test_servers_that_want_memory(self) -> None:
        for seed in range(ROUNDS):
            with self.subTest(seed=seed):
                self.play(seed, True, 0.05)


if __name__ == "__main__":
    unittest.main()
