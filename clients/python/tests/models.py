"""What clients of a multiplexer may see, kept beside it: no reply is wrong, stale or backward.

Each writer has a document of its own, whose value only grows, and all share a counter that each
store increments. Readers ask for all values at once: none may be less than any that was read or
answered before the question was sent.
"""

import random
import socket
import struct
import threading
import time
from collections.abc import Callable, Sequence
from contextlib import suppress

from tests.serving import ENDLESS, Connection, store_body

DONE, REFUSED, WANTING = 0, 1, 2
COUNTER = b"counter"
COUNT = (b'document {element v {if (doc-available("counter")) '
         b'then xs:integer(doc("counter")/v) + 1 else 1}}')
Place = Callable[[], Connection]


class Model:
    """The least value that may be read of each document: what was answered or read so far."""

    def __init__(self, writers: int) -> None:
        self.addresses = [COUNTER, *(b"writer/%d" % number for number in range(writers))]
        self._least = [0] * len(self.addresses)
        self._most = [0] * len(self.addresses)
        self._lock = threading.Lock()
        self.faults: list[str] = []
        self.unknown = self.counted = self.reads = self.stores = self.refused = self.rude = 0
        self.longest = 0.0
        self.query = ", ".join(
            f'if (doc-available("{it}")) then xs:integer(doc("{it}")/v) else 0'
            for it in map(bytes.decode, self.addresses)).encode()

    def begin(self, number: int, value: int) -> None:
        """A store of this value is about to be sent."""
        with self._lock:
            self._most[number] = max(self._most[number], value)

    def stored(self, number: int, value: int) -> None:
        """A store was answered."""
        with self._lock:
            self.stores += 1
            self._least[number] = max(self._least[number], value)

    def least(self) -> list[int]:
        """The least values for a read that is sent now."""
        with self._lock:
            return list(self._least)

    def read(self, floor: Sequence[int], values: Sequence[int]) -> None:
        """A read has its reply."""
        with self._lock:
            self.reads += 1
            for number, (least, value) in enumerate(zip(floor, values, strict=True)):
                name = self.addresses[number].decode()
                if value < least:
                    self.faults.append(f"{name} went back: {value}, where {least} was known")
                if number and value > self._most[number]:
                    self.faults.append(f"{name} has {value}, which nobody stored")
                self._least[number] = max(self._least[number], value)

    def fault(self, text: str) -> None:
        """Notes that something is wrong."""
        with self._lock:
            self.faults.append(text)

    def check_count(self, value: int) -> None:
        """Checks at the end that each store of the counter was carried out once, or is unknown."""
        if not self.counted <= value <= self.counted + self.unknown:
            self.fault(f"the counter is {value}: {self.counted} stores were answered, and "
                       f"{self.unknown} are unknown")


class Worker:
    """A client in a thread: it connects again when its stream ends."""

    def __init__(self, model: Model, connect: Place, until: float, seed: int) -> None:
        self._model, self._connect, self._until = model, connect, until
        self._chance = random.Random(seed)
        self._connection: Connection | None = None
        self.thread = threading.Thread(target=self._run)
        self.thread.start()

    def _run(self) -> None:
        try:
            while time.monotonic() < self._until and not self._model.faults:
                self._work()
        except Exception as error:  # The error of a thread is shown at the end.
            self._model.fault(repr(error))
        finally:
            if self._connection:
                self._connection.socket.close()

    def _work(self) -> None:
        raise NotImplementedError

    def _ask(self, kind: bytes, body: bytes) -> tuple[int, bytes] | None:
        """A reply; None if the stream has ended."""
        try:
            if self._connection is None:
                self._connection = self._connect()
            begin = time.monotonic()
            reply = self._connection.ask(kind, body)
            self._model.longest = max(self._model.longest, time.monotonic() - begin)
        except ConnectionError:
            reply = None
        if reply is None and self._connection is not None:
            with suppress(OSError):
                self._connection.socket.close()
            self._connection = None
        return reply


class Writer(Worker):
    """Stores to its own document, and to the counter."""

    def __init__(self, model: Model, connect: Place, until: float, number: int) -> None:
        self._number, self._value = number, 0
        super().__init__(model, connect, until, number)

    def _work(self) -> None:
        if self._chance.random() < 0.5:
            self._count()
        else:
            self._store()

    def _count(self) -> None:
        reply = self._ask(b"S", store_body(COUNTER, COUNT))
        if reply is None:
            self._model.unknown += 1
        elif reply[0] == DONE:
            self._model.counted += 1
        elif reply[0] == WANTING:
            self._model.refused += 1
        else:
            self._model.fault(f"a count was answered by {reply}")

    def _store(self) -> None:
        self._value += 1
        self._model.begin(self._number, self._value)
        text = b'document {element v {"%d"}}' % self._value
        reply = self._ask(b"S", store_body(self._model.addresses[self._number], text))
        if reply and reply[0] == DONE:
            self._model.stored(self._number, self._value)
        elif reply and reply[0] == WANTING:
            self._model.refused += 1
        elif reply:
            self._model.fault(f"a store was answered by {reply}")


class Rude(Worker):
    """Connects again and again, and breaks all rules: no other client may notice."""

    LARGE = b'string-join(for $x in 1 to 2000 return "%s")' % (b"x" * 50)
    SHORT = 0.3
    """How many seconds it waits for a socket that takes nothing."""

    def _work(self) -> None:
        act = self._chance.choice([self._half, self._huge, self._noise, self._unread, self._drip,
                                   self._leave])
        with suppress(OSError), self._connect() as connection:
            connection.socket.settimeout(self.SHORT)
            act(connection)
        self._model.rude += 1

    def _half(self, connection: Connection) -> None:
        """Sends part of a frame, perhaps after whole ones."""
        frame = struct.pack(">IIc", 5 + 40, 1, b"S") + store_body(b"rude", b"document {}")
        if self._chance.random() < 0.5:
            connection.send(b"Q", b"1")
        connection.socket.sendall(frame[:self._chance.randrange(1, len(frame))])
        time.sleep(self._chance.uniform(0, 0.05))

    def _huge(self, connection: Connection) -> None:
        """Announces a frame of gigabytes, or of no bytes."""
        length = self._chance.choice([0xFFFFFFFF, 0x7FFFFFFF, 1 << 24, 0, 1, 4])
        connection.socket.sendall(struct.pack(">I", length) + b"x" * 3000)
        connection.socket.recv(1000)

    def _noise(self, connection: Connection) -> None:
        """Sends random bytes."""
        connection.socket.sendall(self._chance.randbytes(self._chance.randrange(1, 5000)))
        connection.socket.recv(1000)

    def _unread(self, connection: Connection) -> None:
        """Asks for much, and reads none of it."""
        for _ in range(40):
            connection.send(b"Q", self.LARGE)

    def _drip(self, connection: Connection) -> None:
        """Sends a frame byte by byte, and reads its reply in the same way."""
        for byte in struct.pack(">IIc", 5 + 1, 1, b"Q") + b"1":
            connection.socket.sendall(bytes([byte]))
            time.sleep(0.001)
        for _ in range(10):
            connection.read(1)

    def _leave(self, connection: Connection) -> None:
        """Leaves before its replies come, once by closing both sides and once only its own."""
        for number in range(self._chance.randrange(1, 30)):
            connection.send(b"S", store_body(b"rude/%d" % (number % 3)))
            connection.send(b"Q", b'count(collection())')
        if self._chance.random() < 0.5:
            connection.socket.shutdown(socket.SHUT_WR)


class Abandoner(Worker):
    """Leaves, now and then, while a server works on its query, which never ends. The last server
    with documents in memory would go on with it, so this is for documents in a file."""

    def _work(self) -> None:
        with suppress(OSError), self._connect() as connection:
            connection.send(b"Q", ENDLESS)
        time.sleep(self._chance.uniform(2, 8))


class Reader(Worker):
    """Asks for all values, sometimes several times ahead."""

    def _work(self) -> None:
        if self._chance.random() < 0.3:
            self._read_ahead(self._chance.randrange(2, 6))
            return
        floor = self._model.least()
        reply = self._ask(b"Q", self._model.query)
        self._take(floor, reply)

    def _read_ahead(self, count: int) -> None:
        if self._connection is None:
            self._connection = self._connect()
        floor = self._model.least()
        try:
            for _ in range(count):
                self._connection.send(b"Q", self._model.query)
            for _ in range(count):
                reply = self._connection.reply()
                if reply is None:
                    raise ConnectionError("the stream ended")
                values = self._take(floor, reply[1:])
                floor = values or floor
        except ConnectionError:
            self._connection.socket.close()
            self._connection = None

    def _take(self, floor: Sequence[int], reply: tuple[int, bytes] | None) -> list[int] | None:
        if reply is None:
            return None
        if reply[0] == DONE:
            values = [int(it) for it in reply[1].split(b", ")]
            self._model.read(floor, values)
            return values
        if reply[0] != WANTING:
            self._model.fault(f"a read was answered by {reply}")
        return None
