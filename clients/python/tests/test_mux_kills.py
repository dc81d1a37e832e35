"""Clients that store and read below a multiplexer whose server is killed again and again."""

import os
import random
import signal
import threading
import time
import unittest
from contextlib import suppress

from tests.serving import Connection, RunningMux, store_body

SECONDS = 5.0
CLIENTS = 6
DONE, WANTING = 0, 2


class Writer:
    """A client with a document of its own: it knows which values the document may have.

    After a store with a reply that is one value; after one whose stream closed there are two.
    """

    def __init__(self, mux: RunningMux, number: int, until: float) -> None:
        self.address = b"client/%d" % number
        self.may_be: set[bytes] = {b""}
        self.stores = self.ends = 0
        self.faults: list[str] = []
        self._mux = mux
        self._until = until
        self._connection = mux.connect()
        self.thread = threading.Thread(target=self._work)
        self.thread.start()

    def _work(self) -> None:
        number = 0
        while time.monotonic() < self._until and not self.faults:
            number += 1
            self._store(b"%d" % number)
            self._read()
        self._connection.socket.close()

    def _ask(self, kind: bytes, body: bytes) -> tuple[int, bytes] | None:
        try:
            reply = self._connection.ask(kind, body)
        except OSError:
            reply = None
        if reply is None:
            self.ends += 1
            self._connection.socket.close()
            self._connection = self._mux.connect()
        return reply

    def _store(self, value: bytes) -> None:
        query = b'document {element v {"%s"}}' % value
        reply = self._ask(b"S", store_body(self.address, query))
        if reply is None:
            self.may_be.add(value)
        elif reply[0] == DONE:
            self.may_be = {value}
            self.stores += 1
        elif reply != (WANTING, b"store"):
            self.faults.append(f"a store was answered by {reply}")

    def _read(self) -> None:
        query = b'for $a in "%s" where doc-available($a) return string(doc($a))' % self.address
        reply = self._ask(b"Q", query)
        while reply is None or reply[0] == WANTING:
            reply = self._ask(b"Q", query)
        value = reply[1].strip(b'"()')
        if reply[0] != DONE or value not in self.may_be:
            self.faults.append(f"{reply} was read, and not one of {self.may_be}")
        self.may_be = {value}


def kill_all(processes: list[int]) -> int:
    """Ends processes with SIGKILL. Returns their number."""
    count = 0
    for process in processes:
        with suppress(ProcessLookupError):
            os.kill(process, signal.SIGKILL)
            count += 1
    return count


class KillsTest(unittest.TestCase):
    """No reply is false, and nothing that was stored is lost."""

    def test_what_was_stored_is_there_whenever_the_server_is_killed(self) -> None:
        chance = random.Random(int(os.environ.get("XQS_SEED", "50")))
        mux = self.enterContext(RunningMux("--frames", "400"))
        until = time.monotonic() + SECONDS
        writers = [Writer(mux, number, until) for number in range(CLIENTS)]
        kills = seen = 0
        while time.monotonic() < until:
            time.sleep(chance.uniform(0.0, 0.15))
            stores = sum(writer.stores for writer in writers)
            if stores > seen:
                seen = stores
                kills += kill_all(mux.server_ids())
        for writer in writers:
            writer.thread.join()
        self.assertEqual([writer.faults for writer in writers], [[]] * CLIENTS)
        self.assertGreater(kills, 5)
        self.assertGreater(min(writer.stores for writer in writers), 5)
        self.check_at_the_end(mux, writers)

    def check_at_the_end(self, mux: RunningMux, writers: list[Writer]) -> None:
        """Each document has the value that its writer read last."""
        with mux.connect() as connection:
            for writer in writers:
                [value] = writer.may_be
                query = b'string(doc("%s"))' % writer.address
                self.assertEqual(self.answer(connection, query), b'"%s"' % value)
        self.assertEqual(mux.terminate(), 0)

    def answer(self, connection: Connection, query: bytes) -> bytes:
        """The answer to a query."""
        reply = connection.ask(b"Q", query)
        assert reply is not None
        return reply[1]


if __name__ == "__main__":
    unittest.main()
