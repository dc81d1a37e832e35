"""Several servers below one multiplexer: what clients see while servers are killed, stopped, full,
too slow, wrong or at their limits."""

import os
import random
import signal
import sys
import threading
import time
import unittest
from contextlib import suppress
from pathlib import Path

from tests import test_mux
from tests.models import Abandoner, Model, Reader, Rude, Worker, Writer
from tests.serving import ENDLESS, PATIENCE, Connection, RunningMux, store_body
from tests.support import FolderTest, server_command

DONE, REFUSED, WANTING = 0, 1, 2
SECONDS = float(os.environ.get("XQS_TRIAL_SECONDS", "8"))
SERVERS = 3
OTHER = Path(__file__).with_name("other_program.py")
PLANTED = Path(__file__).with_name("planted_server.py")
BUSY = b"count(for $x in 1 to 3000, $y in 1 to 1000 return $x)"
"""A query that takes a while and ends."""


class ServersTest(FolderTest):
    """A multiplexer of three servers for each test."""

    def mux(self, *options: str, on_file: bool = True, command: list[str] | None = None,
            servers: int = SERVERS, is_full: bool = True) -> RunningMux:
        """A multiplexer that ends with the test; all its servers hold the documents."""
        mux = self.enterContext(
            RunningMux(*options, on_file=on_file, command=command, servers=servers))
        for number in range(2, servers + 1 if is_full else 0):
            mux.wait_for(f"server {number} holds the documents")
        return mux

    def client(self, mux: RunningMux) -> Connection:
        """A connection that ends with the test."""
        return self.enterContext(mux.connect())

    def wait_until(self, holds: "Connection", query: bytes, reply: tuple[int, bytes]) -> None:
        """Waits until a query has this reply."""
        end = time.monotonic() + PATIENCE
        while (found := holds.ask(b"Q", query)) != reply:
            self.assertLess(time.monotonic(), end, found)


def with_file(mux: RunningMux) -> int:
    """The process of the server that has the file."""
    [found] = [it for it in mux.server_ids()
               if b"--file" in Path(f"/proc/{it}/cmdline").read_bytes()]
    return found


def in_memory(mux: RunningMux) -> list[int]:
    """The processes of the servers that hold the documents in memory."""
    return [it for it in mux.server_ids()
            if b"--file" not in Path(f"/proc/{it}/cmdline").read_bytes()]


class FramesTest(test_mux.FramesTest):
    """The checks of one server's frames."""

    servers = SERVERS


class HostileTest(test_mux.HostileTest):
    """The checks of one server's rude clients."""

    servers = SERVERS


class EndTest(test_mux.EndTest):
    """The checks of one server's end."""

    servers = SERVERS


class TrialTest(ServersTest):
    """Writers and readers while servers are killed and stopped at random, beside rude clients."""

    def trial(self, on_file: bool, seconds: float) -> None:
        """Runs the trial; fails with anything impossible that a client saw."""
        chance = random.Random(int(os.environ.get("XQS_SEED", "7")))
        mux = self.mux("--compare", "50", "--frames", "30000", on_file=on_file)
        until, model = time.monotonic() + seconds, Model(3)
        workers: list[Worker] = [
            Writer(model, mux.connect, until, number) for number in range(1, 4)]
        workers += [Reader(model, mux.connect, until, 100 + number) for number in range(4)]
        workers += [Rude(model, mux.connect, until, 200 + number) for number in range(2)]
        workers += [Abandoner(model, mux.connect, until, 300)] if on_file else []
        faults = 0
        while time.monotonic() < until and not model.faults:
            time.sleep(chance.uniform(0.2, 1.5))
            if on_file or "started again" not in self.last_lines(mux):
                faults += self.harm(mux, chance)
        for worker in workers:
            worker.thread.join()
        self.check(mux, model)
        print(f"{seconds:g} s, {'file' if on_file else 'memory'}: {faults} faults, {model.stores} "
              f"stores, {model.counted} counts, {model.unknown} unknown, {model.refused} refused, "
              f"{model.reads} reads, longest {model.longest:.2f} s, {model.rude} rude clients",
              file=sys.stderr)
        self.assertGreater(min(faults, model.rude), 2)
        self.assertGreater(min(model.stores, model.reads, model.counted), 20)

    def check(self, mux: RunningMux, model: Model) -> None:
        """Checks at the end that each server has what was stored, and that the counter is right."""
        for number in range(10 * SERVERS):
            connection = self.client(mux)
            floor = model.least()
            reply = connection.ask(b"Q", model.query)
            assert reply is not None and reply[0] == DONE, reply
            values = [int(it) for it in reply[1].split(b", ")]
            model.read(floor, values)
            model.check_count(values[0])
        self.assertEqual(model.faults, [], mux.said())
        self.assertNotIn("different replies", mux.said())

    @staticmethod
    def last_lines(mux: RunningMux) -> str:
        """The multiplexer's messages since a server was last filled."""
        return mux.said().rpartition("holds the documents")[2]

    @staticmethod
    def harm(mux: RunningMux, chance: random.Random) -> int:
        """Kills or stops a server. Returns how many."""
        found = mux.server_ids()
        if not found:
            return 0
        victim = chance.choice(found)
        with suppress(ProcessLookupError):
            if chance.random() < 0.6:
                os.kill(victim, signal.SIGKILL)
            else:
                os.kill(victim, signal.SIGSTOP)
                wake = threading.Timer(chance.uniform(0.05, 3.0), go_on, [victim])
                wake.daemon = True
                wake.start()
            return 1
        return 0

    def test_on_a_file(self) -> None:
        self.trial(True, SECONDS)

    def test_in_memory(self) -> None:
        self.trial(False, SECONDS)


def go_on(process: int) -> None:
    """Lets a stopped process go on."""
    with suppress(ProcessLookupError):
        os.kill(process, signal.SIGCONT)


class ReadsTest(ServersTest):
    """Reads go to servers that are free."""

    def test_a_long_query_holds_nobody(self) -> None:
        mux = self.mux()
        slow, other = self.client(mux), self.client(mux)
        slow.send(b"Q", ENDLESS)
        time.sleep(0.2)
        begin = time.monotonic()
        for number in range(20):
            self.assertEqual(other.ask(b"Q", b"%d" % number), (DONE, b"%d" % number))
        self.assertEqual(other.ask(b"S", store_body(b"a")), (DONE, b"stored"))
        self.assertEqual(other.ask(b"L"), (DONE, b'"a"'))
        self.assertLess(time.monotonic() - begin, 5)

    def test_a_slow_store_holds_no_read(self) -> None:
        mux = self.mux()
        storing, reading = self.client(mux), self.client(mux)
        text = b"document {element n {" + BUSY + b"}}"
        begin = time.monotonic()
        self.assertEqual(storing.ask(b"S", store_body(b"a", text)), (DONE, b"stored"))
        took = time.monotonic() - begin
        begin = time.monotonic()
        for _ in range(6):
            self.assertEqual(reading.ask(b"Q", b'string(doc("a"))'), (DONE, b'"3000000"'))
        self.assertLess(time.monotonic() - begin, took / 2)

    def test_one_client_leaves_a_server_to_others(self) -> None:
        mux = self.mux()
        greedy, other = self.client(mux), self.client(mux)
        self.assertEqual(other.ask(b"Q", b"1"), (DONE, b"1"))
        for _ in range(6):
            greedy.send(b"Q", ENDLESS)
        time.sleep(0.3)
        self.assertEqual(other.ask(b"Q", b"2"), (DONE, b"2"))

    def test_who_goes_while_all_servers_are_held_takes_nobodys_place(self) -> None:
        mux = self.mux("--clients", "12")
        held = [self.client(mux) for _ in range(SERVERS)]
        for connection in held:
            connection.send(b"Q", ENDLESS)
        time.sleep(0.3)
        for _ in range(5):
            goes = [mux.connect() for _ in range(8)]
            for connection in goes:
                connection.send(b"Q", b"1")
                connection.send(b"Q", b"2")
            for connection in goes:
                connection.socket.close()
            time.sleep(1)
        self.assertNotIn("turned away", mux.said())
        for connection in held:
            connection.socket.close()
        self.assertEqual(self.client(mux).ask(b"Q", b"3"), (DONE, b"3"))

    def test_a_read_behind_a_store_of_its_client_sees_it(self) -> None:
        connection = self.client(self.mux())
        for number in range(60):
            connection.send(b"S", store_body(b"a", b"document {element v {%d}}" % number))
            connection.send(b"Q", b'string(doc("a"))')
            connection.send(b"Q", b'string(doc("a"))')
            self.assertEqual((connection.reply() or ())[1:],
                             (DONE, b"replaced" if number else b"stored"))
            for _ in range(2):
                self.assertEqual((connection.reply() or ())[1:], (DONE, b'"%d"' % number))

    def test_a_store_behind_a_read_is_not_seen_by_it(self) -> None:
        connection = self.client(self.mux())
        for number in range(40):
            connection.send(b"Q", b"count((1 to 30000)[. mod 2 = 0]), count(collection())")
            connection.send(b"S", store_body(b"a%d" % number))
            self.assertEqual((connection.reply() or ())[1:], (DONE, b"15000, %d" % number))
            self.assertEqual((connection.reply() or ())[1:], (DONE, b"stored"))


class ReplacedTest(ServersTest):
    """A server that ends is replaced while the others answer."""

    def test_reads_go_on_while_the_file_is_opened(self) -> None:
        script = self.folder / "serve"
        words = " ".join(server_command())
        script.write_text(f'#!/bin/sh\ncase "$*" in *--file*) sleep 1.5;; esac\nexec {words} "$@"')
        script.chmod(0o755)
        mux = self.mux(command=[str(script)])
        reading, storing = self.client(mux), self.client(mux)
        self.assertEqual(storing.ask(b"S", store_body(b"a")), (DONE, b"stored"))
        os.kill(with_file(mux), signal.SIGKILL)
        mux.wait_for("server 1 is started again")
        storing.send(b"S", store_body(b"b"))
        begin = time.monotonic()
        while time.monotonic() - begin < 1:
            self.assertEqual(reading.ask(b"L"), (DONE, b'"a"'))
        self.assertEqual((storing.reply() or ())[1:], (DONE, b"stored"))
        self.assertEqual(reading.ask(b"L"), (DONE, b'"a", "b"'))

    def test_documents_in_memory_outlast_all_servers_but_one(self) -> None:
        mux = self.mux(on_file=False)
        connection = self.client(mux)
        self.assertEqual(connection.ask(b"S", store_body(b"a")), (DONE, b"stored"))
        for turn in range(3):
            victim, *_ = mux.server_ids()
            os.kill(victim, signal.SIGKILL)
            self.assertEqual(connection.ask(b"L"), (DONE, b'"a"'))
            self.wait_for_fills(mux, SERVERS + turn)
        self.assertNotIn("and are lost", mux.said())

    def wait_for_fills(self, mux: RunningMux, count: int) -> None:
        """Waits until servers were filled this number of times."""
        end = time.monotonic() + PATIENCE
        while mux.said().count("holds the documents") < count:
            self.assertLess(time.monotonic(), end, mux.said())
            time.sleep(0.02)

    def test_what_was_in_memory_alone_is_told(self) -> None:
        mux = self.mux(on_file=False)
        connection = self.client(mux)
        self.assertEqual(connection.ask(b"S", store_body(b"a")), (DONE, b"stored"))
        for process in mux.server_ids():
            os.kill(process, signal.SIGKILL)
        mux.wait_for("and are lost: 1 of them: a\n")
        self.assertEqual(self.client(mux).ask(b"L"), (DONE, b"()"))

    def test_a_stopped_server_is_replaced(self) -> None:
        mux = self.mux()
        connection = self.client(mux)
        self.assertEqual(connection.ask(b"S", store_body(b"a")), (DONE, b"stored"))
        for process in mux.server_ids():
            os.kill(process, signal.SIGSTOP)
        self.assertEqual(connection.ask(b"L"), (DONE, b'"a"'))
        mux.wait_for("its process was stopped")

    def test_the_limit_of_frames_is_met_by_none(self) -> None:
        mux = self.mux("--frames", "300")
        connection = self.client(mux)
        for number in range(900):
            self.assertEqual(connection.ask(b"S", store_body(b"a%d" % (number % 5))),
                             (DONE, b"replaced" if number >= 5 else b"stored"))
            self.assertEqual(connection.ask(b"Q", b"count(collection())"),
                             (DONE, b"%d" % min(number + 1, 5)))
        mux.wait_for("has its file open again")
        self.assertIn(" frames;", mux.said())
        self.assertNotIn("frame limit", mux.said())

    def test_a_slow_query_is_told_and_the_others_go_on(self) -> None:
        mux = self.mux("--seconds", "1")
        slow, other = self.client(mux), self.client(mux)
        slow.send(b"Q", ENDLESS)
        self.assertEqual(other.ask(b"S", store_body(b"a")), (DONE, b"stored"))
        self.assertEqual((slow.reply() or ())[1:], (REFUSED, b"xqs:SECONDS"))
        self.assertEqual(slow.ask(b"L"), (DONE, b'"a"'))
        mux.wait_for("one request took over 1 seconds")

    def test_a_query_whose_client_goes_is_ended(self) -> None:
        mux = self.mux()
        with mux.connect() as goes:
            goes.send(b"Q", ENDLESS)
            time.sleep(0.3)
        mux.wait_for("the client of its query has gone")
        self.assertEqual(self.client(mux).ask(b"Q", b"1"), (DONE, b"1"))

    def test_a_query_at_which_a_server_ends_is_asked_once_more(self) -> None:
        mux = self.mux()
        connection = self.client(mux)
        connection.send(b"Q", BUSY)
        time.sleep(0.5)
        for process in in_memory(mux):
            os.kill(process, signal.SIGKILL)
        self.assertEqual((connection.reply() or ())[1:], (DONE, b"3000000"))

    def test_a_store_at_which_the_file_ends_closes_its_client_alone(self) -> None:
        mux = self.mux()
        storing, other = self.client(mux), self.client(mux)
        storing.send(b"S", store_body(b"a", b"document {" + ENDLESS + b"}"))
        storing.send(b"S", store_body(b"behind"))
        time.sleep(0.5)
        other.send(b"S", store_body(b"b"))
        time.sleep(0.2)
        os.kill(with_file(mux), signal.SIGKILL)
        self.assertIsNone(storing.reply())
        self.assertEqual((other.reply() or ())[1:], (DONE, b"stored"))
        for _ in range(6):
            self.assertEqual(other.ask(b"L"), (DONE, b'"b"'))


class LineTest(ServersTest):
    """Stores that wait for the file."""

    def test_too_many_and_too_late_ones_are_refused(self) -> None:
        mux = self.mux("--line", "3", "--line-seconds", "1")
        connection, file = self.client(mux), mux.folder / "x.db"
        self.assertEqual(connection.ask(b"S", store_body(b"a")), (DONE, b"stored"))
        server = with_file(mux)
        os.kill(server, signal.SIGSTOP)
        for end in ("", "-wal"):
            with suppress(FileNotFoundError):
                os.rename(f"{file}{end}", f"{file}{end}.away")
        file.write_bytes(b"no database, but some other file of a user's")
        os.kill(server, signal.SIGKILL)
        mux.wait_for("started again")
        for number in range(5):
            connection.send(b"S", store_body(b"b%d" % number))
        replies = [(connection.reply() or ())[1:] for _ in range(5)]
        self.assertEqual(replies, [(WANTING, b"xqs:LINE")] * 5)
        mux.wait_for("waited for over 1 seconds")
        for _ in range(4):
            self.assertEqual(connection.ask(b"L"), (DONE, b'"a"'))
        file.unlink()
        for end in ("", "-wal"):
            with suppress(FileNotFoundError):
                os.rename(f"{file}{end}.away", f"{file}{end}")
        mux.wait_for("has its file open again", 60)
        self.assertEqual(connection.ask(b"S", store_body(b"c")), (DONE, b"stored"))
        for _ in range(4):
            self.assertEqual(connection.ask(b"L"), (DONE, b'"a", "c"'))


class FullTest(ServersTest):
    """A full disk; a limit on the length of files stands in for one."""

    def test_stores_are_refused_and_reads_go_on(self) -> None:
        script = self.folder / "serve"
        words = " ".join(server_command())
        script.write_text('#!/bin/bash\ncase "$*" in *--file*) trap "" XFSZ; ulimit -f 600;; esac\n'
                          f'exec {words} "$@"\n')
        script.chmod(0o755)
        mux = self.mux("--line-seconds", "3", command=[str(script)])
        connection = self.client(mux)
        text = b'document {element a {"%s"}}' % (b"x" * 30_000)
        stored: list[bytes] = []
        refused = 0
        while refused < 5 and len(stored) < 100:
            address = b"d%03d" % len(stored)
            reply = connection.ask(b"S", store_body(address, text))
            if reply == (DONE, b"stored"):
                stored.append(address)
            else:
                self.assertIn(reply, [(WANTING, b"store"), (WANTING, b"xqs:LINE")])
                refused += 1
        self.assertGreater(len(stored), 2)
        listed = b", ".join(b'"%s"' % it for it in stored)
        for _ in range(12):
            self.assertEqual(connection.ask(b"L"), (DONE, listed))
            self.assertEqual(connection.ask(b"Q", b'string-length(doc("d000"))'), (DONE, b"30000"))
        self.assertEqual(refused, 5)
        self.assertNotIn("different replies", mux.said())


class DifferTest(ServersTest):
    """Servers whose answers differ."""

    def planted(self, plan: str, program: Path = PLANTED) -> list[str]:
        """The command of a server with faults, if it holds documents in memory."""
        script = self.folder / "planted"
        words = " ".join(server_command())
        script.write_text(
            f'#!/bin/sh\ncase "$*" in *--file*) exec {words} "$@";; esac\n'
            f'exec {sys.executable} {program} {plan} -- {words} "$@"\n')
        script.chmod(0o755)
        return [str(script)]

    def test_a_write_that_two_servers_answer_differently_stops_all_writes(self) -> None:
        mux = self.mux(command=self.planted("change=bad"))
        connection = self.client(mux)
        self.assertEqual(connection.ask(b"S", store_body(b"a")), (DONE, b"stored"))
        self.assertEqual(connection.ask(b"S", store_body(b"bad")), (DONE, b"stored"))
        mux.wait_for("gave different replies")
        self.assertEqual(connection.ask(b"S", store_body(b"b")), (WANTING, b"xqs:DIFFER"))
        self.assertEqual(connection.ask(b"L"), (DONE, b'"a", "bad"'))
        [kept] = mux.folder.glob("xqs-differs-*")
        self.assertIn(b"stored", kept.read_bytes())
        self.assertIn(b"planted", kept.read_bytes())

    def test_a_read_that_two_servers_answer_differently_stops_all_writes(self) -> None:
        mux = self.mux("--compare", "1", command=self.planted("//red", OTHER))
        connection = self.client(mux)
        self.assertEqual(connection.ask(b"S", store_body(b"a")), (DONE, b"stored"))
        self.assertEqual((connection.ask(b"Q", b"count(doc('a')//red)") or (9,))[0], DONE)
        mux.wait_for("gave different replies")
        self.assertEqual(connection.ask(b"S", store_body(b"b")), (WANTING, b"xqs:DIFFER"))
        self.assertEqual(connection.ask(b"D", b"a"), (WANTING, b"xqs:DIFFER"))
        [kept] = mux.folder.glob("xqs-differs-*")
        for text in (b"count(doc('a')//red)", b"planted", b"status 0, 1 bytes\n0\n"):
            self.assertIn(text, kept.read_bytes())

    def test_a_server_that_could_not_carry_out_a_write_is_replaced(self) -> None:
        mux = self.mux(command=self.planted("want=bad"))
        connection = self.client(mux)
        self.assertEqual(connection.ask(b"S", store_body(b"bad")), (DONE, b"stored"))
        for _ in range(8):
            self.assertEqual(connection.ask(b"L"), (DONE, b'"bad"'))
        mux.wait_for("it could not carry out a write (memory)")


class LargeTest(ServersTest):
    """Documents that don't fit a frame reach the other servers too."""

    def test_large_documents_are_held_by_all(self) -> None:
        mux = self.mux("--compare", "1", servers=2, on_file=False)
        connection = self.client(mux)
        text = b'"%s"' % (b"&amp;x" * 200_000)
        for number in range(3):
            self.assertEqual(connection.ask(b"S", store_body(
                b"t%d" % number, b"document {element t {attribute a {%s}, text {%s}}}" % (
                    text[:300_000] + b'"', text[:600_000] + b'"'))), (DONE, b"stored"))
        join = (b'document {element big {attribute n {string-join((doc("t0"), doc("t1"), doc("t2")'
                b'), "")}, attribute m {"1"}, comment {string-join((doc("t0"), doc("t1")), "")}, '
                b'processing-instruction p {string(doc("t1"))}, for $x in 1 to 4000 return '
                b'element x {attribute y {$x}, text {$x}}, doc("t0")/t, doc("t1")/t, '
                b'string(doc("t2")), string(doc("t1"))}}')
        self.assertEqual(connection.ask(b"S", store_body(b"big", join)), (DONE, b"stored"))
        os.kill(mux.server_ids()[0], signal.SIGKILL)
        mux.wait_for("holds the documents (4 of them", 120)
        self.assert_alike(mux)

    def assert_alike(self, mux: RunningMux) -> None:
        """Checks that both servers give the same document, in pieces of it."""
        queries = [b'count(doc("big")//node()), count(doc("big")//@*), name(doc("big")/*)',
                   b'string(doc("big")/big/@n)', b'doc("big")/big/comment()',
                   b'doc("big")/big/processing-instruction()', b'doc("big")/big/x', b"L",
                   b'doc("big")/big/node()[position() > 4000]', b'string(doc("big"))']
        first, second = self.client(mux), self.client(mux)
        for query in queries:
            asked = (b"L", b"") if query == b"L" else (b"Q", query)
            replies = {first.ask(*asked) for _ in range(2)} | {second.ask(*asked)}
            self.assertEqual(len(replies), 1)
            time.sleep(0.2)
        self.assertNotIn("different replies", mux.said())


if __name__ == "__main__":
    unittest.main()
