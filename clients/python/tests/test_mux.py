"""The multiplexer in front of the server of XQS_SERVER: frames, limits, ends and restarts."""

import os
import random
import signal
import socket
import stat
import struct
import subprocess
import sys
import threading
import time
import unittest
from pathlib import Path

from tests.serving import ENDLESS, PATIENCE, SOURCES, Connection, RunningMux, store_body
from tests.support import FolderTest, long_test, server_command

DONE, REFUSED, WANTING = 0, 1, 2
TEN_MILLION = b'let $x := "%s" return concat(%s)' % (b"x" * 1_000_000, b", ".join([b"$x"] * 10))
"""A query whose value is a text of ten million characters."""


def run_mux(*words: str) -> subprocess.CompletedProcess[str]:
    """Runs a multiplexer that should end by itself."""
    return subprocess.run([sys.executable, "-m", "xqs", "mux", *words], cwd=SOURCES, text=True,
                          capture_output=True, timeout=PATIENCE, check=False)


class MuxTest(FolderTest):
    """A multiplexer for each test, with this number of servers."""

    servers = 1

    def mux(self, *options: str, on_file: bool = True, place: str = "") -> RunningMux:
        """A multiplexer that ends with the test."""
        return self.enterContext(
            RunningMux(*options, on_file=on_file, place=place, servers=self.servers))

    def client(self, mux: RunningMux) -> Connection:
        """A connection that ends with the test."""
        return self.enterContext(mux.connect())


class FramesTest(MuxTest):
    """A client reads what the server itself would have sent."""

    def test_replies_carry_the_tags_of_their_clients(self) -> None:
        mux = self.mux()
        first, second = self.client(mux), self.client(mux)
        first.tag = second.tag = 0xFFFFFFF0
        for connection in (first, second):
            for number in range(9):
                connection.send(b"Q", b"%d" % number)
        for connection in (first, second):
            replies = [connection.reply() for _ in range(9)]
            self.assertEqual(replies, [(0xFFFFFFF1 + n, DONE, b"%d" % n) for n in range(9)])

    def test_faults_of_frames_are_told_in_their_order(self) -> None:
        connection = self.client(self.mux())
        connection.send(b"Q", b"count(1 to 100000)")
        connection.socket.sendall(bytes.fromhex("00000002 aabb"))
        connection.send(b"X")
        connection.socket.sendall(struct.pack(">I", 1_048_833) + b"xx")
        replies = [connection.reply() for _ in range(5)]
        self.assertEqual(replies, [(1, DONE, b"100000"), (0, REFUSED, b"prof:FRAME"),
                                   (2, REFUSED, b"prof:FRAME"), (0, REFUSED, b"prof:LONG"), None])

    def test_a_client_may_close_its_side_and_read_on(self) -> None:
        connection = self.client(self.mux())
        for number in range(100):
            connection.send(b"Q", b"%d" % number)
        connection.socket.shutdown(socket.SHUT_WR)
        texts = [reply and reply[2] for reply in iter(connection.reply, None)]
        self.assertEqual(texts, [b"%d" % number for number in range(100)])

    def test_a_cut_frame_is_not_carried_out(self) -> None:
        mux = self.mux()
        with mux.connect() as connection:
            connection.socket.sendall(struct.pack(">IIc", 50, 1, b"S") + b"\x01adocument")
            connection.socket.shutdown(socket.SHUT_WR)
            self.assertIsNone(connection.reply())
        self.assertEqual(self.client(mux).ask(b"L"), (DONE, b"()"))

    def test_stores_of_one_client_are_seen_by_another(self) -> None:
        mux = self.mux("--window", "1", "--client-window", "1")
        first, second = self.client(mux), self.client(mux)
        self.assertEqual(first.ask(b"S", store_body(b"a")), (DONE, b"stored"))
        self.assertEqual(second.ask(b"L"), (DONE, b'"a"'))
        self.assertEqual(second.ask(b"D", b"a"), (DONE, b"dropped"))
        self.assertEqual(first.ask(b"D", b"a"), (REFUSED, b"prof:ABSENT"))

    def test_the_longest_frame_and_a_long_reply_pass(self) -> None:
        connection = self.client(self.mux())
        text = b'"' + b"x" * (1_048_827 - 2) + b'"'
        self.assertEqual(connection.ask(b"Q", text), (DONE, text))
        reply = connection.ask(b"Q", TEN_MILLION)
        self.assertEqual(reply and len(reply[1]), 10_000_002)


class HostileTest(MuxTest):
    """Connections that are not from clients."""

    def test_bytes_of_chance_and_ends_of_chance(self) -> None:
        chance = random.Random(50)
        mux = self.mux("--clients", "1000")
        for _ in range(300):
            connection = self.client(mux)
            data = chance.randbytes(chance.choice([0, 1, 3, 4, 5, 8, 9, 200, 70_000]))
            if chance.random() < 0.7:
                data = struct.pack(">I", chance.choice([0, 4, 5, 9, len(data), 1_048_832])) + data
            try:
                connection.socket.sendall(data)
                if chance.random() < 0.3:
                    connection.socket.shutdown(socket.SHUT_WR)
            except OSError:
                pass
            if chance.random() < 0.5:
                connection.socket.close()
        self.assertEqual(self.client(mux).ask(b"Q", b"1"), (DONE, b"1"))

    def test_clients_that_go_before_their_replies(self) -> None:
        mux = self.mux("--window", "3", "--client-window", "2")
        for number in range(60):
            with mux.connect() as connection:
                for _ in range(number % 5):
                    connection.send(b"Q", b"count((1 to 20000)[. mod 2 = 0])")
        self.assertEqual(self.client(mux).ask(b"Q", b"1"), (DONE, b"1"))


class ManyClientsTest(MuxTest):
    """Many clients at once, each with its share."""

    def test_a_hundred_clients_beside_one_that_never_reads(self) -> None:
        mux = self.mux()
        silent = self.client(mux)
        silent.socket.settimeout(0.2)
        with self.assertRaises(TimeoutError):
            while True:
                silent.send(b"Q", TEN_MILLION)
        failures: list[str] = []

        def work(number: int) -> None:
            with mux.connect() as connection:
                for turn in range(50):
                    query = b"%d + %d" % (number, turn)
                    if connection.ask(b"Q", query) != (DONE, b"%d" % (number + turn)):
                        failures.append(f"{number}, {turn}")

        begin = time.monotonic()
        threads = [threading.Thread(target=work, args=(number,)) for number in range(100)]
        for thread in threads:
            thread.start()
        for thread in threads:
            thread.join(PATIENCE)
        self.assertEqual(failures, [])
        self.assertLess(time.monotonic() - begin, PATIENCE)
        self.assertLess(resident(mux.process.pid), 200 << 20)

    def test_a_client_that_sends_far_ahead_leaves_turns_to_others(self) -> None:
        mux = self.mux("--client-window", "2", "--window", "4")
        greedy, modest = self.client(mux), self.client(mux)
        slow = b"count((1 to 50000)[. mod 2 = 0])"
        for _ in range(40):
            greedy.send(b"Q", slow)
        self.assertEqual((greedy.reply() or ())[1:], (DONE, b"25000"))
        begin = time.monotonic()
        self.assertEqual(modest.ask(b"Q", b"1"), (DONE, b"1"))
        waited = time.monotonic() - begin
        for _ in range(39):
            greedy.reply()
        rest = time.monotonic() - begin - waited
        self.assertLess(waited, rest / 2)

    def test_a_client_that_reads_nothing_is_cut_off_in_time(self) -> None:
        mux = self.mux("--stall", "0.4")
        silent, other = self.client(mux), self.client(mux)
        silent.send(b"Q", TEN_MILLION)
        mux.wait_for("a client that reads nothing is cut off")
        self.assertEqual(other.ask(b"Q", b"1"), (DONE, b"1"))
        self.assertLess(len(silent.read(20_000_000)), 10_000_000)

    def test_a_client_that_reads_slowly_is_served(self) -> None:
        mux = self.mux("--stall", "0.5")
        slow = self.client(mux)
        slow.send(b"Q", TEN_MILLION)
        taken = 0
        while taken < 10_000_011:
            time.sleep(0.1)
            taken += len(slow.read(min(1_000_000, 10_000_011 - taken)))
        self.assertNotIn("cut off", mux.said())

    def test_unread_replies_of_all_clients_have_a_bound(self) -> None:
        mux = self.mux("--held", "20000000")
        silent = [self.client(mux) for _ in range(4)]
        for connection in silent:
            connection.send(b"Q", TEN_MILLION)
        mux.wait_for("of them is cut off")
        self.assertEqual(self.client(mux).ask(b"Q", b"1"), (DONE, b"1"))

    def test_one_client_too_many_is_turned_away(self) -> None:
        mux = self.mux("--clients", "2")
        first, second = self.client(mux), self.client(mux)
        self.assertEqual(first.ask(b"Q", b"1"), (DONE, b"1"))
        self.assertEqual(second.ask(b"Q", b"1"), (DONE, b"1"))
        self.assertIsNone(self.client(mux).reply())
        first.socket.close()
        deadline = time.monotonic() + PATIENCE
        while self.client(mux).ask(b"Q", b"1") != (DONE, b"1"):
            self.assertLess(time.monotonic(), deadline)


def resident(process: int) -> int:
    """The resident memory of a process, in bytes."""
    fields = Path(f"/proc/{process}/statm").read_text().split()
    return int(fields[1]) * os.sysconf("SC_PAGE_SIZE")


class RestartTest(MuxTest):
    """Servers that end, and their successors."""

    def test_the_server_is_started_again_at_its_limit(self) -> None:
        mux = self.mux("--frames", "50")
        connections = [self.client(mux) for _ in range(4)]
        for number, connection in enumerate(connections):
            self.assertEqual(connection.ask(b"S", store_body(b"d%d" % number)), (DONE, b"stored"))
        for turn in range(60):
            for connection in connections:
                connection.send(b"Q", b"count(collection()), %d" % turn)
        for turn in range(60):
            for connection in connections:
                self.assertEqual((connection.reply() or ())[1:], (DONE, b"4, %d" % turn))
        self.assertIn("exit status 0, after 50 frames", mux.said())
        self.assertNotIn("frame limit", mux.said())

    @long_test
    def test_the_limit_of_the_server_itself_is_not_met(self) -> None:
        mux = self.mux()
        connection = self.client(mux)
        self.assertEqual(connection.ask(b"S", store_body(b"a")), (DONE, b"stored"))
        count, piece = 1_010_000, struct.pack(">IIc", 6, 9, b"Q") + b"1"

        def send() -> None:
            for _ in range(count // 1000):
                connection.socket.sendall(piece * 1000)

        thread = threading.Thread(target=send)
        thread.start()
        reply = struct.pack(">IIB", 6, 9, DONE) + b"1"
        for _ in range(count // 1000):
            self.assertEqual(connection.read(len(reply) * 1000), reply * 1000)
        thread.join()
        self.assertIn("exit status 0, after 999000 frames", mux.said())
        self.assertNotIn("frame limit", mux.said())
        connection.tag = 8
        self.assertEqual(connection.ask(b"L"), (DONE, b'"a"'))

    def test_a_killed_server_on_a_file_is_replaced(self) -> None:
        mux = self.mux()
        connection = self.client(mux)
        self.assertEqual(connection.ask(b"S", store_body(b"a")), (DONE, b"stored"))
        for _ in range(3):
            mux.kill_server()
            self.assertEqual(connection.ask(b"L"), (DONE, b'"a"'))
        self.assertIn("ended by SIGKILL", mux.said())

    def test_requests_in_flight_at_a_kill(self) -> None:
        mux = self.mux()
        asking, storing, listing = (self.client(mux) for _ in range(3))
        asking.send(b"Q", ENDLESS)
        time.sleep(0.6)
        storing.send(b"S", store_body(b"a"))
        listing.send(b"L")
        time.sleep(0.3)
        mux.kill_server()
        self.assertEqual((asking.reply() or ())[1:], (WANTING, b"store"))
        self.assertEqual((storing.reply() or ())[1:], (DONE, b"stored"))
        self.assertIn((listing.reply() or ())[1:], [(DONE, b'"a"'), (DONE, b"()")])
        self.assertEqual(asking.ask(b"Q", b"1"), (DONE, b"1"))

    def test_a_store_at_which_the_server_ends_closes_its_client_alone(self) -> None:
        mux = self.mux()
        storing, other = self.client(mux), self.client(mux)
        storing.send(b"Q", b"1")
        storing.send(b"S", store_body(b"a", b"document {" + ENDLESS + b"}"))
        storing.send(b"S", store_body(b"behind"))
        time.sleep(0.6)
        other.send(b"Q", b"2")
        mux.kill_server()
        self.assertEqual(storing.reply(), (1, DONE, b"1"))
        self.assertIsNone(storing.reply())
        self.assertEqual((other.reply() or ())[1:], (DONE, b"2"))
        self.assertEqual(other.ask(b"L"), (DONE, b"()"))

    def test_in_memory_it_says_what_is_lost(self) -> None:
        mux = self.mux(on_file=False)
        self.assertIn("the documents are in memory", mux.said())
        first, second = self.client(mux), self.client(mux)
        for address in (b"a", b"b", b"c"):
            self.assertEqual(first.ask(b"S", store_body(address)), (DONE, b"stored"))
        self.assertEqual(second.ask(b"D", b"b"), (DONE, b"dropped"))
        mux.kill_server()
        self.assertIsNone(first.reply())
        self.assertIsNone(second.reply())
        mux.wait_for("are lost: 2 of them: a, c\n")
        self.assertEqual(self.client(mux).ask(b"L"), (DONE, b"()"))

    def test_in_memory_the_limit_loses_documents_as_well(self) -> None:
        mux = self.mux("--frames", "3", on_file=False)
        connection = self.client(mux)
        self.assertEqual(connection.ask(b"S", store_body(b"a")), (DONE, b"stored"))
        self.assertEqual(connection.ask(b"L"), (DONE, b'"a"'))
        self.assertIsNone(connection.ask(b"L"))
        mux.wait_for("are lost: 1 of them: a\n")
        self.assertEqual(self.client(mux).ask(b"L"), (DONE, b"()"))

    def test_a_slow_query_is_ended_and_the_others_go_on(self) -> None:
        mux = self.mux("--seconds", "1")
        slow, other = self.client(mux), self.client(mux)
        slow.send(b"Q", ENDLESS)
        time.sleep(0.2)
        other.send(b"S", store_body(b"a"))
        self.assertEqual((slow.reply() or ())[1:], (REFUSED, b"xqs:SECONDS"))
        self.assertEqual((other.reply() or ())[1:], (DONE, b"stored"))
        self.assertEqual(slow.ask(b"L"), (DONE, b'"a"'))
        self.assertIn("one request took over 1 seconds", mux.said())

    def test_a_server_that_can_not_be_started_again_ends_the_multiplexer(self) -> None:
        mux = self.mux()
        connection = self.client(mux)
        self.assertEqual(connection.ask(b"Q", b"1"), (DONE, b"1"))
        (server,) = mux.server_ids()
        os.kill(server, signal.SIGSTOP)
        for name in ("x.db", "x.db-wal"):
            (mux.folder / name).unlink()
        (mux.folder / "x.db").write_bytes(b"no database, but some other file of a user's")
        os.kill(server, signal.SIGKILL)
        self.assertIsNone(connection.reply())
        self.assertEqual(mux.process.wait(PATIENCE), 1)
        self.assertIn("the server could not be started again", mux.said())


class ShutTest(MuxTest):
    """A server whose database shuts; `shutting_server.py` stands in for one."""

    def test_a_server_whose_database_has_shut_is_started_again(self) -> None:
        stand_in = [sys.executable, str(Path(__file__).with_name("shutting_server.py"))]
        mux = self.enterContext(RunningMux(command=stand_in))
        connection = self.client(mux)
        self.assertEqual(connection.ask(b"S", store_body(b"full")), (WANTING, b"store"))
        self.assertEqual(connection.ask(b"L"), (DONE, b"()"))
        time.sleep(1)
        self.assertNotIn("started again", mux.said())
        self.assertEqual(connection.ask(b"S", store_body(b"shut")), (WANTING, b"store"))
        mux.wait_for("the database has shut")
        self.assertEqual(connection.ask(b"L"), (DONE, b"()"))
        self.assertEqual(len(mux.server_ids()), 1)

    def test_a_server_that_is_none_is_given_up(self) -> None:
        reply = r"\0\0\0\7\0\0\0\1\0()"
        mux = self.enterContext(RunningMux(command=["sh", "-c", f"printf '{reply}none'; sleep 60"]))
        self.assertEqual(mux.process.wait(PATIENCE), 1)
        self.assertIn("the server could not be started again", mux.said())

    def test_a_reply_without_a_request_ends_its_server(self) -> None:
        reply = r"\0\0\0\7\0\0\0\1\0()"
        mux = self.enterContext(RunningMux(command=["sh", "-c", f"printf '{reply * 2}'; sleep 60"]))
        self.assertEqual(mux.process.wait(PATIENCE), 1)
        self.assertIn("ended by SIGKILL", mux.said())


class EndTest(MuxTest):
    """Signals, and what stays after the end."""

    def test_sigterm_answers_what_was_read_and_ends(self) -> None:
        mux = self.mux()
        busy, idle = self.client(mux), self.client(mux)
        self.assertEqual(idle.ask(b"Q", b"1"), (DONE, b"1"))
        busy.send(b"Q", b"count((1 to 1000000)[. mod 2 = 0])")
        busy.send(b"S", store_body(b"a"))
        time.sleep(0.4)
        self.assertEqual(mux.terminate(), 0)
        self.assertEqual(busy.reply(), (1, DONE, b"500000"))
        self.assertEqual(busy.reply(), (2, DONE, b"stored"))
        self.assertIsNone(busy.reply())
        self.assertIsNone(idle.reply())
        self.assertFalse((mux.folder / "xq.sock").exists())

    def test_a_second_signal_ends_at_once(self) -> None:
        mux = self.mux()
        connection = self.client(mux)
        connection.send(b"Q", ENDLESS)
        time.sleep(0.5)
        mux.process.send_signal(signal.SIGTERM)
        time.sleep(0.2)
        self.assertIsNone(mux.process.poll())
        self.assertEqual(mux.terminate(), 0)
        self.assertIsNone(connection.reply())


class ReadOnlyTest(MuxTest):
    """Changes are refused by the kind of the frame, whatever they hold."""

    def test_stores_and_drops_are_refused(self) -> None:
        connection = self.client(self.mux("--read-only"))
        refused = (REFUSED, b"xqs:READONLY")
        self.assertEqual(connection.ask(b"S", store_body(b"a")), refused)
        self.assertEqual(connection.ask(b"S"), refused)
        self.assertEqual(connection.ask(b"D", b"a"), refused)
        self.assertEqual(connection.ask(b"s", store_body(b"a")), (REFUSED, b"prof:FRAME"))
        self.assertEqual(connection.ask(b"Q", b'"S"'), (DONE, b'"S"'))
        self.assertEqual(connection.ask(b"L"), (DONE, b"()"))


class PlacesTest(MuxTest):
    """Where a multiplexer can listen, and where it can't."""

    def test_the_socket_is_its_owners(self) -> None:
        mux = self.mux()
        mode = (mux.folder / "xq.sock").lstat().st_mode
        self.assertTrue(stat.S_ISSOCK(mode))
        self.assertEqual(stat.S_IMODE(mode), 0o600)

    def test_a_stale_socket_is_replaced_and_a_live_one_is_not(self) -> None:
        path = self.folder / "s"
        stale = socket.socket(socket.AF_UNIX)
        stale.bind(str(path))
        stale.close()
        mux = self.mux(place=f"unix:{path}")
        self.assertEqual(self.client(mux).ask(b"Q", b"1"), (DONE, b"1"))
        second = run_mux(f"unix:{path}", "--", *server_command())
        self.assertEqual(second.returncode, 1)
        self.assertIn("another program listens there", second.stderr)
        self.assertEqual(self.client(mux).ask(b"Q", b"1"), (DONE, b"1"))
        self.assertEqual(mux.terminate(), 0)

    def test_another_file_is_not_replaced(self) -> None:
        file = self.folder / "mine"
        file.write_text("kept")
        ended = run_mux(f"unix:{file}", "--", *server_command())
        self.assertEqual(ended.returncode, 1)
        self.assertIn("there is a file that is no socket", ended.stderr)
        self.assertEqual(file.read_text(), "kept")

    def test_tcp_listens_on_loopback_alone(self) -> None:
        mux = self.mux(place="tcp:0")
        self.assertTrue(mux.place.startswith("tcp:127.0.0.1:"), mux.place)
        self.assertEqual(self.client(mux).ask(b"Q", b"1"), (DONE, b"1"))
        self.assertEqual(self.client(self.mux(place="tcp:localhost:0")).ask(b"Q", b"1"),
                         (DONE, b"1"))
        if socket.has_ipv6:
            mux = self.mux(place="tcp:[::1]:0")
            self.assertEqual(self.client(mux).ask(b"Q", b"1"), (DONE, b"1"))
        for place in ("tcp:0.0.0.0:0", "tcp:example.org:7000", "tcp:70000", "tcp:", "x", "unix:"):
            ended = run_mux(place, "--", *server_command())
            self.assertEqual((place, ended.returncode), (place, 1))

    def test_a_request_of_http_is_refused(self) -> None:
        for line in (b"POST / HTTP/1.1\r\n", b"GET / HTTP/1.1\r\n", b"OPTIONS * HTTP/1.1\r\n"):
            connection = self.client(self.mux(place="tcp:0"))
            connection.socket.sendall(line + b"Content-Length: 9\r\n\r\n\0\0\0\5\0\0\0\1L")
            self.assertEqual(connection.reply(), (0, REFUSED, b"prof:LONG"))
            self.assertIsNone(connection.reply())

    def test_wrong_words_and_servers_that_do_not_start(self) -> None:
        self.assertEqual(run_mux("--frames", "0", "unix:/tmp/none").returncode, 2)
        self.assertEqual(run_mux("unix:/tmp/none", "--server", "unix:/tmp/other").returncode, 1)
        self.assertEqual(run_mux("unix:/tmp/none", "--seconds", "-1", "--", "x").returncode, 2)
        absent = run_mux("unix:/tmp/none", "--", "/nowhere/server")
        self.assertEqual(absent.returncode, 1)
        self.assertIn("/nowhere/server: No such file", absent.stderr)
        closed = run_mux("unix:/tmp/none", "--", *server_command(), "--file", "/nowhere/x.db")
        self.assertEqual(closed.returncode, 1)
        self.assertIn("cannot open the store", closed.stderr)


if __name__ == "__main__":
    unittest.main()
