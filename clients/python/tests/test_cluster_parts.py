"""What a node computes and keeps in files, without an engine of logs."""

import asyncio
import contextlib
import io
import json
import random
import shlex
import subprocess
import sys
import unittest

from tests.histories import History, Read, Write, faults
from tests.local_nodes import planted
from tests.support import FolderTest, ServerTest, file_server, server_command, store_part
from xqs import Client, connect
from xqs.backup import restore_main
from xqs.cluster import addresses, batches, program, snapshots, sums
from xqs.cluster.agreement import EVERY, Agreement, Differs, Report, Tied
from xqs.cluster.batches import MAX_BYTES, MAX_ENTRIES, Batch, NoBatch
from xqs.cluster.seen import Seen
from xqs.cluster.snapshots import NoSnapshot
from xqs.cluster.state import NoState, State
from xqs.cluster.store_file import NotOurs, StoreFile
from xqs.mux_backend import StartFailed
from xqs.protocol import MAX_REQUEST


class Batches(unittest.TestCase):
    """Messages of the log."""

    def test_what_is_encoded_is_decoded(self) -> None:
        chance = random.Random(59)
        for _ in range(200):
            entries = tuple(chance.randbytes(chance.randint(1, 300))
                            for _ in range(chance.randint(1, 9)))
            batch = Batch("n1/" + chance.randbytes(6).hex(), chance.randint(1, 1 << 50), entries)
            self.assertEqual(batches.decode(batches.encode(batch)), batch)

    def test_a_cut_or_foreign_message_is_none(self) -> None:
        message = batches.encode(Batch("n", 1, (b"Sab", b"N")))
        for end in range(len(message)):
            if end != len(message) - 5:
                with self.subTest(end=end), self.assertRaises(NoBatch):
                    batches.decode(message[:end])
        self.assertEqual(batches.decode(message[:-5]).entries, (b"Sab",), "cut between entries")
        for text in (b"", b"hello", b"xqs2" + message[4:], b"xqs1\1\xff" + bytes(8)):
            with self.subTest(text=text), self.assertRaises(NoBatch):
                batches.decode(text)

    def test_bytes_of_chance_are_refused_or_decoded(self) -> None:
        chance = random.Random(60)
        message = bytearray(batches.encode(Batch("n", 7, (b"Sab", b"Dc"))))
        for _ in range(2000):
            changed = bytearray(message)
            changed[chance.randrange(len(changed))] = chance.randrange(256)
            try:
                batches.decode(bytes(changed))
            except NoBatch:
                continue

    def test_entries_share_a_message_by_count_and_bytes(self) -> None:
        self.assertEqual(len(batches.fitting([b"N"] * 1000)), MAX_ENTRIES)
        longest = b"S" + bytes(MAX_REQUEST - 5)
        self.assertEqual(len(batches.fitting([longest] * 9)), MAX_BYTES // len(longest))
        self.assertEqual(batches.fitting([]), [])

    def test_an_end_stands_alone(self) -> None:
        self.assertEqual(batches.fitting([b"N", b"Ep", b"N"]), [b"N"])
        self.assertEqual(batches.fitting([b"Ep", b"N"]), [b"Ep"])


class SeenNumbers(unittest.TestCase):
    """Each entry is taken once, and those of one sender in order."""

    @staticmethod
    def taken(seen: Seen, batch: Batch) -> list[int]:
        """Takes the new entries of a message."""
        numbers = []
        for number, _ in seen.new_entries(batch):
            seen.take(batch.sender, number)
            numbers.append(number)
        return numbers

    def test_what_comes_twice_is_left_out(self) -> None:
        seen = Seen()
        self.assertEqual(self.taken(seen, Batch("a", 1, (b"N", b"N"))), [1, 2])
        self.assertEqual(self.taken(seen, Batch("a", 1, (b"N", b"N"))), [])
        self.assertEqual(self.taken(seen, Batch("a", 2, (b"N", b"N"))), [3])
        self.assertEqual(self.taken(seen, Batch("b", 1, (b"N",))), [1])

    def test_what_overtook_others_waits_for_them(self) -> None:
        seen = Seen({"a": 4})
        late = Batch("a", 7, (b"N",))
        self.assertTrue(seen.is_ahead(late))
        self.assertEqual(self.taken(seen, late), [])
        self.assertEqual(self.taken(seen, Batch("a", 5, (b"N", b"N", b"N"))), [5, 6, 7])
        self.assertFalse(seen.is_ahead(late))

    def test_each_order_of_losses_and_repetitions_takes_each_entry_once(self) -> None:
        chance = random.Random(61)
        for _ in range(100):
            seen, order = Seen(), []
            while seen.last("a") < 30:
                begin = chance.randint(max(1, seen.last("a") - 3), seen.last("a") + 4)
                order += self.taken(seen, Batch("a", begin, (b"N",) * chance.randint(1, 5)))
            self.assertEqual(order, list(range(1, len(order) + 1)))

    def test_the_sender_that_was_heard_longest_ago_is_forgotten(self) -> None:
        seen = Seen(kept=2)
        for sender in ("a", "b", "a", "c"):
            seen.take(sender, seen.last(sender) + 1)
        self.assertEqual(seen.numbers(), {"a": 2, "c": 1})


class Sums(unittest.TestCase):
    """Nodes compare their results."""

    def test_a_sum_tells_entries_and_replies_and_their_order(self) -> None:
        begin = sums.START
        totals = {
            sums.after(sums.after(begin, b"Sa", b"\0x"), b"Sb", b"\0x"),
            sums.after(sums.after(begin, b"Sb", b"\0x"), b"Sa", b"\0x"),
            sums.after(sums.after(begin, b"Sa", b"\0y"), b"Sb", b"\0x"),
            sums.after(begin, b"Sa\0x", b""), sums.after(begin, b"Sa", b"\0x"),
        }
        self.assertEqual(len(totals), 5)

    def test_reports_are_due_every_thousand_places(self) -> None:
        agreement = Agreement("a", "p")
        due = [it for it in range(1, 3001) if agreement.reached(it, sums.START)]
        self.assertEqual(due, [1000, 2000, 3000])

    def test_a_report_is_read_back(self) -> None:
        report = Report("a", 1000, sums.START, "commit abc")
        self.assertEqual(Report.of(report.entry()), report)
        for text in (b"C", b"C[]", b'C{"node": 1}', b"C\xff"):
            self.assertIsNone(Report.of(text))


class Agreeing(unittest.TestCase):
    """Which of several nodes stops if one differs."""

    def setUp(self) -> None:
        self.own = Agreement("a", "p")
        self.assertIsNotNone(self.own.reached(EVERY, "1" * 64))

    def hear(self, node: str, total: str, program: str = "p", place: int = EVERY,
             skips: tuple[int, ...] = ()) -> str:
        """The message about another node's report."""
        return self.own.hear(Report(node, place, total * 64, program, skips))

    def test_nodes_that_agree_say_nothing(self) -> None:
        self.assertEqual([self.hear(node, "1") for node in "abc"], ["", "", ""])
        self.own.reached(2 * EVERY, "2" * 64)

    def test_one_that_differs_is_named_and_the_others_go_on(self) -> None:
        self.assertEqual(self.hear("b", "1"), "")
        self.assertIn("node c (program p) has the sum 2222", self.hear("c", "2"))
        self.assertEqual(self.hear("c", "2"), "", "it is said once")
        self.own.reached(2 * EVERY, "2" * 64)

    def test_one_against_two_stops_at_once(self) -> None:
        self.hear("b", "2")
        with self.assertRaises(Differs) as raised:
            self.hear("c", "2")
        self.assertIn("node a (program p) has the sum 1111", str(raised.exception))
        self.assertIn("node b (program p) has the sum 2222", str(raised.exception))

    def test_a_node_has_one_vote_however_many_servers_report(self) -> None:
        """One wrong node of three servers stops no right one."""
        for _ in range(3):
            self.hear("wrong", "2")
        self.hear("b", "1")
        self.own.reached(2 * EVERY, "3" * 64)

    def test_of_two_that_differ_both_halt_at_the_next_report_and_say_both(self) -> None:
        self.hear("b", "2")
        with self.assertRaises(Tied) as raised:
            self.own.reached(2 * EVERY, "3" * 64)
        self.assertIn("node a (program p) has the sum 1111", str(raised.exception))
        self.assertIn("node b (program p) has the sum 2222", str(raised.exception))
        self.assertEqual(self.own.tied_at, EVERY)

    def test_a_third_one_settles_who_of_two_is_right(self) -> None:
        self.hear("b", "2")
        with self.assertRaises(Tied):
            self.own.reached(2 * EVERY, "3" * 64)
        self.assertTrue(self.own.is_tied(EVERY))
        self.hear("c", "1")
        self.assertFalse(self.own.is_tied(EVERY))
        other = Agreement("b", "p")
        other.reached(EVERY, "2" * 64)
        other.hear(Report("a", EVERY, "1" * 64, "p"))
        with self.assertRaises(Differs):
            other.hear(Report("c", EVERY, "1" * 64, "p"))

    def test_a_majority_of_five_goes_on(self) -> None:
        for node, total in (("b", "2"), ("c", "1"), ("d", "2"), ("e", "1")):
            self.hear(node, total)
        self.own.reached(2 * EVERY, "3" * 64)

    def test_another_program_with_the_same_sums_is_a_warning_that_is_said_once(self) -> None:
        self.assertIn("node b runs the program q, and this one p: their sums are equal so far",
                      self.hear("b", "1", "q"))
        self.assertEqual(self.hear("b", "1", "q"), "")
        self.hear("c", "1", "q")
        self.own.reached(2 * EVERY, "2" * 64)

    def test_another_server_of_the_same_node_is_told_too(self) -> None:
        self.assertIn("node a (program p) has the sum 2222", self.hear("a", "2"))
        with self.assertRaises(Differs):
            self.hear("b", "2")

    def test_reports_with_other_skips_are_not_compared(self) -> None:
        self.assertEqual([self.hear(node, "2", skips=(7,)) for node in "bcd"], ["", "", ""])
        self.own.reached(2 * EVERY, "2" * 64)

    def test_reports_of_places_that_are_not_known_are_left_out(self) -> None:
        self.assertEqual(self.hear("b", "9", place=5 * EVERY), "")
        later = Agreement("a", "p", {EVERY: "1" * 64})
        self.assertIn("2222", later.hear(Report("b", EVERY, "2" * 64, "p")))


class Addresses(unittest.TestCase):
    """Where a log is."""

    def test_brokers_are_named_one_by_one_or_by_their_hosts(self) -> None:
        log = addresses.log_address("amqp://u:p%2F@a:1/docs,b:2,amqp://c/docs?vhost=v")
        self.assertEqual(log.name, "docs")
        self.assertEqual([it.partition("?")[0] for it in log.brokers],
                         ["amqp://u:p%2F@a:1/", "amqp://u:p%2F@b:2/", "amqp://c/v"])
        self.assertEqual([addresses.shown(it) for it in log.brokers], ["a:1", "b:2", "c"])

    def test_what_is_no_log_is_refused_without_its_password(self) -> None:
        for text in ("", "docs", "http://a/docs", "amqp://u:secret@a", "amqp://u:secret@/docs",
                     "amqp://u:secret@a/b/c", "amqp://a:x/docs", "amqp://a/docs,amqp://b/other"):
            with self.subTest(text=text), self.assertRaises(ValueError) as raised:
                addresses.log_address(text)
            self.assertNotIn("secret", str(raised.exception))

    def test_brokers_of_other_machines_want_tls(self) -> None:
        for text in ("amqp://u:p@127.0.0.1:5/docs,127.0.0.2,localhost", "amqps://m1/docs,m2",
                     "amqp://localhost/docs,amqps://m2/docs", "amqp://[::1]/docs"):
            addresses.check_ways(addresses.log_address(text), False)
        for text in ("amqp://u:secret@m1/docs", "amqp://localhost/docs,m2",
                     "amqps://m1/docs,amqp://10.0.0.2/docs"):
            log = addresses.log_address(text)
            with self.assertRaises(ValueError) as raised:
                addresses.check_ways(log, False)
            self.assertNotIn("secret", str(raised.exception))
            addresses.check_ways(log, True)


class States(unittest.TestCase):
    """How far a server has come."""

    def test_a_state_is_read_back(self) -> None:
        state = State("log", "commit a", 7, 12, "1" * 64, Seen({"b": 3, "a": 9}), {1000: "2" * 64})
        again = State.of_json(state.to_json())
        self.assertEqual(again.to_json(), state.to_json())
        self.assertEqual(list(again.seen.numbers()), ["b", "a"])

    def test_what_is_none_is_refused(self) -> None:
        text = State("log", "p").to_json()
        for wrong in ("", "[]", "{}", text.replace("-1", '"x"'),
                      text.replace('"seen": {}', '"seen": 3')):
            with self.subTest(wrong=wrong), self.assertRaises(NoState):
                State.of_json(wrong)


class Programs(FolderTest):
    """What names a program."""

    def named(self, *command: str) -> str:
        """The name of the program that a command runs."""
        return asyncio.run(program.name_of_running(command))

    def test_the_name_is_that_of_the_program_whatever_starts_it(self) -> None:
        own = self.named(*server_command())
        self.assertRegex(own, r"^checksum [0-9a-f]{16}$")
        script = self.folder / "start"
        words = shlex.join(server_command())
        for text in (f"exec {words}", f"{words}\nexit $?"):
            script.write_text(f"#!/bin/sh\n{text}\n")
            script.chmod(0o755)
            self.assertEqual(self.named(str(script)), own, text)
        self.assertEqual(self.named("prlimit", "--nofile=500", *server_command()), own)
        self.assertEqual(self.named(*planted("want=x")), own)

    def test_of_a_script_that_answers_itself_the_file_counts(self) -> None:
        names = set()
        for number in range(2):
            path = self.folder / f"server{number}.py"
            path.write_text(f"import sys\nsys.stdin.read({number + 1})\n")
            with subprocess.Popen([sys.executable, str(path)], stdin=subprocess.PIPE) as process:
                names.add(program.name_of_process(process.pid))
        self.assertEqual(len(names), 2)

    def test_programs_that_differ_have_different_names(self) -> None:
        answer = (b"\0\0\0\7" b"\0\0\0\1" b"\0()")
        names = {self.named(*server_command())}
        for number in range(2):
            path = self.folder / f"server{number}.py"
            path.write_text(f"import sys\nsys.stdin.buffer.read(11)\nsys.stdout.buffer.write("
                            f"{answer!r})\nsys.stdout.flush()\nsys.stdin.read({number + 1})\n")
            names.add(self.named(sys.executable, str(path)))
        self.assertEqual(len(names), 3)

    def test_what_does_not_run_is_refused(self) -> None:
        with self.assertRaises(StartFailed):
            self.named(str(self.folder / "nothing"))


class Snapshots(ServerTest):
    """Snapshots of a server."""

    def setUp(self) -> None:
        super().setUp()
        self.server.store("a", 'document {element a {text {"1"}}}')
        store_part(self.server, "xqs.temporary/1-ab/1")
        self.state = State("log", "p", 41, 17, "3" * 64, Seen({"n/1": 17}))
        self.path, _ = snapshots.write(self.server, self.state, self.folder)

    def test_a_snapshot_is_restored_with_temporary_documents(self) -> None:
        snapshot = snapshots.newest(self.folder, self.fail)
        assert snapshot is not None
        self.assertEqual(snapshot.state.to_json(), self.state.to_json())
        before = self.documents(self.server)
        for address in self.server.list():
            self.server.drop(address)
        self.assertEqual(snapshots.restore(self.server, snapshot), 2)
        self.assertEqual(self.documents(self.server), before)

    def test_a_snapshot_is_restored_as_a_backup_is(self) -> None:
        words = file_server(self.folder / "y.db")
        with contextlib.redirect_stderr(io.StringIO()) as said:
            restore_main([str(self.path), "--server", shlex.join(words)])
        self.assertIn("2 documents are restored", said.getvalue())
        with connect(words) as other:
            self.assertEqual(self.documents(other), self.documents(self.server))

    @staticmethod
    def documents(server: Client) -> dict[str, str]:
        """All documents by their addresses."""
        return {it: server.query_text(f'doc("{it}")') for it in server.list()}

    def test_a_snapshot_that_is_cut_or_changed_anywhere_is_none(self) -> None:
        whole = self.path.read_bytes()
        chance = random.Random(62)
        for at in [*range(0, len(whole), 7), len(whole) - 1]:
            self.path.write_bytes(whole[:at])
            with self.subTest(cut=at), self.assertRaises(NoSnapshot):
                snapshots.judge(self.path)
            changed = bytearray(whole)
            changed[at] ^= 1 << chance.randrange(8)
            self.path.write_bytes(changed)
            with self.subTest(changed=at), self.assertRaises((NoSnapshot, UnicodeDecodeError)):
                self.check_changed(whole)

    def check_changed(self, whole: bytes) -> None:
        """Checks the snapshot; one that passes must have the documents and state of before."""
        found = snapshots.judge(self.path)
        self.assertEqual(found.state.to_json(), self.state.to_json())
        if self.path.read_bytes() != whole:
            raise NoSnapshot("it differs")

    def test_the_newest_that_is_whole_is_taken(self) -> None:
        said: list[str] = []
        later = snapshots.path_of(self.folder, 99)
        later.write_bytes(self.path.read_bytes()[:-3])
        (self.folder / "notes.txt").touch()
        snapshot = snapshots.newest(self.folder, said.append)
        assert snapshot is not None
        self.assertEqual(snapshot.path, self.path)
        self.assertIn(f"{later} is left out: the backup is cut", said[0])

    def test_old_ones_are_removed(self) -> None:
        for offset in range(42, 47):
            snapshots.path_of(self.folder, offset).write_bytes(b"")
        (self.folder / "x.snapshot.7.part").touch()
        snapshots.remove_old(self.folder, 2)
        self.assertEqual(sorted(self.folder.iterdir()),
                         [snapshots.path_of(self.folder, it) for it in (45, 46)])

    def test_documents_that_change_meanwhile_are_noticed(self) -> None:
        held = io.BytesIO()
        snapshots.write_to(self.server, self.state, held)
        held.seek(0)
        snapshots.read_state(held)
        self.server.store("a", 'document {element a {text {"2"}}}')
        self.assertEqual(snapshots.backup.check_against(self.server, held, is_still=True), ["a"])


class Files(FolderTest):
    """A file of documents, and the note of its place beside it."""

    def setUp(self) -> None:
        super().setUp()
        self.path = self.folder / "x.db"
        self.file = StoreFile(self.path)
        self.state = State("log", "p", 41, 17)

    def ended(self) -> None:
        """A server ran on the file, and ended in order."""
        self.assertIsNone(self.file.begin())
        self.path.write_bytes(b"documents")
        self.file.end(self.state)

    def test_a_file_that_ended_in_order_goes_on(self) -> None:
        self.ended()
        state = self.file.begin()
        assert state is not None
        self.assertEqual(state.to_json(), self.state.to_json())

    def test_a_file_whose_server_was_killed_is_set_aside(self) -> None:
        self.ended()
        self.file.begin()
        (self.folder / "x.db-wal").touch()
        self.assertIsNone(self.file.begin())
        self.assertEqual((self.folder / "x.db.left").read_bytes(), b"documents")
        self.assertFalse(self.path.exists() or (self.folder / "x.db-wal").exists())

    def test_a_file_that_was_changed_since_is_set_aside(self) -> None:
        for change in (b"Documents", b"documents+"):
            self.ended()
            self.path.write_bytes(change)
            self.assertIsNone(self.file.begin())
            self.assertEqual((self.folder / "x.db.left").read_bytes(), change)

    def test_a_note_that_is_cut_counts_for_nothing(self) -> None:
        self.ended()
        for text in ("", "{}", json.dumps({"is": "ended"}), self.file.note.read_text()[:-9]):
            self.file.note.write_text(text)
            self.path.write_bytes(b"documents")
            self.assertIsNone(self.file.begin())

    def test_a_file_that_never_followed_a_log_stays(self) -> None:
        self.path.write_bytes(b"mine")
        with self.assertRaisesRegex(NotOurs, "never followed a log"):
            self.file.begin()
        self.assertEqual(self.path.read_bytes(), b"mine")


class Histories(unittest.TestCase):
    """The checker of the tests finds what no log can explain."""

    def setUp(self) -> None:
        self.history = History()
        self.map = {b"c1": b'document {text {"2"}}', b"total": b'document {text {"3"}}'}
        for value in (1, 2):
            told = b"stored" if value == 1 else b"replaced"
            self.history.write("w1", Write(b"c1", value, value, value + 0.5, True, told))
        for is_acknowledged in (True, True, True):
            self.history.count(is_acknowledged)

    def faults(self, *maps: dict[bytes, bytes]) -> list[str]:
        """What the checker finds at nodes with these documents."""
        return faults(self.history, maps or [self.map], b"total")

    def node(self, address: bytes, value: bytes) -> dict[bytes, bytes]:
        """A node that differs in one document."""
        return self.map | {address: b'document {text {"%s"}}' % value}

    def test_what_is_right_has_no_faults(self) -> None:
        self.history.reads.append(Read(b"c1", 2, 3.0, 3.1, "w1"))
        self.history.reads.append(Read(b"c1", 1, 3.0, 3.1, "w2"))
        self.assertEqual(self.faults(self.map, dict(self.map)), [])

    def test_unequal_maps(self) -> None:
        other = self.node(b"total", b"4")
        self.assertIn("node 1 has another b'total'", self.faults(self.map, other)[0])
        self.assertEqual(len(self.faults(self.map, {})), 2)

    def test_a_lost_write_and_one_that_was_carried_out_twice(self) -> None:
        self.assertIn("b'c1' is 1", self.faults(self.node(b"c1", b"1"))[0])
        self.assertIn("it is 4", self.faults(self.node(b"total", b"4"))[0])
        self.assertIn("it is 2", self.faults(self.node(b"total", b"2"))[0])
        self.history.write("w1", Write(b"c1", 3, 3.0, 3.5, True, b"stored"))
        self.assertIn("was stored 2 times", self.faults(self.node(b"c1", b"3"))[0])

    def test_an_unknown_write_may_be_there_or_not(self) -> None:
        self.history.write("w1", Write(b"c1", 3, 3.0, 9.0, False))
        self.assertEqual(self.faults(), [])
        self.assertEqual(self.faults(self.node(b"c1", b"3")), [])
        self.history.count(False)
        self.assertEqual(self.faults(self.node(b"total", b"4")), [])

    def test_a_read_that_misses_an_own_write(self) -> None:
        self.history.reads.append(Read(b"c1", 1, 3.0, 3.1, "w1"))
        self.assertIn("was read as 1 by w1, after 2", self.faults()[0])

    def test_a_fresh_read_that_misses_anybodys(self) -> None:
        self.history.reads.append(Read(b"c1", 1, 2.4, 3.1, "w2", True))
        self.assertEqual(self.faults(), [])
        self.history.reads.append(Read(b"c1", 1, 2.6, 3.1, "w2", True))
        self.assertIn("(fresh)", self.faults()[0])


if __name__ == "__main__":
    unittest.main()
