"""Folders, backups and temporary documents, by the command itself."""

import io
import json
import os
import signal
import subprocess
import sys
import time
import unittest
from collections.abc import Callable, Iterator
from contextlib import redirect_stderr
from pathlib import Path

from tests.support import (
    TOP,
    CommandTest,
    FolderTest,
    ServerTest,
    file_server,
    server_command,
    store_part,
)
from tests.test_xml import canonical
from xqs import Closed, Refused, connect
from xqs.backup import NoBackup, back_up, entries, restore
from xqs.cli import main
from xqs.fetch import document_events
from xqs.gc import collect
from xqs.journal import Journal
from xqs.paths import NoPath, address_of, path_of
from xqs.stores import store_constructors, store_xml
from xqs.temporary import PREFIX, KeptAddress
from xqs.values import events


class Paths(unittest.TestCase):
    def test_files_have_their_names_again(self) -> None:
        for path in ("a.xml", "a b/é+.xml", "_x0020_.xml", "_x", "日/\U0001f600", "a~b", "-"):
            address = address_of(path, "p/")
            self.assertRegex(address, r"\A[A-Za-z0-9._/-]+\Z")
            self.assertEqual(str(path_of(address)), f"p/{path}")

    def test_addresses_that_are_no_paths(self) -> None:
        for address in ("..", "a/../b", "/a", "a/", "a//b", "./a", "_x002F_etc", "_x0041_",
                        "_x0000_", "a/_x002E_._x002E_", "_x110000_"):
            with self.subTest(address), self.assertRaises(NoPath):
                path_of(address)

    def test_too_long(self) -> None:
        with self.assertRaises(ValueError):
            address_of("é" * 40)


class Commands(CommandTest):
    def test_load_and_export_give_the_same_files(self) -> None:
        files = {"a.xml": "<a>1</a>", "b c/d.xml": '<?p q?><p:x xmlns:p="u">&lt;</p:x>',
                 "big.xml": "<a>" + f"<b>{'xyz' * 100}</b>" * 4_000 + "</a>", "no.txt": "text"}
        for path, text in files.items():
            self.write(path, text)
        self.assertEqual(
            self.run_command("load", self.folder / "in", "--as", "books", "--names", "flat")[0], 0)
        self.assertEqual(self.run_command("list")[1],
                         "books/a.xml\nbooks/b_x0020_c/d.xml\nbooks/big.xml\n")
        target = self.folder / "out"
        words = ("export", target, "--prefix", "books/", "--names", "flat")
        self.assertEqual(self.run_command(*words)[0], 0)
        for path in ("a.xml", "b c/d.xml", "big.xml"):
            self.assertEqual(canonical((target / path).read_text()), canonical(files[path]))
        self.assertEqual(len(list(target.rglob("*.*"))), 3)
        status, out, _ = self.run_command(*words)
        self.assertEqual((status, out.count("--force replaces it")), (1, 3))
        self.assertEqual(self.run_command(*words, "--force")[0], 0)

    def test_refused_files_are_listed_with_reason_and_place(self) -> None:
        self.write("good.xml", "<a/>")
        self.write("colon.xml", "<a>\n <p:b/></a>")
        self.write("cut.xml", "<a>")
        self.write("entity.xml", '<!DOCTYPE a [<!ENTITY e "x">]><a>&e;</a>')
        self.write("é" * 30 + ".xml", "<a/>")
        status, out, said = self.run_command("load", self.folder / "in")
        self.assertEqual(status, 1)
        self.assertIn("1 stored, 4 refused, 0 failed", said)
        lines = out.splitlines()
        self.assertEqual(len(lines), 4)
        self.assertTrue(lines[0].startswith("colon.xml:2:2: the name p:b needs namespaces"))
        self.assertTrue(lines[1].startswith("cut.xml:1:4: no element found"))
        self.assertIn("entity.xml:1:25: the entity e is declared here", lines[2])
        self.assertIn("its address would have", lines[3])
        self.assertEqual(list((self.folder / "state").rglob("*.jsonl")), [])

    def test_addresses_that_are_no_files_are_refused_in_export(self) -> None:
        with connect(file_server(self.folder / "x.db")) as client:
            for address in ("../up", "/root", "a//b", "odd", "a", "a.xml", "a.xml/b"):
                client.store(address, "document {element a {}}")
            client.store("two", "document {element a {}, element b {}}")
        status, out, said = self.run_command("export", self.folder / "out")
        self.assertEqual(status, 1)
        self.assertIn("../up: ", out)
        self.assertIn("two: the document has several elements at its top", out)
        files = sorted(str(it.relative_to(self.folder / "out"))
                       for it in (self.folder / "out").rglob("*") if it.is_file())
        self.assertEqual(files, ["a.xml", "odd.xml"])
        self.assertIn("2 written, 6 refused", said)
        status, out, _ = self.run_command("export", self.folder / "all", "--form", "constructors")
        self.assertNotIn("two", out)
        self.assertEqual((self.folder / "all" / "two.xq").read_text(),
                         "document {element a {}, element b {}}\n")

    def test_nothing_is_exported_into_the_folders_of_a_build(self) -> None:
        for folder in (TOP / "out", TOP / "out" / "xqs-test", TOP / "crates" / "xq_store" / "out"):
            was_there = folder.exists()
            status, _, said = self.run_command("export", folder)
            self.assertEqual((status, folder.exists()), (1, was_there))
            self.assertIn("is a folder of this checkout's build", said)

    def test_backup_and_restore(self) -> None:
        with connect(file_server(self.folder / "x.db")) as client:
            client.store("a", 'document {element a {"\n&amp;""é"}}')
            client.store("b/..", "document {}")
            store_xml(client, "big", [b"<a>" + b"<b>%s</b>" % (b"xyz" * 100) * 4_000 + b"</a>"])
            store_part(client)
            texts = [client.query_text(f'doc("{it}")') for it in ("a", "b/..", "big")]
        file = self.folder / "x.backup"
        self.assertEqual(self.run_command("backup", file)[0], 0)
        self.assertEqual(self.run_command("backup", file)[0], 1)
        self.words[-1] = str(self.folder / "y.db")
        self.assertEqual(self.run_command("restore", file)[0], 0)
        status, _, said = self.run_command("restore", file)
        self.assertEqual(status, 1)
        self.assertIn("--replace", said)
        self.assertEqual(self.run_command("restore", file, "--replace")[0], 0)
        with connect(file_server(self.folder / "y.db")) as client:
            self.assertEqual(client.list(), ["a", "b/..", "big"])
            again = [client.query_text(f'doc("{it}")') for it in client.list()]
        self.assertEqual(again, texts)

    def test_changed_backup_is_refused_before_anything_is_stored(self) -> None:
        with connect(file_server(self.folder / "x.db")) as client:
            client.store("a", 'document {element a {"one"}}')
            client.store("b", "document {element b {}}")
            data = io.BytesIO()
            back_up(client, data)
        whole = data.getvalue()
        changed = whole.replace(b"one", b"two")
        for wrong in (changed, whole[:-2], whole + b"x", whole[:60], b"", b"xqs backup 1\nend 1\n"):
            with connect(server_command()) as client:
                with self.assertRaises(NoBackup):
                    restore(client, io.BytesIO(wrong), False)
                self.assertEqual(client.list(), [])
        self.assertEqual([it.address for it in entries(io.BytesIO(whole))], ["a", "b"])

    def test_query_store_get_drop(self) -> None:
        file = self.write("a.xml", "\ufeff<a>1</a>")
        self.assertEqual(self.run_command("store", "a", file)[:2], (0, "stored\n"))
        self.assertEqual(self.run_command("store", "a", file)[:2], (0, "replaced\n"))
        other = self.write("b.xq", ' document {element b {doc("a")/a}}')
        self.assertEqual(self.run_command("store", "b", other)[:2], (0, "stored\n"))
        self.assertEqual(self.run_command("get", "b")[1],
                         'document {element b {element a {text {"1"}}}}\n')
        self.assertEqual(self.run_command("get", "--xml", "b")[1].splitlines()[1],
                         "<b><a>1</a></b>")
        self.assertEqual(self.run_command("query", 'doc("b")/b/a, 2', "--xml")[1], "<a>1</a>\n2\n")
        self.assertEqual(self.run_command("query", "$x", "--set", 'x="&')[1], '"""&amp;"\n')
        status, _, said = self.run_command("query", "conut(1)")
        self.assertEqual(status, 1)
        self.assertIn("1:1: there is no function conut; the nearest is count", said)
        status, _, said = self.run_command("drop", "a", "zz")
        self.assertEqual(status, 1)
        self.assertIn("zz: prof:ABSENT", said)
        self.assertEqual(self.run_command("list")[1], "b\n")

    def test_misuse_is_told(self) -> None:
        self.assertEqual(self.run_command("load", self.folder / "nothing")[0], 1)
        self.assertEqual(self.run_command("load", self.folder, "--as", PREFIX)[0], 1)
        status, _, said = self.run_command("load", self.folder, "--as", "my books")
        self.assertEqual(status, 1)
        self.assertIn("not an address: 'my books/'", said)
        with redirect_stderr(io.StringIO()), self.assertRaises(SystemExit) as caught:
            main(["nothing"])
        self.assertEqual(caught.exception.code, 2)

    def test_nothing_is_stored_where_gc_would_drop_it(self) -> None:
        file, address = self.write("a.xml", "<a/>"), PREFIX + "a"
        query = self.write("a.xq", "document {}")
        for path in (file, query):
            status, _, said = self.run_command("store", address, path)
            self.assertEqual((status, "which is kept for parts" in said), (1, True))
        with connect(server_command()) as client:
            stores: list[Callable[[str, str], object]] = [
                client.store, client.store_later,
                lambda at, text: store_constructors(client, at, text)]
            for store in stores:
                with self.assertRaises(KeptAddress):
                    store(address, "document {}")
            with self.assertRaises(KeptAddress):
                store_xml(client, address, [b"<a/>"])
            self.assertEqual(client.list(), [])

    def test_load_goes_on_after_a_kill(self) -> None:
        for number in range(60):
            self.write(f"{number:02}.xml", f"<a n='{number}'>" + "<b>x</b>" * 300 + "</a>")
        self.write("bad.xml", "<a>")
        self.write("00big.xml", "<a>" + f"<b>{'xyz' * 100}</b>" * 5_000 + "</a>")
        words = [sys.executable, "-m", "xqs", "load", *self.words, str(self.folder / "in")]
        environment = {**os.environ, "PYTHONPATH": str(TOP / "clients" / "python" / "src")}
        process = subprocess.Popen(words, env=environment, stdout=subprocess.DEVNULL,
                                   stderr=subprocess.DEVNULL)
        journal = self._grown_journal(5)
        process.send_signal(signal.SIGKILL)
        process.wait()
        done = sum("path" in line for line in journal.read_text().splitlines())
        status, out, said = self._once_free("load", self.folder / "in")
        self.assertEqual(status, 1)
        self.assertTrue(out.startswith("bad.xml:1:4"))
        self.assertRegex(said, rf"1 refused, 0 failed, ({done}|{done + 1}) were done before")
        self.assertFalse(journal.exists())
        self.assertEqual(len(self.run_command("list")[1].split()), 61)

    def _grown_journal(self, lines: int) -> Path:
        """The journal, once it has this number of lines."""
        end = time.monotonic() + 60
        while time.monotonic() < end:
            found = list((self.folder / "state").rglob("*.jsonl"))
            if found and found[0].read_text().count("\n") >= lines:
                return found[0]
            time.sleep(0.005)
        raise TimeoutError("the load does not go on")

    def _once_free(self, *words: str | Path) -> tuple[int, str, str]:
        """The command's outcome, once the remaining server has released the file."""
        end = time.monotonic() + 30
        while True:
            outcome = self.run_command(*words)
            if "refused" in outcome[2] or time.monotonic() > end:
                return outcome
            time.sleep(0.2)

    def test_files_that_wanted_the_store_are_tried_again(self) -> None:
        self.write("a.xml", "<a>good</a>")
        self.write("b.xml", "<a>x</a>")
        wanting = Path(__file__).with_name("wanting_server.py")
        self.words = ["--server", f"{sys.executable} {wanting}"]
        status, out, said = self.run_command("load", self.folder / "in")
        self.assertEqual(status, 1)
        self.assertIn("b.xml: store: the server's database failed", out)
        self.assertIn("1 stored, 0 refused, 1 failed", said)
        self.write("b.xml", "<a>good</a>")
        self.assertIn("2 stored, 0 refused", self.run_command("load", self.folder / "in")[2])
        self.assertEqual(list((self.folder / "state").rglob("*.jsonl")), [])

    def test_server_that_ends_under_a_load(self) -> None:
        self.write("a.xml", "<a/>")
        wanting = Path(__file__).with_name("wanting_server.py")
        self.write("b.xml", "<a>end</a>")
        for command in ("false", f"{sys.executable} {wanting}"):
            self.words = ["--server", command]
            status, _, said = self.run_command("load", self.folder / "in")
            self.assertEqual(status, 1)
            self.assertIn("the same command resumes from here", said)
        self.assertEqual(len(list((self.folder / "state").rglob("*.jsonl"))), 2)

    def test_what_is_no_file_is_listed(self) -> None:
        self.write("a.xml", "<a/>")
        os.mkfifo(self.folder / "in" / "pipe.xml")
        (self.folder / "in" / "gone.xml").symlink_to("nothing")
        (self.folder / "in" / os.fsdecode(b"\xff.xml")).write_text("<a>")
        status, out, _ = self.run_command("load", self.folder / "in")
        self.assertEqual(status, 1)
        self.assertEqual(ascii(out).count("\\n"), 3)
        self.assertIn("gone.xml: No such file", out)
        self.assertIn("pipe.xml: not a regular file", out)

    def test_output_that_nobody_reads(self) -> None:
        command = [sys.executable, "-m", "xqs", "query", *self.words, "1 to 100000"]
        environment = {**os.environ, "PYTHONPATH": str(TOP / "clients" / "python" / "src")}
        done = subprocess.run(["sh", "-c", '"$@" | head -c 5', "sh", *command], env=environment,
                              capture_output=True)
        self.assertEqual((done.stdout, done.stderr), (b"1, 2,", b""))


class Journals(FolderTest):
    def test_cut_line_and_changed_file_count_for_nothing(self) -> None:
        file = self.folder / "a"
        file.write_text("1")
        place, head = self.folder / "j", {"load": "x"}
        journal = Journal(place, head)
        journal.add("a", file.stat(), "stored")
        journal.close()
        with open(place, "a") as out:
            out.write('{"path": "b", "si')
        journal = Journal(place, head)
        self.assertEqual(journal.result("a", file.stat()), "stored")
        self.assertIsNone(journal.result("b", file.stat()))
        journal.add_temporary("t/")
        journal.close()
        self.assertEqual(len([json.loads(it) for it in place.read_text().splitlines()]), 3)
        file.write_text("12")
        journal = Journal(place, head)
        self.assertEqual((journal.temporary, journal.result("a", file.stat())), (["t/"], None))
        journal.close()
        other = Journal(place, {"load": "y"})
        self.assertEqual((other.temporary, place.read_text()), ([], '{"load": "y"}\n'))
        other.finish()
        self.assertFalse(place.exists())


class Temporaries(ServerTest):
    def test_collection_leaves_those_of_now_and_other_documents(self) -> None:
        old = f"{PREFIX}1000-abc/1"
        self.server.store("a", "document {}")
        store_part(self.server, old)
        store_part(self.server)
        self.assertEqual(collect(self.server, 3600, is_dry=True), [old])
        self.assertEqual(collect(self.server, 3600), [old])
        self.assertEqual(len(self.server.list()), 2)
        collect(self.server, 0)
        self.assertEqual(self.server.list(), ["a"])

    def test_kill_between_parts_leaves_only_temporary_documents(self) -> None:
        path = self.folder / "x.db"
        client = connect(file_server(path))

        def chunks() -> Iterator[bytes]:
            yield b"<a>"
            for _ in range(30):
                yield b"<b>%s</b>" % (b"xyz" * 1_000) * 100
            client.kill()
            yield b"</a>"

        with self.assertRaises(Closed):
            store_xml(client, "x", chunks())
        with connect(file_server(path)) as again:
            left = again.list()
            self.assertTrue(all(it.startswith(PREFIX) for it in left), left)
            collect(again, 0)
            self.assertEqual(again.list(), [])


class Fetching(ServerTest):
    def test_absent(self) -> None:
        with self.assertRaises(Refused):
            list(document_events(self.server, "zz"))

    def test_document_over_a_reply(self) -> None:
        long = "&amp;é" * 400_000
        parts = "".join(f"<b n='{it}'>{long}</b><c/>" for it in range(9))
        text = f"<!--c--><a x='1'>{parts}<d>{long * 8}</d></a>"
        store_xml(self.server, "x", [text.encode()])
        with self.assertRaises(Refused):
            self.server.query_text('doc("x")')
        target = self.folder / "x.backup"
        with open(target, "w+b") as file:
            self.assertEqual(back_up(self.server, file), 1)
            self.assertEqual(self.server.list(), ["x"])
            self.server.drop("x")
            restore(self.server, file_at_start(file), False)
        self.assertEqual(self.server.query('string-length(string(doc("x")))'),
                         [17 * 800_000])
        self.assertEqual(self.server.query('doc("x")/a/b[9]/@n/string()'), ["8"])

    def test_events_are_those_of_the_reply(self) -> None:
        text = 'document {element a {attribute x {"1"}, text {"t"}}}'
        self.server.store("x", text)
        self.assertEqual(list(document_events(self.server, "x")), list(events(text)))


def file_at_start(file: io.BufferedRandom) -> io.BufferedRandom:
    """The file, at its beginning."""
    file.seek(0)
    return file
