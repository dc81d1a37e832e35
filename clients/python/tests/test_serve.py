"""Shared use of a file: `xqs serve`, the commands that find it, and `xqs stop`."""

import os
import signal
import socket
import stat
import subprocess
import sys
import time
import unittest
from pathlib import Path
from unittest import mock

from tests.serving import PATIENCE, SOURCES, children_of
from tests.support import CommandTest, file_server, server_command
from tests.test_leftovers import running, take_signals, wait_until
from xqs import NotConnected, aio, connect
from xqs.endpoints import Command, UnixSocket
from xqs.mux import split_command
from xqs.serve import cut_log
from xqs.served import NoSocket, NotThisFile, asked_at, socket_of, socket_path


class ServeTest(CommandTest):
    """A file `self.path`, which is no longer served after a test."""

    def setUp(self) -> None:
        super().setUp()
        self.path = self.folder / "x.db"
        self.socket = Path(f"{self.path}.sock")
        self.addCleanup(self.stop)

    def serve(self, *options: str, path: Path | None = None,
              command: list[str] | None = None) -> "subprocess.CompletedProcess[str]":
        """Runs `xqs serve`."""
        return self.xqs("serve", *options, str(path or self.path), "--",
                        *(command or server_command()))

    def stop(self, *options: str) -> "subprocess.CompletedProcess[str]":
        """Runs `xqs stop`."""
        return self.xqs("stop", *options, str(self.path))

    def xqs(self, *words: str) -> "subprocess.CompletedProcess[str]":
        """Runs a command as a process of its own."""
        return subprocess.run([sys.executable, "-m", "xqs", *words], cwd=SOURCES, text=True,
                              capture_output=True, timeout=PATIENCE * 2, check=False)

    def server(self) -> int:
        """The process that serves."""
        [process] = [it for it in running(str(self.path)) if "--background" in words_of(it)]
        return process


def words_of(process: int) -> list[str]:
    """The words of a process."""
    try:
        return Path(f"/proc/{process}/cmdline").read_text().split("\0")
    except OSError:
        return []


class Served(ServeTest):
    def test_each_command_finds_it_and_opens_nothing(self) -> None:
        done = self.serve("--servers", "1")
        self.assertEqual(done.returncode, 0, done.stderr)
        self.assertIn(f"{self.path} is served by process {self.server()} at unix:{self.socket}",
                      done.stderr)
        self.assertEqual(stat.S_IMODE(self.socket.stat().st_mode), 0o600)
        [keeper] = children_of(self.server())
        below = children_of(keeper)
        self.words[1] = "/bin/false"  # A server that these commands would start ends at once.
        xml = self.write("a.xml", "<a>1</a>")
        backup = self.folder / "x.backup"
        commands: list[tuple[list[str | Path], str | None]] = [
            (["store", "a", xml], "stored\n"), (["query", 'count(doc("a"))'], "1\n"),
            (["get", "a", "--xml"], None), (["list"], "a\n"),
            (["load", xml.parent, "--as", "l"], ""), (["export", self.folder / "out"], ""),
            (["backup", backup], ""), (["restore", backup, "--replace"], ""),
            (["drop", "a"], ""), (["gc"], ""), (["shell", "-c", ".list"], "l/a.xml\n"),
        ]
        for words, out in commands:
            status, shown, said = self.run_command(*words)
            self.assertEqual(status, 0, (words, said))
            if out is not None:
                self.assertEqual(shown, out)
        self.assertEqual(children_of(keeper), below)

    def test_a_command_that_names_the_file_in_any_way(self) -> None:
        self.assertEqual(self.serve("--servers", "1").returncode, 0)
        link = self.folder / "link.db"
        link.symlink_to(self.path)
        (self.folder / "below").mkdir()
        for words in (["/bin/false", "--file", str(self.path)], ["/bin/false", f"--file={link}"],
                      ["/bin/false", "--file", f"{self.folder}/below/../x.db"]):
            with connect(words) as client:
                self.assertEqual(client.place, UnixSocket(str(self.socket)))
                self.assertEqual(client.query("1"), [1])
        self.assertEqual(asked_at(Command(("a",))), Command(("a",)))
        self.assertIsNone(socket_of(self.folder / "other.db"))

    def test_asyncio(self) -> None:
        import asyncio

        async def ask() -> None:
            async with await aio.connect(["/bin/false", "--file", str(self.path)]) as client:
                self.assertEqual(await client.query("1"), [1])

        self.assertEqual(self.serve("--servers", "1").returncode, 0)
        asyncio.run(ask())

    def test_status_takes_the_file(self) -> None:
        self.assertEqual(self.serve("--servers", "1").returncode, 0)
        self.assertIn("server 1: ready", self.xqs("status", str(self.path)).stdout)
        other = self.xqs("status", str(self.folder / "y.db"))
        self.assertEqual(other.returncode, 1)
        self.assertIn("is not served", other.stderr)

    def test_documents_are_there_after_a_stop(self) -> None:
        self.assertEqual(self.serve().returncode, 0)
        with connect(file_server(self.path)) as client:
            client.store("a", "document {}")
        done = self.stop()
        self.assertEqual((done.returncode, done.stderr),
                         (0, f"xqs stop: {self.path} is no longer served\n"))
        self.assertFalse(self.socket.exists())
        self.assertEqual(running(str(self.path)), [])
        with connect(file_server(self.path)) as client:
            self.assertIsInstance(client.place, Command)
            self.assertEqual(client.list(), ["a"])
        done = self.stop()
        self.assertEqual(done.returncode, 1)
        self.assertIn(f"{self.path} is not served", done.stderr)


class Ends(ServeTest):
    def test_a_stop_waits_for_what_is_asked_and_says_how_long(self) -> None:
        self.assertEqual(self.serve("--servers", "1").returncode, 0)
        with connect(file_server(self.path)) as client:
            client.query_text_later("every $x in 1 to 1000000, $y in 1 to 1000000 satisfies $x > 0")
            time.sleep(0.5)
            done = self.stop("--wait", "1")
            self.assertEqual(done.returncode, 1)
            self.assertIn("is still served after 1 seconds", done.stderr)
            wait_until(lambda: not self.socket.exists(), "it goes on to listen")
            client.kill()
        wait_until(lambda: not running(str(self.path)), "it does not end")

    def test_a_stop_at_once(self) -> None:
        self.assertEqual(self.serve("--servers", "1").returncode, 0)
        with connect(file_server(self.path)) as client:
            client.query_text_later("every $x in 1 to 1000000, $y in 1 to 1000000 satisfies $x > 0")
            time.sleep(0.5)
            self.assertEqual(self.stop("--now").returncode, 0)
            client.kill()
        self.assertEqual(running(str(self.path)), [])

    def test_a_stale_socket_is_seen_and_replaced(self) -> None:
        self.assertEqual(self.serve("--servers", "1").returncode, 0)
        os.kill(self.server(), signal.SIGKILL)
        wait_until(lambda: not running(str(self.path)), "its server is left")
        self.assertTrue(self.socket.exists())
        self.assertIn("is not served", self.stop().stderr)
        with connect(file_server(self.path)) as client:
            self.assertEqual(client.list(), [])
        self.assertEqual(self.serve("--servers", "1").returncode, 0)
        with connect(file_server(self.path)) as client:
            self.assertIsInstance(client.place, UnixSocket)
            self.assertEqual(client.list(), [])

    def test_what_is_ended_as_it_begins_leaves_nothing(self) -> None:
        script = self.folder / "slow"
        script.write_text(f"#!/bin/sh\nsleep 30\nexec {' '.join(server_command())} \"$@\"\n")
        script.chmod(0o755)
        for number in (signal.SIGINT, signal.SIGTERM, signal.SIGKILL):
            with subprocess.Popen(
                    [sys.executable, "-m", "xqs", "serve", str(self.path), "--", str(script)],
                    cwd=SOURCES, stderr=subprocess.DEVNULL, start_new_session=True,
                    preexec_fn=take_signals) as process:
                wait_until(lambda: len(running(str(script))) >= 4, "nothing runs")
                process.send_signal(number)
                process.wait(PATIENCE)
            wait_until(lambda: not running(str(script)), f"{number}: something is left")

    def test_one_that_takes_too_long_is_ended(self) -> None:
        script = self.folder / "slow"
        script.write_text("#!/bin/sh\nsleep 30\n")
        script.chmod(0o755)
        done = self.serve("--wait", "1", command=[str(script)])
        self.assertEqual(done.returncode, 1)
        self.assertIn("it was not open within 1 seconds (--wait N allows more", done.stderr)
        self.assertEqual(running(str(script)), [])


class Refused(ServeTest):
    def test_two_at_once(self) -> None:
        words = [sys.executable, "-m", "xqs", "serve", "--servers", "1", str(self.path), "--",
                 *server_command()]
        both = [subprocess.Popen(words, cwd=SOURCES, stderr=-1, text=True) for _ in range(2)]
        said = [it.communicate(timeout=PATIENCE)[1] for it in both]
        self.assertEqual(sorted(it.returncode for it in both), [0, 1], said)
        lost = said[[it.returncode for it in both].index(1)]
        self.assertRegex(lost, r"is served already, by process \d+|is in use by process \d+")
        again = self.serve()
        self.assertEqual(again.returncode, 1)
        self.assertIn(f"is served already, by process {self.server()}", again.stderr)

    def test_a_file_that_another_program_holds(self) -> None:
        with connect(file_server(self.path)) as client:
            client.list()
            done = self.serve()
            self.assertEqual(done.returncode, 1)
            self.assertRegex(done.stderr, r"x\.db is in use by process \d+ .*: end that process")
            self.assertIn("is in use by process", self.stop().stderr)
        self.assertEqual(self.serve("--servers", "1").returncode, 0)

    def test_a_program_that_ends_is_told_with_what_it_said(self) -> None:
        done = self.serve(command=["sh", "-c", "echo it has no mind to >&2; exit 3"])
        self.assertEqual(done.returncode, 1)
        self.assertIn("it ended as it began", done.stderr)
        self.assertIn("it has no mind to", done.stderr)
        self.assertIn("exit status 3", done.stderr)

    def test_paths_that_have_no_socket(self) -> None:
        deep = self.folder / ("d" * 60) / ("e" * 40)
        deep.mkdir(parents=True)
        done = self.serve(path=deep / "x.db")
        self.assertEqual(done.returncode, 1)
        self.assertIn("a socket's path may have 107 bytes", done.stderr)
        with self.assertRaises(NoSocket):
            socket_path(deep / "x.db")
        with connect(file_server(deep / "x.db")) as client:
            self.assertEqual(client.list(), [])
        self.assertEqual(self.serve(path=self.folder / "none" / "x.db").returncode, 1)

    def test_a_file_that_took_the_place_of_another(self) -> None:
        self.assertEqual(self.serve("--servers", "1").returncode, 0)
        self.path.rename(self.folder / "moved.db")
        for is_replaced in (False, True):
            if is_replaced:
                self.path.write_bytes(b"other")
            with self.assertRaisesRegex(NotThisFile, "serves another file than"):
                connect(file_server(self.path))
        self.path.unlink()
        self.assertEqual(self.stop().returncode, 0)

    def test_what_listens_there_and_is_no_multiplexer(self) -> None:
        self.path.touch()
        with socket.socket(socket.AF_UNIX) as listener:
            listener.bind(str(self.socket))
            listener.listen()
            with mock.patch("xqs.served.BEGINNING", 0.1), \
                    self.assertRaisesRegex(NotConnected, "doesn't say which file it serves"):
                connect(file_server(self.path))
            self.assertIn("is not served", self.stop().stderr)
        self.assertIsNone(socket_of(self.path))

    @unittest.skipUnless(os.getuid() == 0, "it wants another user's socket")
    def test_a_socket_of_another_user_is_nobodys(self) -> None:
        self.path.touch()
        with socket.socket(socket.AF_UNIX) as listener:
            listener.bind(str(self.socket))
            listener.listen()
            os.chown(self.socket, 12345, -1)
            self.assertIsNone(socket_of(self.path))

    def test_words(self) -> None:
        for words in (["--", "x", "--file", "y"], ["--file", "y"]):
            done = self.xqs("serve", str(self.path), *words)
            self.assertNotEqual(done.returncode, 0)
        self.assertEqual(split_command(["a", "--", "b"]), (["a"], ["b"]))


class Logs(ServeTest):
    def test_what_it_says_is_kept_and_bounded(self) -> None:
        log = self.folder / "log"
        self.assertEqual(self.serve("--log", str(log)).returncode, 0)
        wait_until(lambda: "holds the documents" in log.read_text(), "it says nothing")
        self.assertEqual(stat.S_IMODE(log.stat().st_mode), 0o600)
        with open(log, "ab") as out:
            out.write(b"a line\n" * 200_000)
        cut_log(log)
        self.assertLess(log.stat().st_size, 70_000)
        self.assertTrue(log.read_text().startswith("(older lines are left out)\na line\n"))


if __name__ == "__main__":
    unittest.main()
