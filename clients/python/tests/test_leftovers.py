"""Nothing is left running: a server that was started ends with its client, however the client
ends."""

import hashlib
import importlib.util
import os
import signal
import subprocess
import sys
import threading
import time
from collections.abc import Callable
from functools import partial
from pathlib import Path

from tests.serving import SOURCES
from tests.support import FolderTest, file_server, server_command
from xqs import Client, connect

PATIENCE = 60.0
ENDLESS = "every $x in 1 to 1000000, $y in 1 to 1000000 satisfies $x > 0"


def take_signals() -> None:
    """Lets SIGINT and SIGHUP through, even if the tests run in the background."""
    for number in (signal.SIGINT, signal.SIGHUP):
        signal.signal(number, signal.SIG_DFL)


def running(mark: str) -> list[int]:
    """The processes with the mark among their words."""
    found = []
    for place in Path("/proc").glob("[0-9]*/cmdline"):
        try:
            if mark.encode() in place.read_bytes():
                found.append(int(place.parent.name))
        except OSError:
            continue
    return found


def is_gone(mark: str) -> bool:
    """Whether no process has the mark among its words."""
    return not running(mark)


def wait_until(is_so: Callable[[], object], what: str) -> None:
    """Waits until the function returns true."""
    end = time.monotonic() + PATIENCE
    while not is_so():
        if time.monotonic() > end:
            raise AssertionError(what)
        time.sleep(0.1)


class Leftovers(FolderTest):
    """Each command, over a program that stands in for a server and never answers."""

    def setUp(self) -> None:
        super().setUp()
        (self.folder / "in").mkdir()
        (self.folder / "in" / "a.xml").write_text("<a/>")
        (self.folder / "a.xml").write_text("<a/>")

    def commands(self) -> dict[str, list[str]]:
        """The commands that start a server, with words that send it a request."""
        file, folder = str(self.folder / "a.xml"), str(self.folder / "in")
        backup = self.folder / "backup"
        document = b"document {}"
        backup.write_bytes(b"xqs backup 1\ndocument %d %s a\n%s\nend 1\n" % (
            len(document), hashlib.sha256(document).hexdigest().encode(), document))
        commands: dict[str, list[str]] = {
            "query": ["1"], "store": ["a", file], "get": ["a"], "drop": ["a"], "list": [],
            "restore": [str(backup)],
            "load": [folder, "--journal", str(self.folder / "journal")],
            "export": [str(self.folder / "out")], "backup": [str(self.folder / "b")], "gc": [],
            "shell": ["-c", "1"], "mux": [f"unix:{self.folder}/s"],
        }
        if importlib.util.find_spec("aiohttp"):
            commands["web"] = ["--listen", "0"]
        return commands

    def server(self, name: str, mark: str, is_last: bool = True) -> str:
        """A script in place of a server; it becomes the program, or waits for it."""
        script = self.folder / f"serve-{name}"
        line = f"exec sleep {mark}\n" if is_last else f"sleep {mark}\n:\n"
        script.write_text(f"#!/bin/sh\n{line}")
        script.chmod(0o755)
        return str(script)

    def start(self, name: str, words: list[str], server: str) -> "subprocess.Popen[bytes]":
        """Starts a command over the server."""
        started = subprocess.Popen(
            [sys.executable, "-m", "xqs", name, *words, "--server", server], cwd=SOURCES,
            stdin=subprocess.DEVNULL, stdout=subprocess.DEVNULL, stderr=subprocess.DEVNULL,
            env={**os.environ, "XDG_STATE_HOME": str(self.folder)}, start_new_session=True,
            preexec_fn=take_signals)
        self.addCleanup(started.wait)
        self.addCleanup(started.kill)
        return started

    def ends_all(self, *signals: signal.Signals, is_last: bool = True) -> None:
        """Starts each command, sends it these signals once its server runs, and checks that all
        ends."""
        begun = {}
        for number, (name, words) in enumerate(self.commands().items()):
            mark = f"7{os.getpid()}{number}.5"
            begun[name] = (mark, self.start(name, words, self.server(name, mark, is_last)))
        for name, (mark, _) in begun.items():
            wait_until(partial(running, mark), f"{name} starts no server")
        for one in signals:
            for _, process in begun.values():
                process.send_signal(one)
            time.sleep(0.1)
        for name, (mark, process) in begun.items():
            with self.subTest(name):
                self.assertNotEqual(process.wait(PATIENCE), 0)
                wait_until(partial(is_gone, mark), f"{name} leaves its server")

    def test_interrupted_twice(self) -> None:
        self.ends_all(signal.SIGINT, signal.SIGINT)

    def test_terminated(self) -> None:
        self.ends_all(signal.SIGTERM)

    def test_hung_up(self) -> None:
        self.ends_all(signal.SIGHUP)

    def test_killed(self) -> None:
        self.ends_all(signal.SIGKILL)

    def test_killed_before_a_script_that_waits_for_its_server(self) -> None:
        self.ends_all(signal.SIGKILL, is_last=False)


class Keepers(FolderTest):
    def test_a_server_that_works_ends_with_its_client(self) -> None:
        server = file_server(self.folder / "x.db")
        for one in (signal.SIGTERM, signal.SIGKILL):
            process = subprocess.Popen(
                [sys.executable, "-m", "xqs", "query", ENDLESS, "--", *server], cwd=SOURCES,
                stderr=subprocess.DEVNULL)
            wait_until(lambda: len(running(str(self.folder / "x.db"))) == 3, "no server runs")
            time.sleep(0.5)
            process.send_signal(one)
            process.wait(PATIENCE)
            wait_until(lambda: not running(str(self.folder / "x.db")), "the server is left")

    def test_its_end_is_the_end_of_the_server(self) -> None:
        client = connect(["sleep", f"8{os.getpid()}.25"])
        wait_until(lambda: len(running(f"8{os.getpid()}.25")) == 2, "nothing runs")
        stream = client._link.stream
        assert stream is not None and stream.process is not None
        os.kill(stream.process.pid, signal.SIGKILL)
        wait_until(lambda: not running(f"8{os.getpid()}.25"), "the program is left")
        client.kill()

    def test_a_server_outlives_the_thread_that_started_it(self) -> None:
        clients: list[Client] = []
        thread = threading.Thread(target=lambda: clients.append(connect(server_command())))
        thread.start()
        thread.join()
        time.sleep(0.5)
        self.assertEqual(clients[0].query("1"), [1])
        self.assertEqual(clients[0].close(), 0)

    def test_a_command_that_ignores_a_hangup_goes_on(self) -> None:
        process = subprocess.Popen(
            ["nohup", sys.executable, "-m", "xqs", "query",
             "count(for $x in 1 to 1000, $y in 1 to 5000 return 1)", "--", *server_command()],
            cwd=SOURCES, stdin=subprocess.DEVNULL, stdout=subprocess.PIPE,
            stderr=subprocess.DEVNULL, start_new_session=True)
        time.sleep(1)
        process.send_signal(signal.SIGHUP)
        out, _ = process.communicate(timeout=PATIENCE)
        self.assertEqual((process.returncode, out), (0, b"5000000\n"))

    def test_the_status_of_a_server_is_told(self) -> None:
        for script, status in (("exit 7", 7), ("kill -KILL $$", -9), ("kill -TERM $$", -15)):
            with self.subTest(script):
                client = connect(["sh", "-c", script])
                self.assertEqual(client.close(), status)
