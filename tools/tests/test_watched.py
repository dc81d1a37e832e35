"""Tests of watched.py."""

import os
import pathlib
import signal
import subprocess
import sys
import tempfile
import time
import unittest

from tools.common import watched
from tools.common.repository import environment

# A process that waits for a command, and whose own parent may end.
WAITS = """import sys
from tools.common import watched
watched.end_by_signals()
with open(sys.argv[1], "wb") as log:
    sys.exit(watched.run(["sh", "-c", "echo $$; exec sleep 60"], log))"""
# A process that holds a file until its standard input ends.
HOLDS = """import pathlib, sys
from tools.common import watched
with watched.lone(pathlib.Path(sys.argv[1]), lambda: None):
    print("held", flush=True)
    sys.stdin.read()"""
WORDS = [sys.executable, "-c", WAITS]


def started(log: pathlib.Path) -> int:
    """The number of the process that wrote it into the log, as soon as it is there."""
    for _ in range(200):
        if log.exists() and log.read_text().endswith("\n"):
            return int(log.read_text())
        time.sleep(0.05)
    raise AssertionError("nothing was started")


def has_ended(pid: int) -> bool:
    """Whether the process ends within some seconds."""
    for _ in range(100):
        state = pathlib.Path(f"/proc/{pid}/stat")
        if not state.exists() or state.read_text().rpartition(")")[2].split()[0] == "Z":
            return True
        time.sleep(0.05)
    return False


class Run(unittest.TestCase):
    def setUp(self) -> None:
        folder = tempfile.TemporaryDirectory()
        self.addCleanup(folder.cleanup)
        self.log = pathlib.Path(folder.name, "log")

    def test_status_and_both_streams(self) -> None:
        with open(self.log, "wb") as log:
            status = watched.run(["sh", "-c", "echo a; echo b >&2; read it || exit 3"], log)
        self.assertEqual((status, self.log.read_text()), (3, "a\nb\n"))

    def test_its_processes_are_seen(self) -> None:
        seen: list[list[str]] = []
        with open(self.log, "wb") as log:
            watched.run(["sh", "-c", "sleep 0.7; true"], log,
                        lambda pid: seen.extend(watched.words_below(pid)))
        self.assertIn(["sleep", "0.7", ""], seen)

    def test_a_signal_ends_the_command(self) -> None:
        with subprocess.Popen([*WORDS, self.log], env=environment()) as waits:
            pid = started(self.log)
            waits.send_signal(signal.SIGTERM)
        self.assertEqual(waits.returncode, 128 + signal.SIGTERM)
        self.assertTrue(has_ended(pid))

    def test_it_ends_with_the_parent(self) -> None:
        words = ["sh", "-c", '"$@" & wait', "", *WORDS, str(self.log)]
        with subprocess.Popen(words, env=environment()) as parent:
            pid = started(self.log)
            os.kill(parent.pid, signal.SIGKILL)
        self.assertTrue(has_ended(pid))


class Lone(unittest.TestCase):
    def test_a_second_process_waits_and_says_so(self) -> None:
        with tempfile.TemporaryDirectory() as folder:
            path = pathlib.Path(folder, "below", "lock")
            words = [sys.executable, "-c", HOLDS, str(path)]
            pipe = subprocess.PIPE
            with subprocess.Popen(
                words, stdin=pipe, stdout=pipe, text=True, env=environment()
            ) as holder:
                assert holder.stdin is not None and holder.stdout is not None
                self.assertEqual(holder.stdout.readline(), "held\n")
                with watched.lone(path, holder.stdin.close):
                    self.assertTrue(holder.stdin.closed)

    def test_none_waits_where_none_holds(self) -> None:
        with tempfile.TemporaryDirectory() as folder:
            for _ in range(2):
                watched.lone(pathlib.Path(folder, "lock"), self.fail).close()


if __name__ == "__main__":
    unittest.main()
