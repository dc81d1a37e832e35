"""What the servers of one command share: memory, and the cache of rows."""

import asyncio
import os
import signal
import time
import unittest
from collections.abc import Coroutine
from pathlib import Path
from typing import Any
from unittest import mock

from tests.serving import PATIENCE, RunningMux
from tests.support import FolderTest, server_command
from xqs.bounds import half_of_memory
from xqs.cluster.main import main
from xqs.cluster.node import Options
from xqs.starting import KEPT, keeping

SERVERS = 3


def words_of(process: int) -> list[str]:
    """The words that a process was started with."""
    return Path(f"/proc/{process}/cmdline").read_bytes().decode().split("\0")[:-1]


def kept_of(process: int) -> int | None:
    """The megabytes that a server may keep, by its command."""
    words = words_of(process)
    return int(words[words.index("--kept") + 1]) if "--kept" in words else None


def memory_of(process: int) -> int:
    """The bound on a process's address space, in bytes."""
    [line] = [it for it in Path(f"/proc/{process}/limits").read_text().splitlines()
              if it.startswith("Max address space")]
    return int(line.split()[3])


class MuxSharesTest(FolderTest):
    """The shares of a multiplexer's servers."""

    def mux(self, *options: str, servers: int = SERVERS, on_file: bool = True,
            command: list[str] | None = None) -> RunningMux:
        """A multiplexer whose servers all hold the documents."""
        mux = self.enterContext(RunningMux(
            *options, servers=servers, on_file=on_file, command=command))
        for number in range(2, servers + 1):
            mux.wait_for(f"server {number} holds the documents")
        return mux

    def test_all_together_have_what_is_said_or_what_is_so_by_itself(self) -> None:
        for options, on_file, share in (((), True, 42), (("--kept", "90"), True, 30),
                                        (("--kept", "90"), False, 30), (("--kept", "2"), True, 1)):
            mux = self.mux(*options, on_file=on_file)
            self.assertEqual([kept_of(it) for it in mux.server_ids()], [share] * SERVERS)
            self.assertEqual([memory_of(it) for it in mux.server_ids()],
                             [half_of_memory() // SERVERS] * SERVERS)
        self.assertLessEqual(SERVERS * 42, KEPT)

    def test_a_command_that_names_its_own_is_left_as_it_is(self) -> None:
        mux = self.mux("--kept", "90", command=[*server_command(), "--kept", "77"])
        self.assertEqual([kept_of(it) for it in mux.server_ids()], [77] * SERVERS)
        self.assertEqual([words_of(it).count("--kept") for it in mux.server_ids()], [1] * SERVERS)

    def test_one_server_keeps_all_of_it(self) -> None:
        for options, kept in (((), None), (("--kept", "90"), 90)):
            [server] = self.mux(*options, servers=1).server_ids()
            self.assertEqual(kept_of(server), kept)

    def test_memory_is_that_of_all_together_whoever_is_started_again(self) -> None:
        mux = self.mux("--memory", "3G")
        before = mux.server_ids()
        for server in before:
            os.kill(server, signal.SIGKILL)
        end = time.monotonic() + PATIENCE
        while len(now := set(mux.server_ids()) - set(before)) < SERVERS:
            self.assertLess(time.monotonic(), end, mux.said())
            time.sleep(0.05)
        time.sleep(0.2)  # (a keeper runs the server after it has set its bound)
        self.assertEqual([memory_of(it) for it in sorted(now)], [1 << 30] * SERVERS)
        self.assertEqual([kept_of(it) for it in sorted(now)], [42] * SERVERS)


class NodeSharesTest(FolderTest):
    """The shares of a node's servers."""

    def options(self, *words: str) -> Options:
        """What `xqs node` would give its node."""
        found: list[Options] = []

        async def run(address: object, place: str, options: Options, *others: object) -> int:
            found.append(options)
            return 0

        def run_to_end(work: Coroutine[Any, Any, int], name: str) -> int:
            return asyncio.run(work)

        with mock.patch("xqs.cluster.main.run", run), \
                mock.patch("xqs.cluster.main.ending.run", run_to_end):
            main(["--log", "amqp://127.0.0.1/docs", "--listen", "tcp:0", "--snapshots",
                  str(self.folder), *words])
        return found[0]

    def test_all_its_servers_have_together_what_is_said(self) -> None:
        options = self.options("--memory", "8G", "--", "s")
        self.assertEqual((options.servers, options.memory), (2, 4 << 30))
        self.assertEqual(options.command, ["s", "--kept", "64"])
        options = self.options("--servers", "4", "--kept", "1000", "--", "s", "-v")
        self.assertEqual(options.command, ["s", "-v", "--kept", "250"])
        options = self.options("--kept", "1000", "--", "s", "--kept=5")
        self.assertEqual(options.command, ["s", "--kept=5"])


class KeepingTest(unittest.TestCase):
    """The words of a command that has a share of its own."""

    def test_each_has_an_equal_share(self) -> None:
        for megabytes, servers, share in ((128, 1, ""), (128, 3, "42"), (0, 3, ""), (2, 3, "1"),
                                          (256, 2, ""), (90, 1, "90")):
            self.assertEqual(keeping(["s", "--file", "x"], megabytes, servers),
                             ["s", "--file", "x", *(["--kept", share] if share else [])])


if __name__ == "__main__":
    unittest.main()
