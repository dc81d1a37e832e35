"""How a multiplexer reports its figures, is upgraded, and is started by systemd."""

import os
import re
import shutil
import socket
import stat
import subprocess
import sys
import tempfile
import time
import unittest
import urllib.error
import urllib.request
from pathlib import Path
from unittest import mock

from tests.serving import SOURCES, Connection, RunningMux, store_body
from tests.support import TOP, FolderTest, server_command
from xqs.metrics import BOUNDS, Times
from xqs.starting import in_memory
from xqs.watching import ended_by_memory, is_stopped

DONE, REFUSED, WANTING = 0, 1, 2
OTHER = Path(__file__).with_name("other_program.py")
UNITS = TOP / "clients" / "python" / "systemd"
SAMPLE = re.compile(r'[a-z_]+(\{([a-z]+="[^"\\]*",?)+\})? -?[0-9.e+-]+')


def run_xqs(*words: str) -> subprocess.CompletedProcess[str]:
    """Runs a command of the package to its end."""
    return subprocess.run([sys.executable, "-m", "xqs", *words], cwd=SOURCES, text=True,
                          capture_output=True, timeout=120, check=False)


class MuxTest(FolderTest):
    """A multiplexer for each test."""

    def mux(self, *options: str, servers: int = 2) -> RunningMux:
        """A multiplexer that ends with the test, whose servers all hold the documents."""
        mux = self.enterContext(RunningMux(*options, servers=servers))
        for number in range(2, servers + 1):
            mux.wait_for(f"server {number} holds the documents")
        return mux

    def client(self, mux: RunningMux) -> Connection:
        """A connection that ends with the test."""
        return self.enterContext(mux.connect())


class FiguresTest(MuxTest):
    """The output of `xqs status`, `/metrics` and the log."""

    def test_status_tells_servers_and_replies(self) -> None:
        for servers in (1, 2):
            mux = self.mux(servers=servers)
            client = self.client(mux)
            self.assertEqual(client.ask(b"S", store_body(b"a")), (DONE, b"stored"))
            self.assertEqual((client.ask(b"Q", b"cuont(1)") or (0,))[0], REFUSED)
            done = run_xqs("status", mux.place)
            self.assertEqual((done.returncode, done.stderr), (0, ""))
            self.assertIn("1 clients, 0 reads and 0 writes wait", done.stdout)
            self.assertIn("server 1: ready, documents in file", done.stdout)
            self.assertEqual("server 2: ready, documents in memory" in done.stdout, servers == 2)
            self.assertIn("store: 1 done;", done.stdout)
            self.assertIn("query: 1 refused;", done.stdout)

    def test_the_figures_are_in_the_format_of_prometheus(self) -> None:
        mux = self.mux("--metrics", "0")
        client = self.client(mux)
        for number in range(5):
            client.ask(b"Q", b"%d" % number)
        where = mux.wait_for("figures at ")
        with urllib.request.urlopen(where, timeout=30) as answer:
            kind, text = answer.headers["Content-Type"], answer.read().decode()
        self.assertTrue(kind.startswith("text/plain; version=0.0.4"))
        lines = text.splitlines()
        for line in lines:
            self.assertTrue(line.startswith(("# HELP ", "# TYPE ")) or SAMPLE.fullmatch(line), line)
        self.assertIn('xqs_replies_total{kind="query",status="done"} 5', lines)
        self.assertIn('xqs_request_seconds_bucket{kind="query",le="+Inf"} 5', lines)
        self.assertIn('xqs_server_ready{server="2",holds="memory"} 1', lines)
        self.assertEqual(run_xqs("status", mux.place, "--metrics").stdout.count("# TYPE"),
                         text.count("# TYPE"))

    def test_the_page_is_of_this_machine_alone(self) -> None:
        mux = self.mux("--metrics", "0", servers=1)
        where = mux.wait_for("figures at ").removesuffix("/metrics")
        with urllib.request.urlopen(where + "/", timeout=30) as answer:
            self.assertIn(b"server 1: ready", answer.read())
        for path, host, method, status in (("/", "evil.example", "GET", 403),
                                           ("/none", "localhost", "GET", 404),
                                           ("/metrics", "localhost", "POST", 405)):
            request = urllib.request.Request(where + path, headers={"Host": host}, method=method)
            with self.assertRaises(urllib.error.HTTPError) as caught:
                urllib.request.urlopen(request, timeout=30)
            self.assertEqual(caught.exception.code, status)
            caught.exception.close()

    def test_refused_and_slow_requests_have_a_line(self) -> None:
        mux = self.mux(servers=1)
        client = self.client(mux)
        client.ask(b"Q", b"cuont(\n1)")
        mux.wait_for("refused XPST0017, ")
        self.assertIn("Q 'cuont(\\n1)', 10 bytes\n", mux.said())
        client.ask(b"Q", b"count(for $x in 1 to 6000, $y in 1 to 1000 return $x)")
        mux.wait_for("slow, ")
        for _ in range(300):
            client.send(b"Q", b"1 +")
        for _ in range(300):
            client.reply()
        time.sleep(1.1)
        client.ask(b"Q", b"1 +")
        mux.wait_for("more requests were refused or slow")

    def test_who_asks_where_nobody_listens_is_told(self) -> None:
        done = run_xqs("status", f"unix:{self.folder}/none")
        self.assertEqual(done.returncode, 1)
        self.assertIn("no multiplexer of this user runs at", done.stderr)

    def test_the_control_is_its_owners_and_goes_with_the_multiplexer(self) -> None:
        mux = self.mux(servers=1)
        path = mux.folder / "xq.sock.control"
        self.assertEqual(stat.S_IMODE(path.stat().st_mode), 0o600)
        with socket.socket(socket.AF_UNIX) as rude:
            rude.connect(str(path))
            rude.sendall(b"x" * 100_000 + b"\n")
        with socket.socket(socket.AF_UNIX) as rude:
            rude.connect(str(path))
            rude.sendall(b"upgrade [1]\n")
            self.assertIn(b"refused", rude.recv(1000))
        self.assertEqual(run_xqs("status", mux.place).returncode, 0)
        self.assertEqual(mux.terminate(), 0)
        self.assertFalse(path.exists())

    def test_where_it_can_not_be_asked_it_serves(self) -> None:
        (self.folder / "s.control").mkdir()
        mux = self.enterContext(RunningMux(place=f"unix:{self.folder}/s"))
        mux.wait_for("it can't be asked for its status")
        self.assertEqual(self.client(mux).ask(b"Q", b"1"), (DONE, b"1"))

    def test_a_port_has_its_control_too(self) -> None:
        with tempfile.TemporaryDirectory() as folder:
            environment = {"XDG_RUNTIME_DIR": folder}
            os.environ.update(environment)
            self.addCleanup(os.environ.pop, "XDG_RUNTIME_DIR")
            mux = self.enterContext(RunningMux(place="tcp:0"))
            self.assertEqual(run_xqs("status", mux.place).returncode, 0)
            mux.terminate()


class UpgradeTest(MuxTest):
    """Upgrades to another program."""

    def program(self, name: str, plan: str = "") -> Path:
        """A program that answers as the server does, except for planted answers."""
        script = self.folder / name
        words = " ".join(server_command())
        planted = f"{sys.executable} {OTHER} {plan} -- " if plan else ""
        script.write_text(f'#!/bin/sh\nexec {planted}{words} "$@"\n')
        script.chmod(0o755)
        return script

    def upgrade(self, mux: RunningMux, program: Path) -> subprocess.CompletedProcess[str]:
        """Requests the upgrade."""
        return run_xqs("mux", "--upgrade", mux.place, "--", str(program), "--file",
                       str(mux.folder / "x.db"))

    def test_it_is_taken_over_while_reads_and_writes_go_on(self) -> None:
        mux = self.mux(servers=3)
        client = self.client(mux)
        self.assertEqual(client.ask(b"S", store_body(b"a")), (DONE, b"stored"))
        program = self.program("new")
        done = self.upgrade(mux, program)
        self.assertEqual(done.returncode, 0, done.stderr)
        for _ in range(6):
            self.assertEqual(client.ask(b"L"), (DONE, b'"a"'))
        self.assertEqual(client.ask(b"S", store_body(b"a")), (DONE, b"replaced"))
        self.assertIn("all servers run", mux.said())
        self.assertEqual(len(mux.server_ids()), 3)

    def test_one_that_answers_otherwise_is_refused(self) -> None:
        mux = self.mux(servers=3)
        client = self.client(mux)
        self.assertEqual(client.ask(b"S", store_body(b"a", b"document {element red {}}")),
                         (DONE, b"stored"))
        self.assertEqual(client.ask(b"Q", b"doc('a')//red"), (DONE, b"element red {}"))
        done = self.upgrade(mux, self.program("other", "//red"))
        self.assertEqual(done.returncode, 1)
        self.assertIn("its answer differs", done.stderr)
        for _ in range(6):
            self.assertEqual(client.ask(b"Q", b'doc("a")'),
                             (DONE, b"document {element red {}}"))
        self.assertEqual(client.ask(b"S", store_body(b"b")), (DONE, b"stored"))

    def test_one_that_does_not_start_is_refused(self) -> None:
        mux = self.mux(servers=2)
        client = self.client(mux)
        self.assertEqual(client.ask(b"S", store_body(b"a")), (DONE, b"stored"))
        done = self.upgrade(mux, Path("/bin/false"))
        self.assertEqual(done.returncode, 1)
        self.assertIn("the upgrade is refused, and the old program goes on: server 2: the "
                      "server ended as it started", done.stderr)
        other = run_xqs("mux", "--upgrade", mux.place, "--", *server_command(), "--file", "other")
        self.assertEqual(other.returncode, 1)
        self.assertIn("the documents are in", other.stderr)
        for _ in range(4):
            self.assertEqual(client.ask(b"L"), (DONE, b'"a"'))

    def test_one_server_can_not_be_replaced(self) -> None:
        mux = self.mux(servers=1)
        done = self.upgrade(mux, self.program("new"))
        self.assertEqual(done.returncode, 1)
        self.assertIn("--servers 2", done.stderr)


class PartsTest(FolderTest):
    """The parts of the multiplexer."""

    def test_times_are_counted_in_buckets(self) -> None:
        times = Times()
        for seconds in (0.0005, 0.001, 0.02, 0.3, 100.0):
            times.note(seconds)
        counts = dict(times.cumulated())
        self.assertEqual((counts["0.001"], counts["0.025"], counts["0.5"]), (2, 3, 4))
        self.assertEqual((counts["60"], counts["+Inf"], len(counts)), (4, 5, len(BOUNDS) + 1))

    def test_the_file_is_taken_out_of_a_command(self) -> None:
        for words in (["s", "--file", "x", "-v"], ["s", "--file=x", "-v"], ["s", "-v"]):
            self.assertEqual(in_memory(words), ["s", "-v"])

    def test_an_end_for_want_of_memory_is_told_from_others(self) -> None:
        for status, why, frames, seen, is_one in (
                (1, "", 5, 0, True), (1, "", 1_000_000, 0, False), (1, "shut", 5, 0, False),
                (0, "", 5, 99, False), (-9, "", 5, 90, True), (-9, "", 5, 10, False)):
            backend = mock.Mock(frames=frames)
            backend.process.returncode = status
            self.assertEqual(ended_by_memory(backend, why, seen, 100), is_one, (status, why, seen))

    def test_a_query_at_which_a_server_wants_memory_and_ends_is_told(self) -> None:
        script = self.folder / "serve"
        script.write_text(
            "#!/bin/sh\nhead -c 11 > /dev/null; printf '\\0\\0\\0\\7\\0\\0\\0\\1\\0()'\n"
            "head -c 10 > /dev/null; exit 1\n")
        script.chmod(0o755)
        with RunningMux(command=["sh", str(script)]) as mux, mux.connect() as client:
            self.assertEqual(client.ask(b"Q", b"1"), (REFUSED, b"xqs:MEMORY"))

    def test_a_stopped_process_is_seen(self) -> None:
        with subprocess.Popen(["sh", "-c", "kill -STOP $$"]) as process:
            end = time.monotonic() + 20
            while not is_stopped(process.pid):
                self.assertLess(time.monotonic(), end)
                time.sleep(0.01)
            process.kill()
        self.assertFalse(is_stopped(process.pid))


class SystemdTest(FolderTest):
    """The units of the release, and a socket that systemd passes at the start."""

    @unittest.skipUnless(shutil.which("systemd-analyze"), "systemd-analyze is not installed")
    def test_the_units_are_ones(self) -> None:
        for unit in UNITS.glob("xqs-*"):
            text = unit.read_text().replace("/opt/xq_server", str(TOP))
            (self.folder / unit.name).write_text(text)
        names = [f"./{it.name}" for it in sorted(self.folder.iterdir())]
        self.assertEqual(len(names), 5)
        done = subprocess.run(["systemd-analyze", "verify", *names], cwd=self.folder, text=True,
                              capture_output=True, check=False, timeout=60)
        self.assertEqual((done.returncode, done.stderr), (0, ""))

    def test_the_socket_of_systemd_is_used_and_stays(self) -> None:
        listener = socket.socket(socket.AF_UNIX)
        self.addCleanup(listener.close)
        listener.bind(str(self.folder / "s"))
        listener.listen()
        told = socket.socket(socket.AF_UNIX, socket.SOCK_DGRAM)
        self.addCleanup(told.close)
        told.bind(str(self.folder / "notify"))
        told.settimeout(60)
        script = ("import os, sys; os.dup2(int(sys.argv[1]), 3); os.environ.update(LISTEN_FDS='1', "
                  "LISTEN_PID=str(os.getpid())); "
                  "os.execv(sys.executable, [sys.executable, '-m', 'xqs', *sys.argv[2:]])")
        words = ["mux", "systemd:", "--servers", "1", "--", *server_command()]
        environment = os.environ | {"NOTIFY_SOCKET": str(self.folder / "notify")}
        with subprocess.Popen(
                [sys.executable, "-c", script, str(listener.fileno()), *words], cwd=SOURCES,
                pass_fds=[listener.fileno()], env=environment, stderr=-1) as process:
            self.assertEqual(told.recv(100), b"READY=1")
            with Connection(f"unix:{self.folder}/s") as client:
                self.assertEqual(client.ask(b"Q", b"1"), (DONE, b"1"))
            process.terminate()
            self.assertEqual(told.recv(100), b"STOPPING=1")
            assert process.stderr is not None
            process.stderr.read()
        self.assertEqual(process.returncode, 0)
        self.assertTrue((self.folder / "s").exists())

    def test_without_systemd_it_is_refused(self) -> None:
        done = run_xqs("mux", "systemd:", "--servers", "1", "--", *server_command())
        self.assertEqual(done.returncode, 1)
        self.assertIn("systemd passed no socket", done.stderr)


if __name__ == "__main__":
    unittest.main()
