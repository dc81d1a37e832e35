"""Brokers of RabbitMQ on loopback for tests: started, killed, stopped, and ended by their ids.

Each has its own ports, name and folder, and they share an epmd of their own, so that no broker of
the system is touched.
"""

import os
import shutil
import signal
import socket
import subprocess
import tempfile
import time
import unittest
from contextlib import suppress
from pathlib import Path

from tests.serving import die_with_parent

SCRIPT = "/usr/lib/rabbitmq/bin/rabbitmq-server"
"""The package's own script; the one on the path needs its user and its folders."""
PATIENCE = 300.0
"""Seconds for a broker to begin, on a busy machine."""
NAMES = ("a", "b", "c")


def missing() -> str:
    """The missing packages; empty if there are none."""
    if not Path(SCRIPT).exists():
        return "rabbitmq-server is not installed"
    return "" if shutil.which("epmd") else "epmd is not installed"


def free_ports(count: int) -> list[int]:
    """Ports of loopback at which nothing listens."""
    sockets = [socket.create_server(("127.0.0.1", 0)) for _ in range(count)]
    ports = [it.getsockname()[1] for it in sockets]
    for it in sockets:
        it.close()
    return ports


class Brokers:
    """A cluster of brokers, which keep their data until the folder is removed."""

    def __init__(self, count: int = 3) -> None:
        if why := missing():
            raise unittest.SkipTest(why)
        self._room = tempfile.TemporaryDirectory(prefix="xqs-brokers-", ignore_cleanup_errors=True)
        self.folder = Path(self._room.name)
        epmd, *ports = free_ports(1 + 2 * count)
        self.names = NAMES[:count]
        self.ports = dict(zip(self.names, ports[:count], strict=True))
        self._peers = dict(zip(self.names, ports[count:], strict=True))
        self._epmd_port = epmd
        self._processes: dict[str, subprocess.Popen[bytes]] = {}
        self._write_files()
        self._epmd = subprocess.Popen(
            ["epmd", "-port", str(epmd), "-address", "127.0.0.1"], stdin=subprocess.DEVNULL,
            stdout=subprocess.DEVNULL, stderr=subprocess.DEVNULL, start_new_session=True,
            preexec_fn=die_with_parent)

    def _write_files(self) -> None:
        cookie = self.folder / ".erlang.cookie"
        cookie.write_text(os.urandom(10).hex())
        cookie.chmod(0o400)
        (self.folder / "plugins").write_text("[].\n")
        (self.folder / "environment").touch()
        nodes = "".join(f"cluster_formation.classic_config.nodes.{number} = {self._node(name)}\n"
                        for number, name in enumerate(self.names, 1))
        for name in self.names:
            (self.folder / f"{name}.conf").write_text(
                f"listeners.tcp.1 = 127.0.0.1:{self.ports[name]}\n"
                "cluster_formation.peer_discovery_backend = classic_config\n"
                f"{nodes}disk_free_limit.absolute = 50MB\nlog.file.level = warning\n")

    def _node(self, name: str) -> str:
        return f"{name}{self._epmd_port}@localhost"

    def address(self, log: str, first: int = 0, account: str = "guest:guest") -> str:
        """The log for `xqs node --log`, with another broker first for each node."""
        names = self.names[first:] + self.names[:first]
        hosts = [f"127.0.0.1:{self.ports[name]}" for name in names]
        return f"amqp://{account}@{hosts[0]}/{log}" + "".join(f",{it}" for it in hosts[1:])

    def start_all(self) -> None:
        """Starts all brokers; the first one alone, so that the others find it."""
        self.start(self.names[0])
        self.wait_for(self.names[0])
        for name in self.names[1:]:
            self.start(name)
        for name in self.names[1:]:
            self.wait_for(name)

    def start(self, name: str) -> None:
        """Starts a broker with the data that it kept."""
        folder = self.folder / name
        folder.mkdir(exist_ok=True)
        with open(folder / "output", "ab") as output:
            self._processes[name] = subprocess.Popen(
                [SCRIPT], cwd=folder, env=self._environment(name), stdin=subprocess.DEVNULL,
                stdout=output, stderr=output, start_new_session=True,
                preexec_fn=die_with_parent)

    def _environment(self, name: str) -> dict[str, str]:
        folder = self.folder / name
        return {
            "PATH": os.environ.get("PATH", "/usr/bin:/bin"), "HOME": str(self.folder),
            "LANG": "C.UTF-8",
            "RABBITMQ_NODENAME": self._node(name),
            "RABBITMQ_NODE_IP_ADDRESS": "127.0.0.1",
            "RABBITMQ_DIST_PORT": str(self._peers[name]),
            "RABBITMQ_MNESIA_BASE": str(folder), "RABBITMQ_LOG_BASE": str(folder),
            "RABBITMQ_CONFIG_FILE": str(self.folder / f"{name}.conf"),
            "RABBITMQ_ENABLED_PLUGINS_FILE": str(self.folder / "plugins"),
            "RABBITMQ_CONF_ENV_FILE": str(self.folder / "environment"),
            # In the foreground, as this process; it reads no input.
            "RABBITMQ_ALLOW_INPUT": "1", "RABBITMQ_SERVER_START_ARGS": "-noinput",
            "RABBITMQ_SERVER_ADDITIONAL_ERL_ARGS":
                "+S 2:2 +sbwt none +sbwtdcpu none +sbwtdio none "
                "-kernel inet_dist_use_interface {127,0,0,1}",
            "ERL_EPMD_PORT": str(self._epmd_port), "ERL_EPMD_ADDRESS": "127.0.0.1",
        }

    def wait_for(self, name: str) -> None:
        """Waits until a broker takes connections."""
        end = time.monotonic() + PATIENCE
        while True:
            with suppress(OSError):
                socket.create_connection(("127.0.0.1", self.ports[name]), 1).close()
                return
            if self._processes[name].poll() is not None or time.monotonic() > end:
                output = (self.folder / name / "output").read_text(errors="replace")
                raise AssertionError(f"the broker {name} does not begin: {output[-2000:]}")
            time.sleep(0.2)

    def process_id(self, name: str) -> int:
        """The process id of a broker."""
        return self._processes[name].pid

    def signal(self, name: str, number: signal.Signals) -> None:
        """Sends a broker a signal."""
        self._processes[name].send_signal(number)

    def kill(self, name: str) -> None:
        """Ends a broker at once."""
        self.signal(name, signal.SIGKILL)
        self._processes[name].wait()

    def wait_for_end(self, name: str) -> None:
        """Waits until a broker has ended."""
        self._processes[name].wait(PATIENCE)

    def control(self, name: str, *words: str) -> str:
        """The output of `rabbitmqctl` for a broker."""
        done = subprocess.run(
            [str(Path(SCRIPT).with_name("rabbitmqctl")), "--node", self._node(name), *words],
            env=self._environment(name), capture_output=True, text=True, timeout=PATIENCE,
            check=True)
        return done.stdout

    def close(self) -> None:
        """Ends all brokers, and removes their data."""
        for process in [*self._processes.values(), self._epmd]:
            if process.poll() is None:
                process.send_signal(signal.SIGCONT)
                process.kill()
                process.wait()
        self._room.cleanup()

    def __enter__(self) -> "Brokers":
        self.start_all()
        return self

    def __exit__(self, *_: object) -> None:
        self.close()
