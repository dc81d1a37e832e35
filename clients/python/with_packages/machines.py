"""Machines for tests: network namespaces on one bridge, each with its own files and processes.

Each machine has its own network, name, process ids and mounts: /etc, /var, /root and /opt are those
of this machine with its own changes over them, which are removed at the end. `systemctl` and
`apt-get` are stand-ins. This needs root, `ip` and `unshare`, and changes nothing of this machine.
"""

import os
import shutil
import subprocess
import tempfile
import time
from collections.abc import Sequence
from pathlib import Path

NAMES = ("m1", "m2", "m3")
OVERLAID = ("etc", "var", "root", "opt")
PATIENCE = 600.0
"""Seconds for a command, on a busy machine."""
_INIT = """
set -eu
echo {name} > /proc/sys/kernel/hostname
mount --make-rprivate /
for folder in {folders}; do
    mount -t overlay overlay -o \\
        lowerdir=/$folder,upperdir={room}/$folder.up,workdir={room}/$folder.work /$folder
done
mount -t tmpfs tmpfs /run
rm -rf /var/lib/rabbitmq/mnesia /var/lib/rabbitmq/.erlang.cookie /etc/rabbitmq/rabbitmq.conf
printf '%s\\n' {hosts} > /etc/hosts
touch {room}/ready
exec /usr/bin/python3 -c '
import os, signal, time
signal.signal(signal.SIGTERM, lambda *_: os._exit(0))
while True:
    try:
        os.wait()
    except ChildProcessError:
        time.sleep(0.2)
'
"""
_SYSTEMCTL = """#!/bin/bash
# Stands in for systemctl: brokers and nodes alone.
set -eu
quiet='+S 2:2 +sbwt none +sbwtdcpu none +sbwtdio none'
start_broker() {
    cd /var/lib/rabbitmq
    # (not runuser: where the broker is stopped, that stops itself too, and is not sent on with it)
    setsid setpriv --reuid=rabbitmq --regid=rabbitmq --init-groups \\
        env -i PATH=/usr/sbin:/usr/bin:/sbin:/bin HOME=/var/lib/rabbitmq \\
        LANG=C.UTF-8 RABBITMQ_ALLOW_INPUT=1 RABBITMQ_SERVER_START_ARGS=-noinput \\
        RABBITMQ_SERVER_ADDITIONAL_ERL_ARGS="$quiet" /usr/lib/rabbitmq/bin/rabbitmq-server \\
        >>/var/log/rabbitmq/out 2>&1 </dev/null &
    for _ in $(seq 300); do
        sleep 1
        grep -q 'Starting broker... completed' /var/log/rabbitmq/out || continue
        rabbitmqctl --timeout 300 await_startup >/dev/null 2>&1 && return
    done
    cat /var/log/rabbitmq/out >&2
    return 1
}
start_node() {
    unit=/etc/systemd/system/xqs-node.service
    install -d /run/xqs /var/lib/xqs
    line=$(sed -e ':a' -e '/\\\\$/{N;s/\\\\\\n//;ba}' "$unit" | sed -n 's/^ExecStart=//p')
    set -a; . /etc/xqs/node; set +a
    setsid bash -c "exec ${line//%l/$(hostname)}" >>/var/log/xqs-node 2>&1 </dev/null &
    echo $! > /run/xqs-node.pid
    for _ in $(seq 600); do
        grep -q 'listens at' /var/log/xqs-node && return
        sleep 0.5
    done
    cat /var/log/xqs-node >&2
    return 1
}
start_looks() {
    unit=/etc/systemd/system/xqs-broker.service
    every=$(sed -n 's/^OnUnitInactiveSec=//p' "${unit%service}timer")
    while read -r word; do export "$word"; done < <(
        sed -n 's/^Environment="\\(.*\\)"$/\\1/p' "$unit" | tr -d '\\\\')
    line=$(sed -n 's/^ExecStart=//p' "$unit")
    setsid bash -c "while sleep $every; do ${line//\\$\\$/\\$}; done" \\
        >>/var/log/xqs-broker 2>&1 </dev/null &
}
stop() {
    [ -f "$1" ] || return 0
    kill "$(cat "$1")" 2>/dev/null || true
    while kill -0 "$(cat "$1")" 2>/dev/null; do sleep 0.2; done
    rm -f "$1"
}
case "$*" in
    "stop rabbitmq-server") rabbitmqctl --timeout 60 stop >/dev/null 2>&1 || true ;;
    "start rabbitmq-server") rm -f /var/log/rabbitmq/out; start_broker ;;
    "start xqs-node"|"enable --now xqs-node") start_node ;;
    "enable --now xqs-broker.timer") start_looks ;;
    "stop xqs-node") stop /run/xqs-node.pid ;;
    daemon-reload) ;;
    *) echo "no such stand-in: $*" >&2; exit 1 ;;
esac
"""
_APT_GET = """#!/bin/sh
# Stands in for apt-get: what it should install has to be there already.
shift
for name in "$@"; do
    case $name in -*) ;; *) dpkg-query -W "$name" >/dev/null || exit 1 ;; esac
done
"""


def missing() -> str:
    """Why machines can't be made; empty if they can."""
    if os.geteuid():
        return "machines of their own want root"
    wanted = [it for it in ("ip", "unshare", "nsenter", "setpriv") if not shutil.which(it)]
    return f"there is no {wanted[0]}" if wanted else ""


def command(*words: str) -> str:
    """Runs a command of this machine, which must succeed."""
    return subprocess.run(words, check=True, capture_output=True, text=True).stdout


class Machines:
    """Some machines on one network."""

    def __init__(self, server: Sequence[str], top: Path, names: Sequence[str] = NAMES) -> None:
        """`server` are the words of a server, which /opt/xq_server/serve of each machine runs; the
        other files there are those of the checkout `top`."""
        self.names = names
        self.room = Path(tempfile.mkdtemp(prefix="xqs-machines-"))
        self._net = f"xqs{os.getpid()}"
        self._holders: dict[str, subprocess.Popen[bytes]] = {}
        self._ids: dict[str, int] = {}
        self._shims = self.room / "shims"
        try:
            self._write_shims()
            self._make_net()
            for name in names:
                self._make(name, server, top)
        except BaseException:
            self.close()
            raise

    def _write_shims(self) -> None:
        self.room.chmod(0o755)
        self._shims.mkdir()
        for name, text in (("systemctl", _SYSTEMCTL), ("apt-get", _APT_GET)):
            path = self._shims / name
            path.write_text(text)
            path.chmod(0o755)

    def _make_net(self) -> None:
        command("ip", "netns", "add", self._net)
        command("ip", "-n", self._net, "link", "add", "bridge", "type", "bridge")
        command("ip", "-n", self._net, "link", "set", "bridge", "up")
        for number, name in enumerate(self.names, 1):
            space = self._net + name
            command("ip", "netns", "add", space)
            command("ip", "-n", self._net, "link", "add", name, "type", "veth",
                    "peer", "name", "eth0", "netns", space)
            command("ip", "-n", self._net, "link", "set", name, "master", "bridge", "up")
            command("ip", "-n", space, "addr", "add", f"10.88.0.{number}/24", "dev", "eth0")
            command("ip", "-n", space, "link", "set", "eth0", "up")
            command("ip", "-n", space, "link", "set", "lo", "up")

    def _make(self, name: str, server: Sequence[str], top: Path) -> None:
        room = self.room / name
        for folder in OVERLAID:
            for part in ("up", "work"):
                (room / f"{folder}.{part}").mkdir(parents=True)
        (room / "root.up").chmod(0o700)
        self._fill_opt(room / "opt.up" / "xq_server", server, top)
        hosts = ["'127.0.0.1 localhost'"] + [f"'10.88.0.{number} {it}'"
                                             for number, it in enumerate(self.names, 1)]
        script = _INIT.format(name=name, folders=" ".join(OVERLAID), room=room,
                              hosts=" ".join(hosts))
        self._holders[name] = subprocess.Popen(
            ["ip", "netns", "exec", self._net + name, "unshare", "--uts", "--mount", "--pid",
             "--fork", "--mount-proc", "--kill-child", "bash", "-c", script],
            stdin=subprocess.DEVNULL)
        end = time.monotonic() + 60
        while not (room / "ready").exists():
            if self._holders[name].poll() is not None or time.monotonic() > end:
                raise AssertionError(f"the machine {name} does not begin")
            time.sleep(0.1)
        self._ids[name] = int(Path(f"/proc/{self._holders[name].pid}/task/"
                                   f"{self._holders[name].pid}/children").read_text().split()[0])

    @staticmethod
    def _fill_opt(folder: Path, server: Sequence[str], top: Path) -> None:
        """The files of a release, with another server below ./serve."""
        folder.mkdir(parents=True)
        shutil.copy(top / "xqs", folder)
        for part in ("clients", "docs"):
            shutil.copytree(top / part, folder / part,
                            ignore=shutil.ignore_patterns("__pycache__", ".mypy_cache"))
        serve = folder / "serve"
        words = " ".join(f"'{it}'" for it in server)
        serve.write_text(f"#!/bin/sh\nexec {words} \"$@\"\n")
        serve.chmod(0o755)

    def words(self, name: str, *words: str) -> list[str]:
        """The words that run a command on a machine."""
        path = f"{self._shims}:/usr/local/bin:/usr/sbin:/usr/bin:/sbin:/bin"
        return ["nsenter", "--target", str(self._ids[name]), "--all", "--wd=/root", "env", "-i",
                f"PATH={path}", "HOME=/root", "LANG=C.UTF-8", *words]

    def run(self, name: str, script: str, seconds: float = PATIENCE) -> str:
        """The output of a script on a machine. Raises AssertionError if it fails."""
        done = subprocess.run(self.words(name, "bash", "-euc", script), stdin=subprocess.DEVNULL,
                              stdout=subprocess.PIPE, stderr=subprocess.STDOUT, text=True,
                              timeout=seconds, check=False)
        if done.returncode:
            raise AssertionError(f"{name}: status {done.returncode} of\n{script}\n{done.stdout}")
        return done.stdout

    def start(self, name: str, script: str, output: Path) -> "subprocess.Popen[bytes]":
        """Starts a script on a machine; its output goes to a file."""
        with output.open("ab") as said:
            return subprocess.Popen(self.words(name, "bash", "-euc", script), stdout=said,
                                    stderr=said, stdin=subprocess.DEVNULL)

    def part(self, name: str) -> None:
        """Cuts a machine off from the others."""
        command("ip", "-n", self._net, "link", "set", name, "down")

    def join(self, name: str) -> None:
        """Connects a machine to the others again."""
        command("ip", "-n", self._net, "link", "set", name, "up")

    def process_ids(self, name: str, words: str) -> list[int]:
        """The ids, on this machine, of the machine's processes whose command has these words."""
        found = []
        space = os.readlink(f"/proc/{self._ids[name]}/ns/pid")
        for entry in Path("/proc").iterdir():
            try:
                if entry.name.isdigit() and os.readlink(entry / "ns" / "pid") == space:
                    line = (entry / "cmdline").read_bytes().replace(b"\0", b" ").decode()
                    found += [int(entry.name)] if words in line else []
            except OSError:
                continue
        return found

    def close(self) -> None:
        """Ends all machines with all that runs there, and removes their files."""
        for holder in self._holders.values():
            holder.kill()
            holder.wait()
        for name in (*(self._net + it for it in self.names), self._net):
            subprocess.run(["ip", "netns", "del", name], check=False, capture_output=True)
        shutil.rmtree(self.room, ignore_errors=True)

    def __enter__(self) -> "Machines":
        return self

    def __exit__(self, *_: object) -> None:
        self.close()
