"""`xqs serve` and `xqs stop`: a multiplexer in the background for one file, by a socket beside it.

The command starts itself again as a background process, in a session of its own, and waits until
that one says that it listens. Until then a pipe connects the two: if the command ends before, in
any way, the background process ends too, with its servers.
"""

import argparse
import asyncio
import hashlib
import os
import select
import signal
import subprocess
import sys
import threading
import time
from collections.abc import Sequence
from contextlib import suppress
from pathlib import Path
from typing import BinaryIO

from xqs import bounds, control, mux
from xqs.cli import connection_options
from xqs.endpoints import UnixSocket
from xqs.errors import XqError
from xqs.in_use import file_of, why_not_opened
from xqs.mux_control import AT_ONCE
from xqs.served import NotServed, socket_of, socket_path
from xqs.upgrading import absolute

USAGE = "xqs serve [OPTIONS] FILE [-- COMMAND [WORDS]]"
BACKGROUND = "--background"
"""The word by which the command starts itself in the background."""
READY, GO = b"ready\n", b"go\n"
BEGIN_SECONDS, END_SECONDS = 600.0, 60.0
MOST_LOG, KEPT_LOG = 1 << 20, 1 << 16
"""A log that grows above this number of bytes is cut to its end."""
BETWEEN_CUTS = 10.0
SHOWN_LOG = 2_000


class NotBegun(XqError):
    """The file is not served; the message says why."""


class NotEnded(XqError):
    """The file is still served; the message says what to do."""


def main(words: Sequence[str]) -> int:
    """Runs `xqs serve`. Raises XqError, ValueError and OSError if it can't begin."""
    before, after = mux.split_command(words)
    given = _parser().parse_args(before)
    place, command = UnixSocket(str(socket_path(given.path))), _command(given, after)
    if given.background:
        _hold_to_starter(given.log)
    if given.background or given.foreground:
        ready = _tell_starter if given.background else lambda: None
        return asyncio.run(mux.run(str(place), command, mux.settings_of(given), on_ready=ready))
    if socket_of(given.path) is not None:
        raise NotBegun(f"{given.path} is served already, by process {_process_at(place)}: commands "
                       f"with --file {given.path} ask there, and `xqs stop {given.path}` ends it")
    _begin(given, words, place, command)
    return 0


def _parser() -> argparse.ArgumentParser:
    parser = argparse.ArgumentParser(
        prog="xqs serve", usage=USAGE, parents=[connection_options(file=False, kept=False)],
        description="Serves a file in the background, by a socket beside it (FILE.sock): each "
        "command with --file FILE then connects to it and starts no server. `xqs stop FILE` ends "
        "it.")
    parser.add_argument("path", type=Path, metavar="FILE", help="the file of the documents")
    parser.add_argument("--foreground", action="store_true",
                        help="stay in the foreground, as under a service manager")
    parser.add_argument("--wait", type=bounds.seconds_of, metavar="N", default=BEGIN_SECONDS,
                        help="how long opening the file may take (%(default)g seconds; 0: any "
                        "time)")
    parser.add_argument("--log", type=Path, metavar="LOG",
                        help="the file for its messages in the background, the last megabyte of "
                        "them (a file in ~/.local/state/xqs)")
    parser.add_argument(BACKGROUND, action="store_true", help=argparse.SUPPRESS)
    mux.add_limits(parser)
    return parser


def _command(given: argparse.Namespace, after: Sequence[str]) -> list[str]:
    """The words that start a server on the file, in any folder."""
    given.file = None
    command = mux.command_of(after, given)
    if file_of(command) is not None:
        raise ValueError("the file stands before the --, and not in the server's command")
    return absolute([*command, "--file", str(given.path)], Path.cwd())


def _begin(given: argparse.Namespace, words: Sequence[str], place: UnixSocket,
           command: Sequence[str]) -> None:
    """Starts the background process, and waits until it listens. Raises NotBegun."""
    why = why_not_opened(command)
    if why:
        raise NotBegun(why)
    log = given.log or default_log(given.path)
    log.parent.mkdir(parents=True, exist_ok=True)
    with open(os.open(log, os.O_RDWR | os.O_APPEND | os.O_CREAT, 0o600), "r+b") as said:
        start = said.seek(0, os.SEEK_END)
        background = _started([BACKGROUND, "--log", str(log), *words], said)
        try:
            _wait_until_ready(background, given.wait)
        except NotBegun as error:
            said.seek(start)
            told = said.read(SHOWN_LOG).decode(errors="replace").strip()
            raise NotBegun(f"{given.path} is not served: {error}" + f"\n{told}".rstrip()) from None
    print(f"xqs serve: {given.path} is served by process {background.pid} at {place}; "
          f"`xqs stop {given.path}` ends it; what it says is in {log}", file=sys.stderr)


def default_log(file: Path) -> Path:
    """The log of a file, in the user's state folder."""
    state = os.environ.get("XDG_STATE_HOME") or Path.home() / ".local" / "state"
    key = hashlib.sha256(os.fsencode(os.path.realpath(file))).hexdigest()[:16]
    return Path(state) / "xqs" / f"serve-{key}.log"


def _started(words: Sequence[str], log: BinaryIO) -> "subprocess.Popen[bytes]":
    """Starts this program again, in a session of its own."""
    package = str(Path(__file__).resolve().parents[1])
    path = os.pathsep.join(filter(None, (package, os.environ.get("PYTHONPATH"))))
    return subprocess.Popen(
        [sys.executable or "python3", "-m", "xqs", "serve", *words], stdin=subprocess.PIPE,
        stdout=subprocess.PIPE, stderr=log, start_new_session=True, bufsize=0,
        env=os.environ | {"PYTHONPATH": path})


def _wait_until_ready(background: "subprocess.Popen[bytes]", seconds: float | None) -> None:
    """Waits until the background process listens, and lets it go. Raises NotBegun if it ends or
    takes too long. Then it has ended, and also if this wait is interrupted."""
    assert background.stdin is not None and background.stdout is not None
    try:
        poller = select.poll()
        poller.register(background.stdout, select.POLLIN)
        if not poller.poll(None if seconds is None else seconds * 1000):
            raise NotBegun(f"it was not open within {seconds:g} seconds (--wait N allows more, 0 "
                           "any time)")
        if background.stdout.read(len(READY)) != READY:
            raise NotBegun("it ended as it began")
        background.stdin.write(GO)
    except BaseException:
        background.stdin.close()
        with suppress(subprocess.TimeoutExpired):
            background.wait(END_SECONDS)
        background.kill()
        raise
    background.stdin.close()
    background.stdout.close()


# ---- the background process


def _hold_to_starter(log: Path) -> None:
    """Ends this process if the one that started it ends before it has let this one go."""
    threading.Thread(target=_await_go, daemon=True, name="xqs starter").start()
    threading.Thread(target=_bound_log, args=(log,), daemon=True, name="xqs log").start()


def _await_go() -> None:
    if os.read(0, len(GO)) != GO:
        os.kill(os.getpid(), signal.SIGTERM)
        return
    nothing = os.open(os.devnull, os.O_RDWR)
    os.dup2(nothing, 0)


def _tell_starter() -> None:
    """Says that it listens; nothing else is ever written there."""
    with suppress(OSError):
        os.write(1, READY)
    nothing = os.open(os.devnull, os.O_RDWR)
    os.dup2(nothing, 1)


def _bound_log(log: Path) -> None:
    while True:
        time.sleep(BETWEEN_CUTS)
        with suppress(OSError):
            cut_log(log)


def cut_log(log: Path) -> None:
    """Cuts a log that has grown too long to its last lines; its writers continue after them."""
    if log.stat().st_size <= MOST_LOG:
        return
    with open(log, "r+b") as file:
        file.seek(-KEPT_LOG, os.SEEK_END)
        kept = file.read().partition(b"\n")[2]
        file.seek(0)
        file.write(b"(older lines are left out)\n" + kept)
        file.truncate()


# ---- the end


def stop_main(words: Sequence[str]) -> int:
    """Runs `xqs stop`. Raises NotServed, NotEnded."""
    parser = argparse.ArgumentParser(
        prog="xqs stop", description="Ends the background server of `xqs serve`, once it has "
        "answered its requests, and waits for its end.")
    parser.add_argument("path", type=Path, metavar="FILE", help="the file that is served")
    parser.add_argument("--now", action="store_true",
                        help="end its requests too; a store under way may be carried out or not")
    parser.add_argument("--wait", type=bounds.seconds_of, metavar="N", default=END_SECONDS,
                        help="how long to wait for its end (%(default)g seconds; 0: any time)")
    given = parser.parse_args(words)
    place = UnixSocket(str(socket_path(given.path)))
    _end(given.path, place, given.now, given.wait)
    print(f"xqs stop: {given.path} is no longer served", file=sys.stderr)
    return 0


def _end(path: Path, place: UnixSocket, is_now: bool, seconds: float | None) -> None:
    try:
        process = _process_at(place)
        ended = os.pidfd_open(process)
        list(control.ask(str(place), f"stop {AT_ONCE}" if is_now else "stop"))
    except (control.NotRunning, ProcessLookupError) as error:
        why = why_not_opened(["xqs", "--file", str(path)])
        raise NotServed(f"{path} is not served" + (f"; {why}" if why else "")) from error
    poller = select.poll()
    poller.register(ended, select.POLLIN)
    if not poller.poll(None if seconds is None else seconds * 1000):
        raise NotEnded(f"{path} is still served after {seconds:g} seconds, since process {process} "
                       f"works on a request: `xqs stop --now {path}` ends that too, --wait N waits "
                       "longer")
    os.close(ended)


def _process_at(place: UnixSocket) -> int:
    """The process number of the multiplexer at a socket. Raises NotRunning."""
    [process] = control.ask(str(place), "process")
    return int(process)
