"""The command `xqs`: a table of its commands, each in a module that is imported on demand."""

import argparse
import importlib
import io
import os
import shlex
import shutil
import signal
import sys
import threading
from collections.abc import Callable, Sequence
from dataclasses import dataclass
from pathlib import Path
from types import FrameType
from typing import TYPE_CHECKING

from xqs import bounds
from xqs.endpoints import Command, Endpoint, endpoint
from xqs.errors import NoPlace, XqError
from xqs.starting import is_on_file
from xqs.version import __version__

if TYPE_CHECKING:
    from xqs.client import Client

_IN_CHECKOUT = ("clients", "python", "src", "xqs")
SERVER_VARIABLE = "XQS_SERVER"
INSTALLED_SERVER = "xq_server"
"""The server command that the Debian package installs."""
MOST_KEPT = 1_048_576
"""The most megabytes that a server may be told to keep."""


@dataclass(frozen=True)
class Entry:
    """A command: its function, as `module:function`, and a line about what it does.

    The function takes the words after the command's name, at least `least` of them, and returns the
    exit status.
    """

    function: str
    summary: str
    least: int = 0
    has_command: bool = False
    """Whether the command handles `-- COMMAND` itself."""

    def load(self) -> Callable[[Sequence[str]], int]:
        """The function. Raises ImportError if its module needs a package that is not installed."""
        module, _, name = self.function.partition(":")
        function: Callable[[Sequence[str]], int] = getattr(importlib.import_module(module), name)
        return function


COMMANDS = {
    "query": Entry("xqs.commands:query", "ask a query, and print its value", 1),
    "store": Entry("xqs.commands:store", "store a file of XML or of constructors", 2),
    "get": Entry("xqs.commands:get", "print a document, of any length", 1),
    "drop": Entry("xqs.commands:drop", "drop documents", 1),
    "list": Entry("xqs.commands:list_addresses", "print the addresses"),
    "load": Entry("xqs.load:main", "store the XML files of a folder", 1),
    "export": Entry("xqs.export:main", "write documents to a folder as files", 1),
    "backup": Entry("xqs.backup:main", "write all documents to one file", 1),
    "restore": Entry("xqs.backup:restore_main", "store the documents of a backup", 1),
    "gc": Entry("xqs.gc:main", "drop temporary documents that a crash left"),
    "shell": Entry("xqs.shell:main", "ask queries by hand"),
    "serve": Entry("xqs.serve:main", "serve one file in the background", 1, has_command=True),
    "stop": Entry("xqs.serve:stop_main", "stop serving a file in the background", 1),
    "mux": Entry("xqs.mux:main", "one server or several for many clients", has_command=True),
    "status": Entry("xqs.mux_control:status_main", "show the status of a running multiplexer", 1),
    "node": Entry(
        "xqs.cluster.main:main", "a server that follows a replicated log", has_command=True),
    "snapshot": Entry(
        "xqs.cluster.main:snapshot_main", "make a node take a snapshot now", has_command=True),
    "web": Entry("xqs.web:main", "HTTP on loopback, and a page", has_command=True),
}


def checkout_server() -> Path | None:
    """The command `serve` of the checkout that this package runs from; None if it is installed
    elsewhere."""
    folder = Path(__file__).resolve().parent
    if folder.parts[-4:] != _IN_CHECKOUT:
        return None
    serve = folder.parents[3] / "serve"
    return serve if serve.exists() else None


def connection_options(
    bounded: bool = True, file: bool = True, kept: bool = True
) -> argparse.ArgumentParser:
    """The options that say where the server is, as a parent of a command's parser. Includes the
    bounds of a request, the file of the documents, and how much one server keeps, unless the
    command has its own."""
    options = argparse.ArgumentParser(add_help=False)
    group = options.add_argument_group("the server")
    group.add_argument(
        "--server",
        metavar="WHERE",
        help="unix:PATH, tcp:PORT, or a command to start, such as './serve --file x.db'; "
        f"else ${SERVER_VARIABLE}, else ./serve of the checkout, or the installed "
        f"{INSTALLED_SERVER}",
    )
    if file:
        group.add_argument(
            "--file", metavar="PATH", help="the file of the documents: through `xqs serve` if that "
            "serves the file, else by a server that is started"
        )
    options.set_defaults(kept_by_one=None)
    if kept:
        group.add_argument(
            "--kept", metavar="MB", type=_megabytes, dest="kept_by_one",
            help="the cache of a server that is started, for what queries read, from 1 to "
            "1,048,576; by default ./serve takes a sixteenth of the free memory, at least 128"
        )
    if bounded:
        bounds.add_options(options)
    return options


def _megabytes(word: str) -> int:
    """The number of megabytes for the server. Raises ArgumentTypeError for any other word."""
    if word.isascii() and word.isdecimal() and 1 <= int(word) <= MOST_KEPT:
        return int(word)
    raise argparse.ArgumentTypeError(f"not a number from 1 to {MOST_KEPT:,}: {word!r}")


def server_of(given: argparse.Namespace) -> Endpoint:
    """Where the server is, by the options, the environment, the checkout, or the installed package.

    Raises ValueError if none of these says so, or if it is no such place.
    """
    installed = shutil.which(INSTALLED_SERVER)
    where = given.server or os.environ.get(SERVER_VARIABLE) or checkout_server() or installed
    if not where:
        raise ValueError(f"no server is named: give --server, or set {SERVER_VARIABLE}")
    place = endpoint(where)
    if given.file:
        place = _with_words(place, "--file", given.file)
    if given.kept_by_one is not None:
        place = _with_words(place, "--kept", str(given.kept_by_one))
    return place


def _with_words(place: Endpoint, option: str, value: str) -> Endpoint:
    if not isinstance(place, Command):
        raise ValueError(f"{option} goes with a command that is started, not with {place}")
    return Command((*place.words, option, value))


def is_lasting(place: Endpoint) -> bool:
    """Whether documents stay after the connection ends. They don't if a command without a file is
    started, since they are in its memory."""
    return not isinstance(place, Command) or is_on_file(place.words)


def warn_of_memory(place: Endpoint, command: str) -> None:
    """Warns if documents are in memory and will be lost when the command ends."""
    if not is_lasting(place):
        print(f"xqs {command}: no file is named, so the documents are in memory and will be lost "
              "when this command ends: give --file, or a server that keeps running",
              file=sys.stderr)


def connected(given: argparse.Namespace, place: Endpoint | None = None) -> "Client":
    """A connection to the server of the options, within the bounds of the options."""
    from xqs.client import connect

    it = bounds.bounds_of(given)
    return connect(place or server_of(given), timeout=it.seconds, memory=it.memory or 0)


def with_server(entry: Entry, words: Sequence[str]) -> list[str]:
    """The words of a command, with the server after `--` as its `--server`.

    If too few words come before the `--`, it is only the mark that the next word is no option: `xqs
    query -- -1`.
    """
    marks = [number for number, word in enumerate(words) if word == "--"]
    after_least = [it for it in marks if it >= entry.least + (it != marks[0])]
    if not after_least:
        return list(words)
    at = after_least[0]
    command = list(words[at + 1 :])
    if not command:
        raise NoPlace("a server's command must follow --")
    if any(it == "--server" or it.startswith("--server=") for it in words[:at]):
        raise NoPlace("--server and a command after -- name two servers")
    return ["--server", shlex.join(command), *words[:at]]


def main(words: Sequence[str] | None = None) -> int:
    """Runs a command and returns its exit status: 0 done, 1 refused, 2 wrong usage."""
    words = list(sys.argv[1:] if words is None else words)
    given = _parser().parse_args(words[:1])
    rest = words[1:]
    entry = COMMANDS[given.command]
    _show_any_name()
    _end_by_signals()
    try:
        return entry.load()(rest if entry.has_command else with_server(entry, rest))
    except ModuleNotFoundError as error:
        print(f"xqs {given.command}: it needs the package {error.name}", file=sys.stderr)
    except BrokenPipeError:
        # The reader of the output has gone. Python would report that when it flushes at exit.
        os.dup2(os.open(os.devnull, os.O_WRONLY), sys.stdout.fileno())
    except (XqError, ValueError, OSError) as error:
        print(f"xqs {given.command}: {error}", file=sys.stderr)
    except KeyboardInterrupt:
        print(f"xqs {given.command}: interrupted", file=sys.stderr)
        return 130
    return 1


def _end_by_signals() -> None:
    """Turns the signals that end a program into an exception, so that unfinished work is undone.

    An ignored signal stays ignored, as `nohup` needs it. Only the main thread can set signal
    handlers.
    """
    if threading.current_thread() is not threading.main_thread():
        return
    for number in (signal.SIGTERM, signal.SIGHUP):
        if signal.getsignal(number) is signal.SIG_DFL:
            signal.signal(number, _end_by)


def _end_by(number: int, _: FrameType | None) -> None:
    sys.exit(128 + number)


def _show_any_name() -> None:
    """Shows file names that are no valid text with escapes, in place of an error."""
    for stream in (sys.stdout, sys.stderr):
        if isinstance(stream, io.TextIOWrapper):
            stream.reconfigure(errors="backslashreplace")


def _parser() -> argparse.ArgumentParser:
    table = "\n".join(f"  {name:9}{entry.summary}" for name, entry in COMMANDS.items())
    parser = argparse.ArgumentParser(
        prog="xqs",
        description="A client of xq_server.",
        epilog=f"commands:\n{table}\n\n'xqs COMMAND --help' explains each. "
        "'xqs COMMAND .. -- SERVER [WORDS]' starts that server.",
        formatter_class=argparse.RawDescriptionHelpFormatter,
    )
    parser.add_argument("--version", action="version", version=f"xqs {__version__}")
    parser.add_argument("command", metavar="COMMAND", choices=COMMANDS)
    parser.add_argument("rest", metavar="..", nargs=argparse.REMAINDER)
    return parser


if __name__ == "__main__":
    sys.exit(main())
