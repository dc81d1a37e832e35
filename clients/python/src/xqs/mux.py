"""`xqs mux`: one server or several for many clients, behind a Unix socket or a loopback port."""

import argparse
import asyncio
import contextlib
import dataclasses
import os
import signal
import sys
from collections.abc import AsyncIterator, Callable, Sequence
from contextlib import AsyncExitStack, asynccontextmanager

from xqs import control, listening
from xqs.bounds import bounds_of
from xqs.cli import connection_options, server_of
from xqs.endpoints import Command
from xqs.listening import notify
from xqs.metrics_http import MetricsServer
from xqs.multiplexer import Multiplexer, is_on_file
from xqs.mux_clients import Settings
from xqs.mux_control import (
    Multiplexing,
    actions_of,
    ask_upgrade,
    figures_of,
    lines_of,
    own_actions,
)
from xqs.mux_many import ManyServers
from xqs.starting import KEPT, MOST_KEPT
from xqs.waiting import first_set

USAGE = "xqs mux [OPTIONS] unix:PATH|tcp:PORT [-- COMMAND [WORDS]]"
EXAMPLE = "as is ./serve in: xqs mux unix:xq.sock -- ./serve --file x.db"
DEFAULTS = Settings()
MOST_SERVERS = 4


def say(text: str, command: str = "mux") -> None:
    """Prints a line for the operator; does nothing if nobody reads it any more."""
    with contextlib.suppress(OSError):
        print(f"xqs {command}: {text}", file=sys.stderr, flush=True)


def positive(text: str) -> int:
    """A whole number from 1, for argparse."""
    number = int(text)
    if number < 1:
        raise ValueError
    return number


def duration(text: str) -> float:
    """A number of seconds above 0, for argparse."""
    number = float(text)
    if not 0 < number < 1e9:
        raise ValueError
    return number


def add_limits(parser: argparse.ArgumentParser) -> None:
    """Adds the options for a multiplexer's limits, which `settings_of` reads together with the
    bounds of a request (`bounds.add_options`)."""
    limit = parser.add_argument_group("limits").add_argument
    limit("--window", type=positive, metavar="N", default=DEFAULTS.window,
          help="frames of all clients that wait for replies (%(default)s)")
    limit("--frames", type=positive, metavar="N", default=DEFAULTS.frames,
          help="start the server again after this number of frames (%(default)s)")
    add_servers(parser)
    add_client_limits(parser, DEFAULTS)


def add_servers(parser: argparse.ArgumentParser) -> None:
    """Adds the options for several servers."""
    option = parser.add_argument_group("servers").add_argument
    option("--servers", type=positive, metavar="N", default=default_servers(),
           help="servers that hold the same documents: reads run in parallel, and one that ends is "
           "replaced while the others answer (%(default)s; one less than the processors, at most "
           f"{MOST_SERVERS})")
    add_kept(option)
    option("--line", type=positive, metavar="N", default=DEFAULTS.line,
           help="stores and drops that wait for the server with the file (%(default)s)")
    option("--line-seconds", type=duration, metavar="N", default=DEFAULTS.line_seconds,
           help="how many seconds one of them waits while that server starts again (%(default)g)")
    option("--compare", type=natural, metavar="N", default=DEFAULTS.compare,
           help="one read in this number goes to all servers; if their replies differ nothing is "
           "stored any more (%(default)s; 0: none)")


def add_kept(option: Callable[..., argparse.Action]) -> None:
    """Adds the option for the memory that all servers may use for what they have read."""
    option("--kept", type=megabytes, metavar="MB", default=KEPT,
           help="megabytes of cache for what queries have read, of all servers together, in equal "
           "shares (%(default)s; 0: as much as each has by itself)")


def megabytes(text: str) -> int:
    """A number of megabytes that servers can keep, or 0; for argparse."""
    number = int(text)
    if not 0 <= number <= MOST_KEPT:
        raise ValueError
    return number


def default_servers() -> int:
    """One less than the number of processors, at least one and at most four."""
    return max(1, min(len(os.sched_getaffinity(0)) - 1, MOST_SERVERS))


def natural(text: str) -> int:
    """A whole number from 0, for argparse."""
    number = int(text)
    if number < 0:
        raise ValueError
    return number


def multiplexer_of(command: Sequence[str], settings: Settings,
                   say: Callable[[str], None]) -> Multiplexer | ManyServers:
    """The multiplexer for the number of servers in the settings."""
    if settings.servers == 1:
        return Multiplexer(command, settings, say)
    return ManyServers(command, settings, say)


def add_client_limits(parser: argparse.ArgumentParser, defaults: Settings) -> None:
    """Adds the options for the limits of clients, which `client_settings_of` reads."""
    limit = parser.add_argument_group("limits of clients").add_argument
    limit("--clients", type=positive, metavar="N", default=defaults.clients,
          help="clients at once (%(default)s); more are turned away")
    limit("--client-window", type=positive, metavar="N", default=defaults.client_window,
          help="frames of one client that wait for replies (%(default)s)")
    limit("--unread", type=positive, metavar="BYTES", default=defaults.unread,
          help="a client's unread replies above which its next frame waits (%(default)s)")
    limit("--held", type=positive, metavar="BYTES", default=defaults.held,
          help="all unread replies above which the client with most is cut off (%(default)s)")
    limit("--stall", type=duration, metavar="SECONDS", default=defaults.stall,
          help="cut off a client that reads no reply for this long (%(default)g)")
    parser.add_argument("--read-only", action="store_true", help="refuse stores and drops")


def settings_of(arguments: argparse.Namespace) -> Settings:
    """The settings in the options of `add_limits`."""
    bounds = bounds_of(arguments)
    return dataclasses.replace(
        client_settings_of(arguments), window=arguments.window, frames=arguments.frames,
        seconds=bounds.seconds, memory=bounds.memory, servers=arguments.servers,
        kept=arguments.kept, line=arguments.line, line_seconds=arguments.line_seconds,
        compare=arguments.compare)


def client_settings_of(arguments: argparse.Namespace) -> Settings:
    """The settings in the options of `add_client_limits`."""
    return Settings(
        clients=arguments.clients, client_window=arguments.client_window, unread=arguments.unread,
        held=arguments.held, stall=arguments.stall, read_only=arguments.read_only)


def split_command(argv: Sequence[str]) -> tuple[list[str], list[str]]:
    """The words before the first `--`, and those after it."""
    words = list(argv)
    at = words.index("--") if "--" in words else len(words)
    return words[:at], words[at + 1:]


async def until_signal(failed: asyncio.Event, again: asyncio.Event,
                       asked: asyncio.Event | None = None) -> None:
    """Waits for SIGTERM, SIGINT, SIGHUP, a failure, or the event by which another process asks for
    the end. The next signal after that sets `again`.

    An ignored SIGHUP stays ignored, as `nohup` needs it.
    """
    loop = asyncio.get_running_loop()
    first = asked or asyncio.Event()
    for number in (signal.SIGTERM, signal.SIGINT, signal.SIGHUP):
        if number == signal.SIGHUP and signal.getsignal(number) is signal.SIG_IGN:
            continue
        loop.add_signal_handler(number, lambda: again.set() if first.is_set() else first.set())
    await first_set(first, failed)
    first.set()


async def run(place: str, command: Sequence[str], settings: Settings, metrics: str | None = None,
              on_ready: Callable[[], object] = lambda: None) -> int:
    """Serves clients at one place until a signal, and figures at another. Returns the exit status.
    `on_ready` is called once clients can connect.

    Raises StartFailed and PlaceError.
    """
    multiplexer = multiplexer_of(command, settings, say)
    await multiplexer.start()
    asked, again = asyncio.Event(), asyncio.Event()
    hurried = asyncio.create_task(multiplexer.abandon_when(again))
    try:
        listener = listening.listen(place)
        async with AsyncExitStack() as stack:
            stack.enter_context(listening.removed_at_end(listener))
            name = listening.name_of(listener)
            actions = {**actions_of(multiplexer), **own_actions(command, asked, again)}
            await stack.enter_async_context(control.listening(name, actions, say))
            if metrics:
                await stack.enter_async_context(figures_at(metrics, multiplexer))
            server = await asyncio.start_server(multiplexer.serve, sock=listener)
            say(f"listens at {name}")
            notify("READY=1")
            on_ready()
            await until_signal(multiplexer.failed, again, asked)
            notify("STOPPING=1")
        server.close()
        await multiplexer.stop()
        hurried.cancel()
    except BaseException:
        await multiplexer.abandon()
        raise
    return 1 if multiplexer.failed.is_set() else 0


@asynccontextmanager
async def figures_at(where: str, multiplexer: Multiplexing) -> AsyncIterator[None]:
    """A context in which a loopback port serves the figures by HTTP. Raises PlaceError."""
    figures = MetricsServer(lambda: figures_of(multiplexer), lambda: lines_of(multiplexer))
    listener = listening.listen(f"tcp:{where}")
    server = await asyncio.start_server(figures.serve, sock=listener)
    say(f"figures at http://{listening.name_of(listener).removeprefix('tcp:')}/metrics")
    try:
        yield
    finally:
        server.close()


def in_memory_warning(servers: int) -> str:
    """The message if no file is named."""
    end = "whenever the server ends" if servers == 1 else "when all servers end at once"
    return f"the documents are in memory: they are lost {end}"


def command_of(words: Sequence[str], given: argparse.Namespace) -> Sequence[str]:
    """The command of the server: the words after `--`, or what the options say.

    Raises ValueError if that is no command.
    """
    place = Command(tuple(words)) if words else server_of(given)
    if not isinstance(place, Command):
        raise ValueError(f"one server is started here, and {place} is no command, {EXAMPLE}")
    return place.words


def main(words: Sequence[str] | None = None) -> int:
    """Runs `xqs mux` with these words. Returns the exit status.

    0 after a signal that ended it, 1 if the server was lost, 2 for wrong words. Raises XqError,
    ValueError and OSError if it can't begin.
    """
    before, after = split_command(sys.argv[1:] if words is None else words)
    parser = argparse.ArgumentParser(
        prog="xqs mux", usage=USAGE, description=__doc__,
        parents=[connection_options(kept=False)],
    )
    parser.add_argument("place", metavar="unix:PATH|tcp:PORT|systemd:",
                        help="where clients connect; systemd: is the socket that systemd passes")
    parser.add_argument("--upgrade", action="store_true",
                        help="upgrade the multiplexer that runs at the place to this command, "
                        "server by server, unless its answers differ")
    parser.add_argument("--metrics", metavar="[HOST:]PORT",
                        help="a loopback port for HTTP with /metrics, for Prometheus, and a page")
    add_limits(parser)
    given = parser.parse_args(before)
    command = command_of(after, given)
    if given.upgrade:
        return ask_upgrade(given.place, command)
    if not is_on_file(command):
        say(in_memory_warning(given.servers))
    return asyncio.run(run(given.place, command, settings_of(given), given.metrics))


if __name__ == "__main__":
    sys.exit(main())
