"""`xqs node`: a server that follows a replicated log. `xqs snapshot`: asks a node for a
snapshot."""

import argparse
import asyncio
import contextlib
import dataclasses
import pathlib
import re
import socket
import sys
import traceback
from collections.abc import Sequence
from functools import partial

from xqs import bounds, listening, mux
from xqs.cli import connection_options
from xqs.cluster import control, ending, health, operating
from xqs.cluster.addresses import VARIABLE, LogAddress, check_ways, given_log
from xqs.cluster.agreement import EVERY
from xqs.cluster.node import Node, Options
from xqs.cluster.program import name_of_running
from xqs.cluster.status import status_of
from xqs.errors import XqError
from xqs.multiplexer import is_on_file
from xqs.mux_clients import Settings
from xqs.starting import keeping

USAGE = ("xqs node --log amqp://HOST/NAME[,..] --listen unix:PATH|tcp:PORT [OPTIONS] "
         "[-- COMMAND [WORDS]]")
DEFAULTS = Settings(client_window=64)
SERVERS = 2
"""The default number of a node's servers: one may be busy, or take a snapshot."""
_NAME = re.compile(r"[A-Za-z0-9._-]{1,60}")

say = partial(mux.say, command="node")


async def run(address: LogAddress, place: str, options: Options, settings: Settings,
              http: str | None = None) -> int:
    """Runs a node until a signal, or until it ends by itself. Returns the exit status.

    Raises PlaceError, StartFailed, CannotFollow, and other errors if it can't begin.
    """
    # (here, so that all else works if the package is not installed)
    from xqs.cluster.amqp import AmqpLog
    from xqs.cluster.amqp_link import quiet

    quiet()
    asyncio.get_running_loop().set_exception_handler(_on_fault)
    options = dataclasses.replace(
        options, program=options.program or await name_of_running(options.command))
    say(f"node {options.name}, program {options.program}")
    log = AmqpLog(address, say)
    node = Node(options, log, settings, say)
    log.came_up = node.outbox.send_again
    again = asyncio.Event()
    helpers = [asyncio.create_task(it) for it in (log.run(), node.abandon_when(again))]
    try:
        async with contextlib.AsyncExitStack() as stack:
            await _answer_operators(node, http, stack)
            await _serve(node, place, again)
            await node.stop()
    except BaseException:
        await node.abandon()
        raise
    finally:
        for helper in helpers:
            helper.cancel()
        await asyncio.gather(*helpers, return_exceptions=True)
        await log.close()
    return node.status


async def _answer_operators(node: Node, http: str | None, stack: contextlib.AsyncExitStack
                            ) -> None:
    """A context that answers operators and load balancers, from before the node follows the log."""
    if node.options.snapshots:
        path = control.control_path(node.options.snapshots)
        asked = listening.listen_unix(str(path))
        stack.enter_context(listening.removed_at_end(asked))
        controls = await asyncio.start_unix_server(
            partial(control.serve, _actions(node)), sock=asked)
        stack.callback(controls.close)
    if http:
        listener = health.listener_at(http)
        served = await asyncio.start_server(
            partial(health.serve, partial(status_of, node)), sock=listener)
        stack.callback(served.close)
        say(f"/health and /metrics are at http://{listening.name_of(listener)[4:]}/")


def _actions(node: Node) -> dict[str, control.Action]:

    async def snapshot(_: str) -> str:
        return await node.take_snapshot()

    async def end(_: str) -> str:
        return await node.end_all()

    async def status(_: str) -> str:
        return status_of(node).to_json()

    async def skip(place: str) -> str:
        return await node.skip(int(place))

    return {"snapshot": snapshot, "end": end, "status": status, "skip": skip}


async def _serve(node: Node, place: str, again: asyncio.Event) -> None:
    """Begins, and then takes clients, until a signal or until the node ends by itself."""
    listener = listening.listen(place)
    with contextlib.ExitStack() as stack:
        stack.callback(listener.close)
        stack.enter_context(listening.removed_at_end(listener))
        ended = asyncio.create_task(mux.until_signal(node.failed, again))
        starting = asyncio.create_task(node.start())
        try:
            await asyncio.wait((starting, ended), return_when=asyncio.FIRST_COMPLETED)
            if starting.done():
                await starting
            if not ended.done() and not node.failed.is_set():
                await _take_clients(node, listener, stack)
            await ended
        finally:
            ended.cancel()
            starting.cancel()
            await asyncio.gather(starting, ended, return_exceptions=True)


async def _take_clients(
    node: Node, listener: socket.socket, stack: contextlib.ExitStack
) -> None:
    server = await asyncio.start_server(node.serve, sock=listener)
    stack.callback(server.close)
    say(f"follows the log, and listens at {listening.name_of(listener)}")


def _on_fault(loop: asyncio.AbstractEventLoop, context: dict[str, object]) -> None:
    """Ignores the errors of the package's own tasks when a connection ends, and reports all
    others."""
    task = context.get("future") or context.get("task")
    is_theirs = isinstance(task, asyncio.Future) and any(it in repr(task) for it in _THEIRS)
    if not is_theirs and not _is_of_their_connection(context.get("exception")):
        loop.default_exception_handler(context)


def _is_of_their_connection(error: object) -> bool:
    """Whether an error is that of a connection, and comes from the package: its futures have no
    name of its own."""
    if not isinstance(error, OSError):
        return False
    frames = (frame for frame, _ in traceback.walk_tb(error.__traceback__))
    return any(it.f_globals.get("__name__", "").partition(".")[0] in _THEIRS for it in frames)


_THEIRS = ("aiormq", "aio_pika")


def main(words: Sequence[str]) -> int:
    """Runs `xqs node` with these words. Returns the exit status.

    0 after a signal, and if all nodes end; 1 if it must end, or can't begin; 2 for wrong words.
    Raises XqError, ValueError and OSError if it can't begin.
    """
    before, after = mux.split_command(words)
    parser = _parser()
    given = parser.parse_args(before)
    if operating.asks(given):
        return operating.answer(given, given_log(given.log) if given.copies else None)
    if not given.listen:
        parser.error("the following arguments are required: --listen")
    address = given_log(given.log)
    check_ways(address, given.plain)
    file, given.file = given.file, None
    command = mux.command_of(after, given)
    if is_on_file(command):
        raise ValueError("the file of a node is given by its own --file, before the --")
    if not _NAME.fullmatch(given.name):
        raise ValueError(f"not a name of a node: {given.name!r} (--name)")
    folder = given.snapshots
    if folder is not None:
        folder.mkdir(parents=True, exist_ok=True)
    else:
        say("without --snapshots each start "
            + ("after an end that was not in order " if file else "")
            + "carries out the log from its beginning")
    options = Options(
        given.name, keeping(command, given.kept, given.servers), given.program or "", given.servers,
        pathlib.Path(file) if file else None, folder, given.every, given.seconds, given.fresh,
        given.memory // given.servers if given.memory else None)
    return ending.run(
        run(address, given.listen, options, mux.client_settings_of(given), given.http), "node")


def _parser() -> argparse.ArgumentParser:
    parser = argparse.ArgumentParser(
        prog="xqs node", usage=USAGE, parents=[connection_options(bounded=False, kept=False)],
        description="Serves clients by servers that follow a replicated log of stores and drops: "
        "all nodes of one log give the same answers. docs/CLUSTER.md says how to set it up.")
    option = parser.add_argument
    option("--log", metavar="amqp://HOST/NAME[,..]",
           help=f"the brokers that keep the log, and its name; else ${VARIABLE}")
    option("--listen", metavar="unix:PATH|tcp:PORT", help="where clients connect")
    option("--name", default=socket.gethostname(), metavar="NAME",
           help="the name of this node, which no other node has (%(default)s)")
    option("--snapshots", type=pathlib.Path, metavar="DIR",
           help="the folder of this node's snapshots, from which it begins")
    option("--every", type=mux.positive, default=Options.every, metavar="N",
           help="stores and drops between two snapshots (%(default)s)")
    option("--servers", type=mux.positive, default=SERVERS, metavar="N",
           help="servers of this node: this number of reads run in parallel, and one server takes "
           "a snapshot while the others go on (%(default)s)")
    option("--seconds", type=mux.duration, default=Options.seconds, metavar="S",
           help="how long a request may occupy a server, before the server is ended and the "
           "request refused as xqs:SECONDS; and how long a store or drop waits while nothing comes "
           "from the log, before its client's stream is ended, since its outcome is unknown "
           "(%(default)g)")
    option("--memory", type=bounds.memory_of, metavar="SIZE", default=bounds.half_of_memory(),
           help="how much memory all servers of this node may have together, as 8G (half of this "
           f"machine's, {bounds.shown_size(bounds.half_of_memory())}; 0: any)")
    mux.add_kept(option)
    option("--fresh", action="store_true",
           help="each read sees all that the log held when the read came")
    option("--program", metavar="TEXT",
           help="the name of the server's program, which nodes tell each other every "
           f"{EVERY} places; by default the checksum of its bytes")
    option("--http", metavar="[HOST:]PORT",
           help="the port for HTTP with /health, /metrics and /status of this node, which anybody "
           "can read who can connect")
    option("--plain", action="store_true",
           help="allow brokers on other machines without TLS, on a network that is yours alone")
    operating.add_options(parser)
    mux.add_client_limits(parser, DEFAULTS)
    return parser


def snapshot_main(words: Sequence[str]) -> int:
    """Runs `xqs snapshot` with these words. Returns the exit status."""
    parser = argparse.ArgumentParser(
        prog="xqs snapshot",
        description="Makes the node that runs with this folder take a snapshot now. With --end all "
        "nodes of its log take one, at the same place, and end: then the program can be changed.")
    parser.add_argument("snapshots", type=pathlib.Path, metavar="DIR")
    parser.add_argument("--end", action="store_true", help="all nodes take one, and end")
    given = parser.parse_args(words)
    is_done, said = control.ask(given.snapshots, "end" if given.end else "snapshot")
    if not is_done:
        raise XqError(said)
    print(said, file=sys.stderr)
    return 0
