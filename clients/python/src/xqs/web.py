"""`xqs web`: documents by HTTP on loopback, and a page to look at them."""

import argparse
import asyncio
import logging
import sys
import tempfile
from collections.abc import AsyncIterator, Sequence
from contextlib import AsyncExitStack, asynccontextmanager
from dataclasses import replace
from functools import partial
from pathlib import Path

from aiohttp import web
from aiohttp.http import HttpProcessingError

from xqs import control, listening, mux, web_figures
from xqs.bounds import bounds_of
from xqs.cli import connection_options, server_of
from xqs.endpoints import Command, Endpoint, UnixSocket
from xqs.multiplexer import Multiplexer, is_on_file
from xqs.mux import add_limits, duration, positive, settings_of, split_command, until_signal
from xqs.mux_clients import Settings
from xqs.mux_control import actions_of
from xqs.mux_many import ManyServers
from xqs.served import asked_at
from xqs.web_connections import Connections
from xqs.web_guard import NAMES, ORIGIN, read_token
from xqs.web_rest import MAX_LINE, Rest, WebSettings
from xqs.xml_names import Names

USAGE = "xqs web [OPTIONS] [-- COMMAND [WORDS]]"
DEFAULTS = WebSettings()
LAST_ANSWERS = 60.0
"""How many seconds the answers under way have after the signal that ends the program."""


say = partial(mux.say, command="web")


def is_own_fault(record: logging.LogRecord) -> bool:
    """Whether a line of aiohttp's log is about this program, and not about a request that was not
    HTTP or a client that has gone: any client can cause those, and gets the answer itself."""
    error = record.exc_info[1] if record.exc_info else None
    return not isinstance(error, HttpProcessingError | ConnectionError)


@asynccontextmanager
async def multiplexed(
    place: Endpoint, settings: Settings, again: asyncio.Event
) -> AsyncIterator[tuple[Endpoint, Multiplexer | ManyServers | None]]:
    """A context with the place to send requests to, and the multiplexer if it is in this process.

    A command is started below a multiplexer, behind a socket that only its owner can open. It ends
    in order, or at once when `again` is set. Raises StartFailed.
    """
    if not isinstance(place, Command):
        yield place, None
        return
    multiplexer = mux.multiplexer_of(place.words, settings, say)
    await multiplexer.start()
    hurried = asyncio.create_task(multiplexer.abandon_when(again))
    with tempfile.TemporaryDirectory(prefix="xqs-web-") as folder:
        path = f"{folder}/server"
        listener = await asyncio.start_unix_server(multiplexer.serve, path)
        place = UnixSocket(path)
        try:
            async with control.listening(str(place), actions_of(multiplexer), say):
                yield place, multiplexer
        except BaseException:
            await multiplexer.abandon()
            raise
        listener.close()
        await multiplexer.stop()
        hurried.cancel()


async def run(where: str, place: Endpoint, settings: Settings, options: WebSettings) -> int:
    """Serves HTTP at the loopback port until a signal. Returns the exit status.

    Raises PlaceError, StartFailed.
    """
    again = asyncio.Event()
    async with multiplexed(place, settings, again) as (server, multiplexer):
        failed = multiplexer.failed if multiplexer else asyncio.Event()
        logging.getLogger("aiohttp.server").addFilter(is_own_fault)
        application = Rest(server, options).application()
        application.add_routes(web_figures.routes(web_figures.source_of(multiplexer, place)))
        async with served(application, where, options) as name, AsyncExitStack() as stack:
            if multiplexer:
                actions = actions_of(multiplexer)
                await stack.enter_async_context(control.listening(f"tcp:{name}", actions, say))
            say(f"listens at http://{name}/")
            await until_signal(failed, again)
    return 1 if failed.is_set() else 0


@asynccontextmanager
async def served(
    application: web.Application, where: str, options: WebSettings
) -> AsyncIterator[str]:
    """A context that serves the application at a loopback port, and gives its address.

    At the end it finishes the answers under way. Raises PlaceError.
    """
    runner = web.AppRunner(
        application, access_log=None, max_line_size=MAX_LINE, max_field_size=MAX_LINE
    )
    await runner.setup()
    assert runner.server is not None
    try:
        listener = listening.listen(f"tcp:{where}")
        connections = Connections(runner.server, options.connections, options.head)
        loop = asyncio.get_running_loop()
        server = await loop.create_server(connections, sock=listener)
        yield listening.name_of(listener).removeprefix("tcp:")
        server.close()
        await runner.shutdown()
        await runner.server.shutdown(LAST_ANSWERS)
    finally:
        await runner.cleanup()


def origin_of(word: str) -> str:
    """The origin of pages in a word. Raises ArgumentTypeError if it is none."""
    if not ORIGIN.fullmatch(word):
        raise argparse.ArgumentTypeError(
            f"an origin is as https://app.example, without a path, not {word!r}")
    return word


def parser() -> argparse.ArgumentParser:
    """The words of the command."""
    result = argparse.ArgumentParser(
        prog="xqs web", usage=USAGE, description=__doc__,
        parents=[connection_options(kept=False)]
    )
    option = result.add_argument
    option("--listen", metavar="[HOST:]PORT", default="127.0.0.1:8984",
           help="the loopback port (%(default)s)")
    option("--token-file", metavar="F", type=Path,
           help="allow stores and drops to clients that send the token in this file, which is made "
           "if it doesn't exist; without it there are none")
    option("--host", metavar="NAME", action="append", default=[],
           help="another host name of this server, as behind a proxy")
    option("--origin", metavar="ORIGIN", action="append", default=[], type=origin_of,
           help="a page of that origin, as https://app.example, may ask with the token")
    option("--names", choices=[it.value for it in Names], default=DEFAULTS.names.value,
           help="what happens to names with a colon, unless a request says it")
    option("--body", type=positive, metavar="BYTES", default=DEFAULTS.body,
           help="the most bytes of a document in a PUT (%(default)s)")
    option("--wait", type=duration, metavar="SECONDS", default=DEFAULTS.wait,
           help="how long the next piece of a body or an answer may take (%(default)g)")
    option("--head", type=duration, metavar="SECONDS", default=DEFAULTS.head,
           help="how long the head of a request may take (%(default)g)")
    option("--connections", type=positive, metavar="N", default=DEFAULTS.connections,
           help="connections at once (%(default)s); the one that has waited longest is closed")
    option("--answers", type=positive, metavar="BYTES", default=DEFAULTS.held,
           help="bytes of all answers that wait for their clients, on the disk; above that the "
           "client with most to read is cut off (%(default)s)")
    option("--requests", type=positive, metavar="N", default=DEFAULTS.requests,
           help="requests that run at once (%(default)s)")
    add_limits(result)
    return result


def main(words: Sequence[str] | None = None) -> int:
    """Runs `xqs web` with these words. Returns the exit status.

    0 after a signal that ended it, 1 if the server was lost, 2 for wrong words. Raises XqError,
    ValueError and OSError if it can't begin.
    """
    before, command = split_command(sys.argv[1:] if words is None else words)
    given = parser().parse_args(before)
    place = asked_at(Command(tuple(command)) if command else server_of(given))
    if given.origin and not given.token_file:
        raise ValueError("--origin needs --token-file: another site's page must send the token")
    token = read_token(given.token_file) if given.token_file else None
    options = replace(
        DEFAULTS, hosts=NAMES | {name.lower() for name in given.host},
        origins=frozenset(given.origin), token=token, names=Names(given.names),
        body=given.body, wait=given.wait, head=given.head,
        requests=given.requests, connections=given.connections, held=given.answers,
        seconds=0 if isinstance(place, Command) else bounds_of(given).seconds or 0,
    )
    if isinstance(place, Command) and not is_on_file(place.words):
        say(mux.in_memory_warning(given.servers))
    return asyncio.run(run(given.listen, place, settings_of(given), options))


if __name__ == "__main__":
    sys.exit(main())
