"""`/metrics` and `/status`: the figures of the servers below a web process."""

import asyncio
from collections.abc import Awaitable, Callable

from aiohttp import web

from xqs import control
from xqs.endpoints import Endpoint
from xqs.errors import XqError
from xqs.metrics import CONTENT_TYPE
from xqs.metrics_http import page_of
from xqs.mux_control import Multiplexing, figures_of, lines_of
from xqs.web_status import WANTING, HttpRefusal

Source = Callable[[str], Awaitable[str]]
"""Gives the text of `metrics` or `status`."""


def source_of(multiplexer: Multiplexing | None, place: Endpoint) -> Source:
    """The answer of the multiplexer in this process, or else of the one that listens at the
    place."""

    async def own(name: str) -> str:
        assert multiplexer is not None
        return figures_of(multiplexer) if name == "metrics" else lines_of(multiplexer)

    async def other(name: str) -> str:
        try:
            lines = await asyncio.to_thread(lambda: list(control.ask(str(place), name)))
        except (XqError, OSError) as error:
            raise HttpRefusal(WANTING, "xqs:SERVER", str(error)) from error
        return "\n".join(lines) + "\n"

    return own if multiplexer is not None else other


def routes(source: Source) -> list[web.RouteDef]:
    """The routes of the figures."""

    async def metrics(_: web.Request) -> web.Response:
        return web.Response(text=await source("metrics"), headers={"Content-Type": CONTENT_TYPE})

    async def status(_: web.Request) -> web.Response:
        return web.Response(text=page_of(await source("status")), content_type="text/html")

    return [web.get("/metrics", metrics), web.get("/status", status)]
