"""Documents by HTTP, under BaseX's paths: /rest, /rest/ADDRESS, and a page at /."""

import asyncio
import tempfile
import time
import urllib.parse
from collections.abc import AsyncIterator, Awaitable, Callable, Mapping
from contextlib import asynccontextmanager
from dataclasses import dataclass
from typing import BinaryIO, TypeVar, cast

from aiohttp import web

from xqs import aio, client, protocol, ranges
from xqs.endpoints import Endpoint
from xqs.errors import Refused
from xqs.temporary import check_lasting
from xqs.web_answers import Body, Wanted, answer_of, body_of, document_in_parts, new_file
from xqs.web_bodies import charset_of, media_type, receive, received_query
from xqs.web_charset import decoded
from xqs.web_connections import at_work
from xqs.web_files import ZIP, addresses_as_json, write_archive
from xqs.web_forms import JSON, LIST_FORMS, TEXT, XQUERY, chosen, spelled_list
from xqs.web_guard import (
    CHANGES,
    NAMES,
    check_guest,
    check_host,
    check_origin,
    check_token,
    guest_headers,
    is_guest,
    preflight_headers,
)
from xqs.web_incoming import Put
from xqs.web_lists import LIST_PARAMETERS, listing_of
from xqs.web_locks import Locks
from xqs.web_page import Page
from xqs.web_query import Asked, Parameters, choice, take_body
from xqs.web_send import Sender
from xqs.web_status import CODE, HttpRefusal, placed, refusal_of
from xqs.web_store import drop_if, store_if
from xqs.web_tags import Conditions, NotModified, conditions_of, etag, state_of, tag, tag_of_file
from xqs.xml_names import Names
from xqs.xml_out import FLAT, KEEP

Handler = Callable[[web.Request], Awaitable[web.StreamResponse]]
T = TypeVar("T")
SHORT = 1 << 16
"""A longer reply, in characters, is put into another form by a thread."""
MAX_LINE = 1 << 16
"""The longest line of a request's head, in bytes."""
HEADERS = {
    "Cache-Control": "no-store",
    "Content-Security-Policy": "default-src 'none'; frame-ancestors 'none'; sandbox",
    "Cross-Origin-Opener-Policy": "same-origin",
    "Cross-Origin-Embedder-Policy": "require-corp",
    "Cross-Origin-Resource-Policy": "same-origin",
    "Referrer-Policy": "no-referrer",
    "X-Content-Type-Options": "nosniff",
    "X-Frame-Options": "DENY",
}
"""Headers of each answer: it is no page, and no part of another page."""
LIST_METHODS, DOCUMENT_METHODS = "GET, HEAD, POST, OPTIONS", "GET, HEAD, POST, PUT, DELETE, OPTIONS"


@dataclass(frozen=True)
class WebSettings:
    """Access and limits: the names of this server, and the token for changes, None for no changes.

    `origins` are the other sites whose pages may ask, with the token. `names` is the default choice
    of `Names` for names with a colon in XML. `body` is the most bytes of a body, `wait` the seconds
    for the next piece of a body or an answer, `head` those for the head of a request. `requests` is
    how many run at once, `connections` how many there may be.
    """

    hosts: frozenset[str] = NAMES
    origins: frozenset[str] = frozenset()
    token: str | None = None
    names: Names = Names.REFUSE
    body: int = 256 << 20
    wait: float = 60.0
    head: float = 20.0
    requests: int = 64
    connections: int = 1000
    held: int = 1 << 30
    seconds: float = 0


async def in_thread_if(long: bool, function: Callable[..., T], *arguments: object) -> T:
    """The function's result; a thread calls it if that takes long."""
    if long:
        return await asyncio.to_thread(function, *arguments)
    return function(*arguments)


class Rest:
    """The handlers, in front of the server at a place."""

    def __init__(self, place: Endpoint, settings: WebSettings) -> None:
        self._place = place
        self._settings = settings
        self._room = asyncio.Semaphore(settings.requests)
        self._locks = Locks()
        self._sender = Sender(settings.wait, settings.held)
        self._page = Page(settings.names, settings.token is not None)

    def application(self) -> web.Application:
        """The application, with its routes and its guard."""
        async def guard(request: web.Request, handler: Handler) -> web.StreamResponse:
            with at_work(request):
                return await self._guarded(request, handler)

        application = web.Application(middlewares=[web.middleware(guard)])
        application.add_routes([
            web.get("/", self.get_page),
            web.get("/page/{name}", self.get_page),
            web.post("/page/addresses", self.post_paths),
            web.get("/archive", self.get_archive),
            web.get("/rest{slash:/?}", self.get_all),
            web.post("/rest{slash:/?}", self.post),
            web.options("/rest{slash:/?}", self.options),
            web.get("/rest/{address:.+}", self.get),
            web.post("/rest/{address:.+}", self.post),
            web.put("/rest/{address:.+}", self.put),
            web.delete("/rest/{address:.+}", self.delete),
            web.options("/rest/{address:.+}", self.options),
        ])
        application.on_response_prepare.append(self._add_headers)
        return application

    async def _guarded(self, request: web.Request, handler: Handler) -> web.StreamResponse:
        """Checks access, and turns each error into a refusal."""
        try:
            self._check(request)
            return await handler(request)
        except NotModified as error:
            return web.Response(status=304, headers=etag(error.tag))
        except web.HTTPException as error:
            headers = {"Allow": error.headers["Allow"]} if "Allow" in error.headers else {}
            return _refused(HttpRefusal(error.status, "xqs:HTTP", error.reason, headers))
        except Exception as error:
            refusal = refusal_of(error, request.method in CHANGES)
            if refusal is None:
                raise
            return _refused(refusal)

    def _check(self, request: web.Request) -> None:
        """Raises HttpRefusal if the request has no access."""
        headers, token = request.headers, self._settings.token
        check_host(headers.get("Host"), self._settings.hosts)
        if not is_guest(headers.get("Origin"), self._settings.origins):
            check_origin(request.method, request.path, headers)
        elif not _is_preflight(request):
            check_guest(headers, token)
        check_token(request.method, headers.get("Authorization"), token)

    async def _add_headers(self, request: web.Request, response: web.StreamResponse) -> None:
        """Adds the headers of each answer."""
        for name, value in HEADERS.items():
            response.headers.setdefault(name, value)
        response.headers["Server"] = "xqs"
        origin = request.headers.get("Origin")
        if self._settings.origins:
            response.headers.add("Vary", "Origin")
        if origin is not None and is_guest(origin, self._settings.origins):
            response.headers.update(guest_headers(origin))

    @asynccontextmanager
    async def _client(self) -> AsyncIterator[aio.AsyncClient]:
        """A connection for this request alone, so that each request has its turn."""
        async with await aio.connect(self._place, timeout=self._settings.seconds) as connection:
            yield connection

    def _thread_client(self) -> client.Client:
        """A connection for a thread."""
        return client.connect(self._place, timeout=self._settings.seconds)

    async def get_page(self, request: web.Request) -> web.Response:
        """The page, or one of its files."""
        parameters_of(request).only(())
        return self._page.response(request.match_info.get("name", ""))

    async def post_paths(self, request: web.Request) -> web.Response:
        """The addresses that files get from their paths."""
        parameters_of(request).only(())
        media_type(request, (JSON,))
        body = await received_query(request, self._settings.wait)
        return web.Response(text=addresses_as_json(body), content_type=JSON)

    async def get_archive(self, request: web.Request) -> web.StreamResponse:
        """The documents below a prefix, as files of a ZIP archive."""
        words = parameters_of(request).only(("prefix", "names"))
        names = choice("names", words.get("names", self._keep_or_flat), (KEEP, FLAT))
        async with self._room:
            file = await asyncio.to_thread(self._archive, words.get("prefix", ""), names)
        headers = {"Content-Disposition": 'attachment; filename="documents.zip"'}
        return await self._send(request, Body(ZIP, tag_of_file(file), file), headers)

    def _archive(self, prefix: str, names: str) -> BinaryIO:
        file = new_file()
        with self._thread_client() as connection:
            write_archive(connection, prefix, names, file)
        return file

    @property
    def _keep_or_flat(self) -> str:
        """The default choice for names with a colon in answers."""
        return FLAT if self._settings.names is Names.FLAT else KEEP

    async def options(self, request: web.Request) -> web.Response:
        """The methods of a path."""
        parameters_of(request).only(())
        is_document = "address" in request.match_info
        allow = DOCUMENT_METHODS if is_document else LIST_METHODS
        more = preflight_headers(allow) if _is_preflight(request) else {}
        return web.Response(status=204, headers={"Allow": allow, **more})

    async def get_all(self, request: web.Request) -> web.StreamResponse:
        """The answer to the query in the URL; the addresses if there is no query."""
        given = parameters_of(request)
        if not all(name in LIST_PARAMETERS for name in given):
            return await self._answer(request, self._asked(given), "")
        listing = listing_of(given)
        form = chosen(request.headers.get("Accept"), LIST_FORMS)
        async with self._room, self._client() as connection:
            addresses = await connection.list()
        addresses, headers = listing.page(addresses)
        text = spelled_list(addresses, form)
        return await self._send(request, body_of(form, tag(state_of(text), form), text), headers)

    async def get(self, request: web.Request) -> web.StreamResponse:
        """A document, or the answer to the query in the URL about it."""
        return await self._answer(request, self._asked(parameters_of(request)), address_of(request))

    async def post(self, request: web.Request) -> web.StreamResponse:
        """The answer to the query in the body, about a document if there is an address."""
        asked, kind = self._asked(parameters_of(request)), media_type(request)
        charset = charset_of(request)
        if asked.text is not None:
            raise HttpRefusal(400, "xqs:REQUEST", "the query of a POST is its body")
        body = await received_query(request, self._settings.wait)
        if kind == XQUERY:
            asked.text = decoded(body, charset)
        else:
            take_body(asked, body, charset)
        address = address_of(request) if "address" in request.match_info else ""
        return await self._answer(request, asked, address)

    def _asked(self, given: Parameters) -> Asked:
        asked = Asked(names=self._keep_or_flat)
        for name, value in given.items():
            asked.take(name, value)
        return asked

    async def _answer(
        self, request: web.Request, asked: Asked, address: str
    ) -> web.StreamResponse:
        wanted = Wanted(request.headers.get("Accept"), asked.names, asked.is_wrapped)
        wanted.check()
        async with self._room:
            known, is_long = await self._addresses(asked), len(asked.text or "") > SHORT
            question = await in_thread_if(is_long, asked.question, lambda: known)
            query = asked.query(question, address)
            begin = time.perf_counter()
            try:
                text = await self._value(query, address if asked.is_whole() else "")
                took = time.perf_counter() - begin
            except Refused as error:
                if error.code != "prof:REPLY" or not address or not asked.is_whole():
                    raise placed(error, question) from error
                body = await asyncio.to_thread(self._in_parts, address, wanted)
                took = time.perf_counter() - begin
            else:
                body = await in_thread_if(len(text) > SHORT, answer_of, text, wanted)
        return await self._send(request, body, {"Server-Timing": f"server;dur={took * 1000:.3f}"})

    async def _value(self, query: str, whole: str) -> str:
        """The value of a query. If it is the whole document at an address and too long, it is
        refused with prof:REPLY because of its size, before the server prints it."""
        async with self._client() as connection:
            if whole:
                text = await connection.query_text(ranges.look(whole))
                sizes = ranges.sizes_of(text)
                if sizes is None:
                    return text
                if sizes[1] > ranges.WHOLE:
                    raise Refused("prof:REPLY")
            return await connection.query_text(query)

    async def _addresses(self, asked: Asked) -> list[str]:
        """The current addresses, if the query may need those of a folder."""
        if not asked.may_ask_for_folders():
            return []
        async with self._client() as connection:
            return await connection.list()

    def _in_parts(self, address: str, wanted: Wanted) -> Body:
        with self._thread_client() as connection:
            return document_in_parts(connection, address, wanted)

    async def _send(
        self, request: web.Request, body: Body, headers: Mapping[str, str]
    ) -> web.StreamResponse:
        try:
            conditions_of(request.headers).check(body.tag)
        except NotModified as error:
            if request.method == "POST":
                raise HttpRefusal(412, "xqs:CONDITION", "If-None-Match has the answer") from error
            raise
        return await self._sender.send(request, body, headers)

    async def put(self, request: web.Request) -> web.Response:
        """Stores a document of XML or of constructors; 201 if the address had none."""
        address, kind = address_of(request), media_type(request)
        check_lasting(address)
        charset, conditions = charset_of(request), conditions_of(request.headers)
        words = parameters_of(request).only(("names",))
        given = words.get("names", self._settings.names.value)
        names = Names(choice("names", given, [it.value for it in Names]))
        with tempfile.SpooledTemporaryFile(max_size=protocol.MAX_REQUEST) as file:
            body = cast(BinaryIO, file)
            await receive(request, body, self._settings.body, self._settings.wait)
            put = Put(address, kind, body, names, charset)
            async with self._locks.held(address), self._room:
                replaced = await asyncio.to_thread(self._store, put, address, conditions)
        if replaced:
            return web.Response(text="replaced\n")
        location = {"Location": f"/rest/{urllib.parse.quote(address)}"}
        return web.Response(status=201, text="stored\n", headers=location)

    def _store(self, put: Put, address: str, conditions: Conditions) -> bool:
        with self._thread_client() as connection:
            if not conditions.is_given:
                return put.store(connection, address)
            return store_if(connection, address, conditions, lambda at: put.store(connection, at))

    async def delete(self, request: web.Request) -> web.Response:
        """Drops a document."""
        parameters_of(request).only(())
        address, conditions = address_of(request), conditions_of(request.headers)
        async with self._locks.held(address), self._room:
            await asyncio.to_thread(self._drop, address, conditions)
        return web.Response(text="dropped\n")

    def _drop(self, address: str, conditions: Conditions) -> None:
        with self._thread_client() as connection:
            if conditions.is_given:
                drop_if(connection, address, conditions)
            else:
                connection.drop(address)


def _refused(refusal: HttpRefusal) -> web.Response:
    headers = {CODE: refusal.code, **refusal.headers}
    # A request may have invalid bytes, which the sentence shows as escapes.
    body = f"{refusal}\n".encode(errors="backslashreplace")
    return web.Response(
        status=refusal.status, body=body, content_type=TEXT, charset="utf-8", headers=headers)


def _is_preflight(request: web.Request) -> bool:
    """Whether a browser asks what another site's page may ask; it sends no token with that."""
    return request.method == "OPTIONS" and "Access-Control-Request-Method" in request.headers


def parameters_of(request: web.Request) -> Parameters:
    """The parameters of a request's URL. Raises HttpRefusal if one is given twice, or has no
    UTF-8."""
    text = request.rel_url.raw_query_string
    try:
        pairs = urllib.parse.parse_qsl(text, keep_blank_values=True, errors="strict")
    except ValueError as error:
        raise HttpRefusal(400, "prof:UTF8", f"a parameter of the URL: {error}") from error
    return Parameters(pairs)


def address_of(request: web.Request) -> str:
    """The address in the path of a request. Raises HttpRefusal if it is invalid."""
    address: str = request.match_info["address"]
    try:
        protocol.address_bytes(address)
    except ValueError as error:
        raise HttpRefusal(400, "prof:ADDRESS", str(error)) from error
    return address
