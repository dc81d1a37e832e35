"""Who may ask: requests to the names of this machine, from its own pages, and for changes only with
the token.

A page of another site in a browser on this machine can send requests here, also under a host name
of its own that points here. So the host name of a request must be known. A request that comes from
another site's page, as the browser says, is refused, unless that site's origin may ask and the
request has the token.
"""

import base64
import hmac
import os
import re
import secrets
import stat
from collections.abc import Mapping
from pathlib import Path

from xqs.errors import XqError
from xqs.web_status import HttpRefusal

NAMES = frozenset(("127.0.0.1", "localhost", "[::1]"))
"""The names of a server on loopback, at any port."""
READS = frozenset(("GET", "HEAD"))
CHANGES = frozenset(("PUT", "DELETE"))
OWN_PAGES = ("same-origin", "none")
"""What a browser says about a request of the page itself, or of the user."""
EXPOSED = "ETag, Link, Location, Server-Timing, Xqs-Code, Xqs-Place, Xqs-Total"
"""The headers of an answer that other sites' pages may read, besides those that any may."""
ORIGIN = re.compile(r"https?://[a-z0-9.\-\[\]:]+|null")
"""How a browser writes the origin of a page."""
LEAST_TOKEN = 16
"""The least number of characters of a token."""


class TokenFault(XqError):
    """A token's file that can't be used; the message says why."""


def name_of_host(host: str) -> str:
    """The name in a Host header, without its port, in lower case."""
    name, colon, port = host.rpartition(":")
    return (name if colon and (port.isdigit() or not port) else host).lower()


def check_host(host: str | None, names: frozenset[str]) -> None:
    """Refuses a request that was sent to an unknown name."""
    if not host or name_of_host(host) not in names:
        raise HttpRefusal(403, "xqs:HOST", f"this server is not called {host or 'nothing'}")


def is_guest(origin: str | None, origins: frozenset[str]) -> bool:
    """Whether the request is from a page whose origin may ask, and has the token."""
    return origin is not None and origin in origins


def check_guest(headers: Mapping[str, str], token: str | None) -> None:
    """Refuses a request of such a page without the token, even a read.

    Only Bearer counts: a browser sends a user and a password by itself once it knows them.
    """
    given = headers.get("Authorization", "")
    is_bearer = given.partition(" ")[0].lower() == "bearer"
    if token is None or not is_bearer or not _is_token(given, token):
        raise HttpRefusal(
            401, "xqs:TOKEN", "another site's page must send Authorization: Bearer TOKEN",
            {"WWW-Authenticate": 'Bearer realm="xqs"'},
        )


def guest_headers(origin: str) -> dict[str, str]:
    """The headers that let the page of that origin read the answer."""
    return {"Access-Control-Allow-Origin": origin, "Access-Control-Expose-Headers": EXPOSED}


def preflight_headers(allow: str) -> dict[str, str]:
    """The headers that tell a browser which requests such a page may make, at a path with these
    methods."""
    return {
        "Access-Control-Allow-Methods": allow,
        "Access-Control-Allow-Headers": "Authorization, Content-Type, If-Match, If-None-Match",
        "Access-Control-Max-Age": "600",
    }


def check_origin(method: str, path: str, headers: Mapping[str, str]) -> None:
    """Refuses a request of another site's page; a link to `/` may be followed."""
    site = headers.get("Sec-Fetch-Site")
    is_visit = path == "/" and method in READS and headers.get("Sec-Fetch-Mode") == "navigate"
    if site is not None and site not in OWN_PAGES and not is_visit:
        raise HttpRefusal(403, "xqs:ORIGIN", f"another site's page has asked ({site})")
    origin = headers.get("Origin")
    scheme, _, place = (origin or "").partition("://")
    if origin is not None and (scheme not in ("http", "https") or place != headers.get("Host")):
        raise HttpRefusal(403, "xqs:ORIGIN", f"a page of {origin} has asked")


def check_token(method: str, given: str | None, token: str | None) -> None:
    """Refuses a change without the token, and every change if there is no token."""
    if method not in CHANGES:
        return
    if token is None:
        raise HttpRefusal(
            403, "xqs:READONLY", "nothing can be stored or dropped here without --token-file"
        )
    if not _is_token(given or "", token):
        raise HttpRefusal(
            401, "xqs:TOKEN", "a store or a drop needs Authorization: Bearer TOKEN, or Basic with "
            "the token as its password", {"WWW-Authenticate": 'Bearer realm="xqs"'},
        )


def _is_token(given: str, token: str) -> bool:
    return hmac.compare_digest(_secret_in(given), token.encode())


def _secret_in(given: str) -> bytes:
    """The token in a header Authorization, or the password; empty if there is none."""
    scheme, _, word = given.partition(" ")
    if scheme.lower() == "bearer":
        return word.strip().encode(errors="replace")
    if scheme.lower() != "basic":
        return b""
    try:
        return base64.b64decode(word.strip(), validate=True).partition(b":")[2]
    except ValueError:
        return b""


def read_token(path: Path) -> str:
    """The token in its owner's file; makes a new one if there is no file.

    Raises TokenFault if others may read the file, or if it holds no token; and OSError.
    """
    try:
        new = os.open(path, os.O_WRONLY | os.O_CREAT | os.O_EXCL, 0o600)
    except FileExistsError:
        return _token_of(path)
    token = secrets.token_urlsafe(32)
    with os.fdopen(new, "w", encoding="ascii") as file:
        file.write(token + "\n")
    return token


def _token_of(path: Path) -> str:
    with path.open("rb") as file:
        mode = stat.S_IMODE(os.fstat(file.fileno()).st_mode)
        token = file.read(1 << 12).decode("utf-8", "replace").strip()
    if mode & 0o077:
        raise TokenFault(f"{path}: others may read it (mode {mode:04o}); chmod 600 repairs that")
    if len(token) < LEAST_TOKEN or not token.isascii() or not token.isprintable() or " " in token:
        raise TokenFault(
            f"{path}: a token is one line of {LEAST_TOKEN} or more visible ASCII characters")
    return token
