"""The page of `xqs web`: its files, those of CodeMirror if it is installed, and their headers."""

import json
from collections.abc import Callable
from dataclasses import dataclass
from importlib import resources
from pathlib import Path

from aiohttp import web

from xqs import places
from xqs.web_status import HttpRefusal
from xqs.xml_names import Names

POLICY = (
    "default-src 'none'; script-src 'self'; style-src 'self'; connect-src 'self'; "
    "img-src 'self' data:; base-uri 'none'; form-action 'none'; frame-ancestors 'none'; "
    "require-trusted-types-for 'script'; trusted-types 'none'"
)
"""The browser runs only the page's own scripts and uses only its own styles."""
CODEMIRROR = Path("/usr/share/javascript/codemirror")
"""The folder of Debian's package libjs-codemirror."""
EDITOR = {
    "codemirror.css": "lib/codemirror.css",
    "show-hint.css": "addon/hint/show-hint.css",
    "codemirror.js": "lib/codemirror.js",
    "xquery.js": "mode/xquery/xquery.js",
    "matchbrackets.js": "addon/edit/matchbrackets.js",
    "closebrackets.js": "addon/edit/closebrackets.js",
    "show-hint.js": "addon/hint/show-hint.js",
}
"""The files of the editor in the page's order, by their names there."""
HTML, WORDS = "page.html", "words.json"
TYPES = {".html": "text/html", ".css": "text/css", ".js": "text/javascript",
         ".json": "application/json"}
MARK = "<!-- editor -->"
"""The mark in the page that the files of the editor replace."""


@dataclass(frozen=True)
class Page:
    """The page. `names` is its choice for names with a colon; it can store documents if that is
    allowed."""

    names: Names
    can_change: bool

    def response(self, name: str) -> web.Response:
        """A file of the page; the page itself for an empty name. Raises HttpRefusal 404."""
        read = self._reader(name or HTML)
        if read is None:
            raise HttpRefusal(404, "xqs:HTTP", f"there is no /page/{name}")
        kind = TYPES[Path(name or HTML).suffix]
        headers = {} if name else {"Content-Security-Policy": POLICY}
        return web.Response(text=read(), content_type=kind, headers=headers)

    def _reader(self, name: str) -> Callable[[], str] | None:
        """What reads the file of that name; None if there is none."""
        if name == HTML:
            return self._html
        if name == WORDS:
            return words
        if name in EDITOR:
            file = CODEMIRROR / EDITOR[name]
            return lambda: file.read_text(encoding="utf-8")
        own = resources.files("xqs").joinpath("page", name)
        if Path(name).suffix in TYPES and "/" not in name and own.is_file():
            return lambda: own.read_text(encoding="utf-8")
        return None

    def _html(self) -> str:
        text = resources.files("xqs").joinpath("page", HTML).read_text(encoding="utf-8")
        for mark, holds in (("{flat}", self.names is Names.FLAT), ("{changes}", self.can_change)):
            text = text.replace(mark, json.dumps(holds))
        return text.replace(MARK, editor_tags())


def editor_tags() -> str:
    """The elements that load the editor; none if one of its files is missing."""
    if not all((CODEMIRROR / file).is_file() for file in EDITOR.values()):
        return ""
    return "\n".join(map(_tag, EDITOR))


def _tag(name: str) -> str:
    if name.endswith(".css"):
        return f'<link rel="stylesheet" href="/page/{name}">'
    return f'<script src="/page/{name}" defer></script>'


def words() -> str:
    """The completions for a query, as JSON."""
    functions = [*places.FUNCTIONS, *(f"xs:{it}" for it in places.TYPES)]
    return json.dumps({"functions": sorted(functions), "keywords": sorted(places.KEYWORDS)})
