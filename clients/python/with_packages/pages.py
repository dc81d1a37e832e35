"""Helpers for tests of the page: one server and one browser for the tests of a class."""

import json
import os
import unittest
import urllib.parse
from pathlib import Path
from typing import Any

try:
    import devtools as devtools
    import running
except ImportError as error:
    raise unittest.SkipTest(f"{error.name} is not installed") from error
if not devtools.CHROMIUM:
    raise unittest.SkipTest("chromium is not installed")

HAS_EDITOR = Path("/usr/share/javascript/codemirror").is_dir()


class PageTest(unittest.TestCase):
    """`words` are those of `xqs web`, `place` where its server is, if it starts none."""

    web: "running.RunningWeb"
    browser: "devtools.Browser"
    words: tuple[str, ...] = ()
    place = ""

    @classmethod
    def setUpClass(cls) -> None:
        """Starts the server and the browser, which end with the class.

        The page may use the clipboard, and counts as focused. Raises AssertionError if the server
        does not start, and TimeoutError if the browser does not.
        """
        cls.web = cls.enterClassContext(running.RunningWeb(*cls.words, place=cls.place))
        cls.browser = devtools.Browser()
        cls.addClassCleanup(cls.browser.close)
        cls.browser.call(
            "Browser.grantPermissions", origin=cls.web.url.rstrip("/"),
            permissions=["clipboardReadWrite", "clipboardSanitizedWrite"])
        cls.browser.call("Emulation.setFocusEmulationEnabled", enabled=True)

    def open(self, query: str = "") -> None:
        """Opens the page anew, without an earlier query, and runs a query there."""
        self.browser.go(self.web.url)
        self.browser.evaluate("sessionStorage.clear()")
        self.browser.go(self.web.url)
        self.browser.wait_for("document.getElementById('count').textContent")
        if query:
            self.run_query(query)

    def write(self, query: str) -> None:
        """Puts a query into the editor."""
        self.browser.evaluate(
            f"((editor, field) => editor ? editor.CodeMirror.setValue({json.dumps(query)}) : "
            f"(field.value = {json.dumps(query)}, field.dispatchEvent(new Event('input'))))"
            "(document.querySelector('.CodeMirror'), document.getElementById('query'))")

    def written(self) -> str:
        """The query in the editor."""
        text: str = self.browser.evaluate(
            "document.querySelector('.CodeMirror')?.CodeMirror.getValue()"
            " ?? document.getElementById('query').value")
        return text

    def run_query(self, query: str) -> None:
        """Runs a query, and waits for its answer."""
        self.write(query)
        self.click("run")
        self.answer()

    def answer(self) -> None:
        """Waits until the answer is there."""
        self.browser.wait_for(
            "document.body.getAttribute('aria-busy') !== 'true' && "
            "(!document.getElementById('result').hidden"
            " || !document.getElementById('refusal').hidden)")

    def click(self, element: str) -> None:
        """Clicks the element with that id."""
        self.browser.evaluate(f"document.getElementById('{element}').click()")

    def text(self, element: str) -> str:
        """The text of an element, as it is displayed."""
        text: str = self.browser.evaluate(f"document.getElementById('{element}').innerText")
        return text

    def all(self, selector: str, value: str = "it.textContent") -> list[Any]:
        """A value of each element that a selector finds."""
        found: list[Any] = self.browser.evaluate(
            f"[...document.querySelectorAll({json.dumps(selector)})].map(it => {value})")
        return found

    def shown(self, form: str) -> str:
        """The whole text of a form of the result, as the page shows it."""
        self.click(f"tab-{form}")
        self.browser.evaluate("document.querySelector('#panel button')?.click()")
        text: str = self.browser.evaluate("document.querySelector('#panel pre').textContent")
        return text

    def copied(self, form: str) -> str:
        """What the button Copy gives for a form of the result."""
        self.click(f"tab-{form}")
        self.browser.evaluate("document.getElementById('copy').textContent = 'Copy'")
        self.click("copy")
        self.browser.wait_for("document.getElementById('copy').textContent === 'Copied'")
        text: str = self.browser.evaluate("navigator.clipboard.readText()")
        return text

    def rows(self) -> list[str]:
        """The visible rows of the result's tree."""
        rows: list[str] = self.browser.evaluate(
            "[...document.querySelectorAll('#panel .tree .row')].filter(it => it.offsetParent)"
            ".map(it => it.querySelector('.line, .more').textContent)")
        return rows

    def link(self, query: str) -> str:
        """The part of a link with the query."""
        return f"#{urllib.parse.quote(query)}"

    def picture(self, name: str) -> None:
        """Saves a picture, if pictures are wanted."""
        folder = os.environ.get("XQS_PICTURES")
        if folder:
            self.browser.picture(Path(folder) / f"{name}.png")
