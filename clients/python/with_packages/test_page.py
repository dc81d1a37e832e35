"""The page of `xqs web` in headless Chromium: queries, refusals, the keyboard, hostile texts.

    tools/run run_tests clients/python test_page

`XQS_PICTURES` names a folder for pictures of the page, if they are wanted.
"""

import http.server
import threading
import unittest
import urllib.parse

from pages import HAS_EDITOR, PageTest, devtools

LIBRARY = (
    '<library name="City archive"><book id="1" by="holm"><title>Notes on Paper</title>'
    '<note lang="en">A <em>short</em> history &amp; some &lt;b&gt;bold&lt;/b&gt; claims.</note>'
    '</book><!-- to be checked --><book id="2"><title>Small Rivers</title></book></library>'
)
HOSTILE = "<script>document.title='hacked'</script><img src=x onerror=document.title='hacked'>"
FOCUSED = "document.activeElement.getAttribute('aria-label') || document.activeElement.id"
ENDLESS = "every $x in 1 to 1000000, $y in 1 to 1000000 satisfies $x > 0"


class LibraryTest(PageTest):
    """Tests over a few documents."""

    words = ("--seconds", "2")

    @classmethod
    def setUpClass(cls) -> None:
        super().setUpClass()
        hostile = f"<a t=\"{HOSTILE.replace('<', '&lt;')}\">{HOSTILE.replace('<', '&lt;')}</a>"
        for address, body in (("books", LIBRARY), ("hostile", hostile), ("letters/1", "<a/>"),
                              ("letters/2", "<a><b/></a>")):
            assert cls.web.put(address, body).status == 201
        flat = '<p:a xmlns:p="urn:p" xmlns="urn:q"><b p:c="1"/></p:a>'
        assert cls.web.put("flat?names=flat", flat).status == 201


class Results(LibraryTest):
    """The appearance of a query's answer."""

    def test_a_query_gives_a_tree(self) -> None:
        self.open('doc("books")')
        self.assertEqual(self.rows()[:4], [
            "document", '<library name="City archive">', '<book id="1" by="holm">',
            "<title>Notes on Paper</title>"])
        self.assertRegex(self.text("status"), r"^1 item · [\d,]+ bytes · server .* ms · in all")
        self.assertEqual(self.all("#documents [aria-selected=true]"), ["books"])

    def test_a_refusal_is_told_by_its_code_and_in_words(self) -> None:
        self.open('doc("zz")')
        self.assertEqual(self.text("code"), "FODC0002")
        self.assertEqual(self.text("words").strip(), "there is no document at that address")
        self.assertFalse(self.browser.evaluate("document.querySelector('#result').offsetParent"))

    def test_the_place_of_a_fault_can_be_gone_to(self) -> None:
        self.open('let $a := "\U0001d11e" return\n  cuont($a)')
        self.assertEqual(self.text("code"), "XPST0017")
        self.assertIn("line 2, column 3: ", self.text("words"))
        if not HAS_EDITOR:
            return
        self.assertEqual(self.all(".fault"), ["c"])
        self.assertIn("line 2, column 3: ", self.all(".fault-words")[0])
        self.click("place")
        self.assertEqual(self.browser.evaluate(
            "document.querySelector('.CodeMirror').CodeMirror.getSelection()"), "c")
        self.run_query("1")
        self.assertEqual(self.all(".fault, .fault-words"), [])

    def test_markup_in_texts_shows_as_text(self) -> None:
        self.open('doc("hostile")')
        self.assertIn(f"{HOSTILE}</a>", self.rows()[1])
        for tab in ("constructors", "xml"):
            self.assertIn("script>", self.shown(tab))
        self.run_query(f'"{HOSTILE}"')
        self.click("tab-tree")
        self.assertEqual(self.rows(), [f'"{HOSTILE}"'])
        self.assertEqual(self.browser.evaluate("document.title"), "xqs")
        self.assertEqual(self.all("script", "it.src.startsWith(location.origin)").count(False), 0)
        self.assertEqual(self.browser.evaluate("document.images.length"), 0)
        self.assertEqual(self.browser.log, [])

    def test_a_brace_in_a_text_is_no_end_of_it(self) -> None:
        self.open('element style {"body { color: red }"}')
        self.assertEqual(self.rows(), ["<style>body { color: red }</style>"])
        self.run_query('document {comment {"x"}, element a {}}')
        self.assertEqual(self.rows(), ["document", "<!--x-->", "<a/>"])
        self.assertEqual(self.copied("xml"), "<!--x--><a/>")

    def test_xml_is_indented_for_the_eye_alone(self) -> None:
        self.open('element a {element b {element c {"x"}}, element d {"y ", element e {}}}')
        exact = "<a><b><c>x</c></b><d>y <e/></d></a>"
        self.assertEqual(self.shown("xml").split("\n"), [
            "<a>", "  <b>", "    <c>x</c>", "  </b>", "  <d>y <e/></d>", "</a>"])
        self.assertEqual(self.copied("xml"), exact)
        self.click("indented")
        self.assertEqual(self.shown("xml"), exact)

    def test_names_with_colons(self) -> None:
        self.open()
        self.click("flat")
        self.run_query('doc("flat")')
        self.assertEqual(self.copied("xml"),
                         '<p:a xmlns:p="urn:p" xmlns="urn:q"><b p:c="1"/></p:a>')
        self.assertEqual(self.browser.evaluate(
            "document.querySelector('#panel').textContent.includes('p:a')"), True)

    def test_many_items_come_in_batches(self) -> None:
        self.open("1 to 1000")
        rows = self.rows()
        self.assertEqual(len(rows), 201)
        self.assertEqual(rows[-1], "Show more: 200 of 1000 are shown")
        self.browser.evaluate("document.querySelector('.more').click()")
        self.assertEqual(len(self.rows()), 401)

    def test_a_long_text_is_cut_until_it_is_asked_for(self) -> None:
        self.open('string-join(for $x in 1 to 100000 return "abcdefghij")')
        self.assertIn("999700 more characters", self.rows()[0])
        self.click("tab-constructors")
        self.assertEqual(len(self.all("#panel pre")[0]), 200_000)
        self.assertEqual(len(self.shown("constructors")), 1_000_002)

    def test_a_slow_query_is_refused_and_a_page_need_not_wait(self) -> None:
        self.open(ENDLESS)
        self.assertEqual(self.text("code"), "xqs:SECONDS")
        self.click("run")
        self.browser.wait_for("!document.getElementById('stop').hidden")
        self.click("stop")
        self.assertIn("No longer waiting", self.text("status"))


class Links(LibraryTest):
    """A query in a link is shown, and never run by itself."""

    def check_not_run(self, query: str) -> None:
        """Checks that the editor has a query, which has no answer."""
        self.browser.wait_for("document.getElementById('count').textContent")
        self.assertEqual(self.written(), query)
        self.assertIn("was not run", self.text("status"))
        self.assertEqual(self.all("#result, #refusal", "it.hidden"), [True, True])
        asked = self.browser.evaluate(
            "performance.getEntriesByType('resource').map(it => it.name)")
        self.assertFalse([url for url in asked if "names=" in url])

    def test_a_page_that_is_opened_by_a_link(self) -> None:
        self.browser.go(self.web.url + self.link("1 + 1"))
        self.check_not_run("1 + 1")
        self.click("run")
        self.answer()
        self.assertEqual(self.rows(), ["2"])

    def test_a_link_that_is_followed_in_the_page(self) -> None:
        self.open()
        self.browser.evaluate(f"location.hash = {self.link(ENDLESS)!r}")
        self.check_not_run(ENDLESS)

    def test_a_link_that_is_no_text(self) -> None:
        self.open()
        self.browser.evaluate("sessionStorage.clear()")
        self.browser.go(self.web.url + "#%FF")
        self.browser.wait_for("document.getElementById('count').textContent")
        self.assertEqual(self.written(), "count(collection())")

    def test_a_link_takes_no_query_of_the_user_away(self) -> None:
        self.open()
        self.write("my query")
        self.browser.go(self.web.url + self.link("1 + 1"))
        self.check_not_run("1 + 1")
        self.assertEqual(len(self.all("#queries [role=tab]")), 2)
        self.browser.evaluate("document.querySelector('#queries [role=tab]').click()")
        self.assertEqual(self.written(), "my query")

    def test_a_query_before_is_gone_back_to(self) -> None:
        self.open("1 + 1")
        self.run_query("2 + 2")
        self.browser.evaluate("history.back()")
        self.browser.wait_for("document.getElementById('status').textContent.includes('not run')")
        self.assertEqual(self.written(), "1 + 1")


class Keyboard(LibraryTest):
    """Everything without a mouse."""

    def test_ctrl_enter_runs_what_was_typed(self) -> None:
        self.open()
        self.write("")
        self.browser.evaluate(
            "(document.querySelector('.CodeMirror')?.CodeMirror"
            " ?? document.getElementById('query')).focus()")
        self.browser.type("(1 to 3)[. != 2]")
        self.browser.press("Enter", devtools.CTRL)
        self.answer()
        self.assertEqual(self.rows(), ["1", "3"])
        self.assertEqual(urllib.parse.unquote(self.browser.evaluate("location.hash")),
                         "#(1 to 3)[. != 2]")

    def test_tab_leaves_the_editor(self) -> None:
        self.open('doc("books")')
        self.browser.evaluate(
            "(document.querySelector('.CodeMirror')?.CodeMirror"
            " ?? document.getElementById('query')).focus()")
        order = []
        for _ in range(3):
            self.browser.press("Tab")
            order.append(self.browser.evaluate(FOCUSED))
        self.assertEqual(order, ["run", "flat", "tab-tree"])

    def test_arrows_walk_open_and_close_the_tree(self) -> None:
        self.open('doc("books")')
        self.browser.evaluate("document.querySelector('#panel [role=treeitem]').focus()")
        self.browser.press("ArrowDown")
        self.assertEqual(self.browser.evaluate(FOCUSED), '<library name="City archive">')
        count = len(self.rows())
        self.browser.press("ArrowLeft")
        self.assertEqual(len(self.rows()), 2)
        self.assertEqual(self.browser.evaluate("document.activeElement.ariaExpanded"), "false")
        self.browser.press("ArrowRight")
        self.assertEqual(len(self.rows()), count)
        self.browser.press("ArrowRight")
        self.assertEqual(self.browser.evaluate(FOCUSED), '<book id="1" by="holm">')
        self.browser.press("End")
        self.assertEqual(self.browser.evaluate(FOCUSED), "<title>Small Rivers</title>")
        self.browser.press("ArrowUp")
        self.assertEqual(self.browser.evaluate(FOCUSED), '<book id="2">')
        self.browser.press("Enter")
        self.assertEqual(len(self.rows()), count - 1)
        self.browser.press("Home")
        self.assertEqual(self.browser.evaluate(FOCUSED), "document")

    def test_roles_tell_the_tree(self) -> None:
        self.open('doc("books")')
        roles = self.all("#panel [role=treeitem]",
                         "[it.ariaLevel, it.ariaPosInSet, it.ariaSetSize, it.ariaExpanded]")
        self.assertEqual(roles[:4], [["1", "1", "1", "true"], ["2", "1", "1", "true"],
                                     ["3", "1", "3", "true"], ["4", "1", "2", None]])

    def test_arrows_choose_forms_and_documents(self) -> None:
        self.open('doc("books")')
        self.browser.evaluate("document.getElementById('tab-tree').focus()")
        self.browser.press("ArrowRight")
        self.assertEqual(self.browser.evaluate(FOCUSED), "tab-xml")
        self.assertIn("<library", self.text("panel"))
        self.browser.press("ArrowLeft")
        self.browser.evaluate("document.querySelector('#documents [role=treeitem]').focus()")
        self.assertEqual(self.browser.evaluate(FOCUSED), "letters/ 2")
        for key in ("ArrowRight", "ArrowDown", "Enter"):
            self.browser.press(key)
        self.browser.wait_for("decodeURIComponent(location.hash).includes('letters/2')")


class Policy(LibraryTest):
    """What a browser is told not to do."""

    def test_a_stored_script_does_not_run_when_its_document_is_opened(self) -> None:
        script = ('<h:html xmlns:h="http://www.w3.org/1999/xhtml"><h:script>'
                  "document.documentElement.setAttribute('hacked', '1')</h:script></h:html>")
        self.web.put("script?names=flat", script)
        self.browser.go(f"{self.web.url}rest/script?names=flat")
        self.assertTrue(self.browser.evaluate("document.documentElement.outerHTML")
                        .startswith("<h:html"))
        self.assertFalse(self.browser.evaluate("document.documentElement.hasAttribute('hacked')"))

    def test_a_script_that_is_put_into_the_page_does_not_run(self) -> None:
        self.open()
        self.browser.evaluate(
            "(() => { try { document.body.innerHTML = '<img src=x onerror=window.bad=1>' } "
            "catch (error) { window.refused = error.name } })()")
        self.assertEqual(self.browser.evaluate("window.refused"), "TypeError")
        self.browser.evaluate(
            "(() => { const s = document.createElement('style'); s.textContent = 'body{color:red}';"
            " document.head.append(s) })()")
        self.assertNotEqual(self.browser.evaluate("getComputedStyle(document.body).color"),
                            "rgb(255, 0, 0)")

    def test_a_page_of_elsewhere_gets_nothing(self) -> None:
        elsewhere = http.server.ThreadingHTTPServer(("127.0.0.1", 0), Elsewhere)
        thread = threading.Thread(target=elsewhere.serve_forever)
        thread.start()
        self.addCleanup(thread.join)
        self.addCleanup(elsewhere.server_close)
        self.addCleanup(elsewhere.shutdown)
        self.browser.go(f"http://127.0.0.1:{elsewhere.server_port}/")
        for mode in ("cors", "no-cors"):
            fetched = self.browser.evaluate(
                f"fetch('{self.web.url}rest', {{mode: '{mode}'}}).then(() => 'came', "
                "() => 'failed')")
            self.assertEqual((mode, fetched), (mode, "failed"))
        self.assertIn("ERR_BLOCKED_BY_RESPONSE.NotSameOrigin", "".join(self.browser.log))
        self.browser.evaluate(f"location.href = '{self.web.url}{self.link(ENDLESS)}'")
        self.browser.wait_for("document.getElementById('count')?.textContent")
        self.assertIn("was not run", self.text("status"))


class Elsewhere(http.server.BaseHTTPRequestHandler):
    """A page of another server."""

    def do_GET(self) -> None:
        self.send_response(200)
        self.send_header("Content-Type", "text/html")
        self.end_headers()
        self.wfile.write(b"<!doctype html><title>elsewhere</title>")

    def log_message(self, *_: object) -> None:
        """Prints nothing."""


del LibraryTest, PageTest

if __name__ == "__main__":
    unittest.main()
