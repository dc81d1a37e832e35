"""The page's tools besides answers: an editor, tabs, saved queries, folders, tables, charts, files.

`XQS_PICTURES` names a folder for pictures of the page, if they are wanted.
"""

import json
import tempfile
import unittest
from pathlib import Path

from pages import HAS_EDITOR, PageTest, devtools
from running import TOKEN
from tests.serving import RunningMux
from xqs import connect

LETTERS = 1_300
NAMES = ("Anna", "Boris", "Clara", "Dmitri", "Eva")
COUNTS = ('for $l in collection()/letter group by $from := string($l/from) '
          "order by $from return ($from, count($l))")
ROWS = ('for $l in collection()/letter[@year = "1805"] return '
        "element letter {$l/@year, $l/from, $l/words}")


class ToolsTest(PageTest):
    """Tests over the documents of an archive of letters."""

    @classmethod
    def setUpClass(cls) -> None:
        mux = cls.enterClassContext(RunningMux(on_file=False))
        cls.place = mux.place
        with connect(mux.place) as client:
            for n in range(LETTERS):
                client.store_later(f"letters/{1800 + n % 20}/{n:04}.xml", letter(n))
            client.store("catalogue.xml", f"document {{element catalogue {{{LETTERS}}}}}")
            client.list()
        super().setUpClass()

    def tab(self, number: int) -> None:
        """Chooses a query's tab."""
        self.browser.evaluate(f"document.querySelectorAll('#queries [role=tab]')[{number}].click()")


def letter(number: int) -> str:
    """The document of a letter."""
    name = NAMES[number * number % 5]
    return (f'document {{element letter {{attribute year {{"{1800 + number % 20}"}}, '
            f'element from {{"{name}"}}, element words {{{number * 7 % 411}}}}}}}')


class Queries(ToolsTest):
    """Tabs and saved queries."""

    def test_tabs_have_queries_and_answers_of_their_own(self) -> None:
        self.open("1 + 1")
        self.click("new-query")
        self.assertEqual(self.written(), "")
        self.assertEqual(self.all("#result", "it.hidden"), [True])
        self.run_query("2 * 3, 7")
        self.tab(0)
        self.assertEqual((self.written(), self.rows()), ("1 + 1", ["2"]))
        self.tab(1)
        self.assertEqual((self.written(), self.rows()), ("2 * 3, 7", ["6", "7"]))
        self.browser.evaluate("document.querySelector('#queries .close').click()")
        self.assertEqual(self.all("#queries [role=tab]"), ["Query 2"])
        self.assertEqual(self.written(), "2 * 3, 7")

    def test_tabs_last_as_the_page_is_loaded_again(self) -> None:
        self.open()
        self.write("first {")
        self.click("new-query")
        self.write("second")
        self.browser.go(self.web.url)
        self.browser.wait_for("document.querySelectorAll('#queries [role=tab]').length === 2")
        self.assertEqual(self.written(), "first {")

    def test_queries_are_saved_opened_and_deleted(self) -> None:
        self.open()
        self.write("1 + 41")
        self.click("save")
        self.browser.evaluate("document.getElementById('save-name').value = 'the <answer>'")
        self.browser.evaluate("document.getElementById('save-form').requestSubmit()")
        self.assertEqual(self.all("#saved option"), ["Saved queries", "the <answer>"])
        self.open()
        self.browser.evaluate("(saved => { saved.value = 'the <answer>';"
                              " saved.dispatchEvent(new Event('change')) })"
                              "(document.getElementById('saved'))")
        self.assertEqual(self.written(), "1 + 41")
        self.browser.evaluate("window.confirm = () => true")
        self.click("forget")
        self.assertEqual(self.all("#saved option"), ["Saved queries"])

    @unittest.skipUnless(HAS_EDITOR, "libjs-codemirror is not installed")
    def test_the_editor_has_lines_colours_and_completion(self) -> None:
        self.open()
        self.write("for $a in 1 to 3\nreturn $a")
        self.assertEqual(self.all(".CodeMirror-linenumber"), ["1", "2"])
        self.assertIn("return", self.all(".cm-keyword"))
        for text, found in (('count(doc("cat', ["catalogue.xml"]),
                            ("normalize-s", ["normalize-space"])):
            self.write(text)
            self.browser.evaluate("(editor => { editor.setCursor(99, 99); editor.showHint({"
                                  "completeSingle: false, ...editor.getOption('hintOptions')}) })"
                                  "(document.querySelector('.CodeMirror').CodeMirror)")
            self.browser.wait_for(
                "document.querySelector('.CodeMirror').CodeMirror.getValue().length > "
                f"{len(text)} || document.querySelector('.CodeMirror-hint')")
            self.assertTrue(self.written().endswith(found[0]), self.written())


class Plain(ToolsTest):
    """The page without its editor."""

    def test_a_plain_field(self) -> None:
        self.browser.call("Network.enable")
        self.browser.call("Network.setBlockedURLs", urls=["*/page/codemirror.js"])
        self.addCleanup(self.browser.call, "Network.setBlockedURLs", urls=[])
        self.open("let $a := 1\nreturn cuont($a)")
        self.assertEqual(self.all(".CodeMirror"), [])
        self.assertIn("line 2, column 8: ", self.text("words"))
        self.click("place")
        self.assertEqual(self.browser.evaluate("getSelection().toString()"), "c")
        self.browser.evaluate("document.getElementById('query').select()")
        self.browser.type("6 * 7")
        self.browser.press("Enter", devtools.CTRL)
        self.answer()
        self.assertEqual(self.rows(), ["42"])
        self.click("new-query")
        self.tab(0)
        self.assertEqual(self.written(), "6 * 7")


class Documents(ToolsTest):
    """Folders, filters, and a way to each address."""

    def labels(self) -> list[str]:
        """The visible rows of the documents."""
        rows: list[str] = self.browser.evaluate(
            "[...document.querySelectorAll('#documents .row')].filter(it => it.offsetParent)"
            ".map(it => it.querySelector('.line').textContent)")
        return rows

    def test_folders_open_and_close(self) -> None:
        self.open()
        self.assertEqual(self.text("count"), "1,301")
        labels = self.labels()
        self.assertEqual(labels[:2], ["letters/ 1,300", "1800/ 65"])
        self.assertEqual(labels[-1], "catalogue.xml")
        self.browser.evaluate("document.querySelectorAll('#documents .row')[1].click()")
        self.assertEqual(self.labels()[2], "1801/ 65")
        self.browser.evaluate("document.querySelectorAll('#documents .row')[1].click()")
        self.assertEqual(self.labels()[2], "0000.xml")
        self.browser.evaluate("document.querySelectorAll('#documents .row')[2].click()")
        self.answer()
        self.assertEqual(self.written(), 'doc("letters/1800/0000.xml")')
        self.picture("documents")

    def test_a_filter_finds_by_any_part(self) -> None:
        self.open()
        self.browser.evaluate("document.getElementById('filter').focus()")
        self.browser.type("/012")
        self.assertEqual(self.text("documents-note"), "10 found")
        self.assertEqual(len([it for it in self.labels() if it.endswith(".xml")]), 10)
        self.browser.evaluate("document.getElementById('filter').select()")
        self.browser.type("letters/1801/")
        self.assertEqual(self.text("archive"), "Download letters/1801/…")
        self.browser.evaluate("document.getElementById('filter').select()")
        self.browser.type("zz")
        self.assertEqual(self.text("documents-note"), "None of that name")

    def test_ten_thousand_addresses_are_all_reachable(self) -> None:
        with connect(self.place) as client:
            for n in range(10_000):
                client.store_later(f"many/{n:05}", "document {}")
            client.list()
            self.addCleanup(drop_all, self.place, "many/")
        self.open()
        self.assertEqual(self.text("count"), "11,301")
        self.browser.evaluate(
            "[...document.querySelectorAll('#documents .row')]"
            ".find(it => it.textContent.startsWith('▸many/') || it.textContent.includes('many/'))"
            ".click()")
        seen = self.browser.evaluate(
            "(() => { for (let n = 0; n < 60; n++)"
            " document.querySelector('#documents .more')?.click();"
            " return [...document.querySelectorAll('#documents .file')]"
            ".filter(it => /^\\d{5}$/.test(it.textContent)).length })()")
        self.assertEqual(seen, 10_000)


def drop_all(place: str, prefix: str) -> None:
    """Drops the documents below a prefix."""
    with connect(place) as client:
        for address in client.list():
            if address.startswith(prefix):
                client.drop_later(address)
        client.list()


class Tables(ToolsTest):
    """Tables and charts."""

    def test_elements_are_a_table_and_a_chart(self) -> None:
        self.open(ROWS)
        self.click("tab-table")
        self.assertEqual(self.all("#panel th"), ["@year", "from", "words"])
        with connect(self.place) as client:
            texts = client.query(
                f"for $r in ({ROWS}) return ($r/@year, $r/from, $r/words)/string()")
        self.assertEqual(self.all("#panel td"), texts)
        csv = self.copied("table").split("\r\n")
        self.assertEqual(csv[0], "@year,from,words")
        self.assertEqual(csv[1:-1], [",".join(map(str, texts[n:n + 3])) for n in range(0, 195, 3)])

    def test_texts_and_numbers_in_turns_are_a_chart(self) -> None:
        self.open(COUNTS)
        self.click("tab-chart")
        self.assertEqual(self.all("#panel .bar-label"), ["Anna", "Boris", "Eva"])
        with connect(self.place) as client:
            numbers = [str(it) for it in client.query(COUNTS)[1::2]]
        self.assertEqual(self.all("#panel .bar-number"), numbers)
        widths = self.all("#panel .bar-of", "Number(it.getAttribute('width'))")
        self.assertEqual(max(widths), widths[numbers.index(max(numbers, key=int))])
        self.picture("chart")
        self.browser.evaluate("(kind => { kind.value = 'line'; kind.dispatchEvent(new Event("
                              "'change')) })(document.querySelector('[aria-label=Kind]'))")
        self.assertEqual(self.all("#panel .point title"),
                         [f"{name}: {number}" for name, number in
                          zip(("Anna", "Boris", "Eva"), numbers, strict=True)])

    def test_other_answers_have_neither(self) -> None:
        self.open("1 to 3")
        self.assertEqual(self.all("#tab-table, #tab-chart", "it.hidden"), [True, True])

    def test_negative_numbers_and_zeros(self) -> None:
        self.open('"a", -2, "b", 0, "c", 4')
        self.click("tab-chart")
        boxes = self.all("#panel .bar-of", "[it.x.baseVal.value, it.width.baseVal.value]")
        (left, _), (zero, _), (right, _) = boxes
        self.assertLess(left, zero)
        self.assertEqual(right, zero)
        self.assertTrue(all(width > 0 for _, width in boxes))


class Files(ToolsTest):
    """Uploads and downloads of documents."""

    def choose(self, field: str, paths: list[str]) -> None:
        """Chooses files in a field, and waits until they are stored or refused."""
        node = self.browser.call(
            "Runtime.evaluate", expression=f"document.getElementById('{field}')")
        self.browser.evaluate("document.getElementById('upload-note').textContent = ''")
        self.browser.call("DOM.setFileInputFiles", files=paths,
                          objectId=node["result"]["objectId"])
        self.browser.wait_for("/stored, |error/.test(document.getElementById('upload-note')"
                              ".textContent)")
        self.browser.wait_for(
            "(([a, b, c]) => Number(a) + Number(c) === Number(b))"
            "(document.getElementById('upload-note').textContent.match(/\\d+/g))")

    def test_files_are_stored_with_the_token(self) -> None:
        self.addCleanup(drop_all, self.place, "up/")
        with tempfile.TemporaryDirectory() as name:
            folder = Path(name)
            (folder / "a b.xml").write_text("<a>é</a>")
            (folder / "c.xq").write_text("document {element c {1}}")
            (folder / "bad.xml").write_text("<a>")
            paths = [str(folder / it) for it in ("a b.xml", "c.xq", "bad.xml")]
            self.open()
            self.click("upload")
            self.browser.evaluate("document.getElementById('prefix').value = 'up/'")
            self.choose("files", paths[:1])
            self.assertIn("xqs:TOKEN", self.text("upload-refused"))
            self.browser.evaluate(f"document.getElementById('token').value = {json.dumps(TOKEN)}")
            self.choose("files", paths)
            self.assertEqual(self.text("upload-note"), "2 of 3 stored, 1 refused")
            self.assertIn("bad.xml: ", self.text("upload-refused"))
            self.picture("upload")
            self.choose("files", paths[:1])
            self.assertIn("there is a document at that address", self.text("upload-refused"))
            (folder / "a b.xml").write_text("<b/>")
            self.click("replace")
            self.choose("files", paths[:1])
        self.assertEqual(self.web.ask("GET", "/rest/up/a_x0020_b.xml").body, "<b/>")
        self.assertEqual(self.web.ask("GET", "/rest/up/c.xq").body, "<c>1</c>")

    def test_a_folder_is_stored_by_its_paths(self) -> None:
        self.addCleanup(drop_all, self.place, "home/")
        with tempfile.TemporaryDirectory() as name:
            folder = Path(name) / "home"
            (folder / "p" / "q").mkdir(parents=True)
            (folder / "p" / "q" / "a.xml").write_text("<a/>")
            (folder / "b.xml").write_text("<b/>")
            self.open()
            self.click("upload")
            self.browser.evaluate(f"document.getElementById('token').value = {json.dumps(TOKEN)}")
            self.choose("folder", [str(folder)])
        with connect(self.place) as client:
            found = [it for it in client.list() if it.startswith("home/")]
        self.assertEqual(found, ["home/b.xml", "home/p/q/a.xml"])

    def test_an_answer_is_downloaded_as_it_is_copied(self) -> None:
        self.open('element a {element b {"é{}"}}')
        self.browser.evaluate(
            "(() => { window.blobs = []; const make = URL.createObjectURL;"
            " URL.createObjectURL = blob => { blobs.push(blob); return make(blob) } })()")
        self.click("tab-xml")
        self.click("download")
        self.assertEqual(self.browser.evaluate("blobs[0].text()"), "<a><b>é{}</b></a>")


class Looks(ToolsTest):
    """Pictures: dark, light, narrow, a refusal."""

    def size(self, width: int, height: int) -> None:
        """Sets the size of the window."""
        self.browser.call("Emulation.setDeviceMetricsOverride", width=width, height=height,
                          deviceScaleFactor=1, mobile=False)

    def test_pictures(self) -> None:
        self.size(1100, 700)
        self.open(ROWS)
        self.picture("light")
        self.browser.prefer("dark")
        self.assertEqual(self.browser.evaluate("getComputedStyle(document.body).backgroundColor"),
                         "rgb(20, 23, 27)")
        self.picture("dark")
        self.browser.prefer("light")
        self.run_query("for $l in collection()/letter\nwhere $l/words > 400\nreturn cuont($l)")
        self.picture("refusal")

    def test_a_narrow_window_is_not_wider_than_it_is(self) -> None:
        self.size(380, 760)
        self.open(ROWS)
        self.assertLessEqual(self.browser.evaluate("document.documentElement.scrollWidth"), 380)
        for form in ("table", "chart", "xml"):
            self.click(f"tab-{form}")
            self.assertLessEqual(
                self.browser.evaluate("document.documentElement.scrollWidth"), 380)
        self.click("tab-tree")
        self.picture("narrow")


del ToolsTest, PageTest

if __name__ == "__main__":
    unittest.main()
