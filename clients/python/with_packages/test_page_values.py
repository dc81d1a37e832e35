"""The page shows and copies what the server has given, character for character.

A hundred awkward values are queried in the page, in headless Chromium. What the page shows, and
what the button Copy gives, is compared with the server's reply over another connection, and with
what the package reads and writes of that.
"""

import unittest

from pages import PageTest
from tests.serving import RunningMux
from xqs import Client, Node, connect
from xqs.values import Item, NodeKind
from xqs.xml_out import atom_text, xml

TEXTS = (
    "", " ", "\t", "\n", "  two  spaces  ", "\n  a line\n", "a\rb", "\r\n", "{", "}", "{}", "}{",
    "body { color: red }", "text {\"x\"}", "element a {}", ", ", "()", '"', '""', '"""', "'",
    "&", "&amp;", "&#xD;", "&#65;", "&quot;", "<", ">", "]]>", "<![CDATA[x]]>", "<!-- c -->",
    "<?p q?>", "<b>bold</b>", "</style>", "<script>document.title='hacked'</script>",
    "<img src=x onerror=document.title='hacked'>", "\u202eabc", "\u05d0\u05d1 (\u05d2)",
    "\u0645\u0631\u062d\u0628\u0627 <a/>", "\u200f\u200e\u2066x\u2069", "\x7f\x80\x85\x9f",
    "\u2028\u2029", "\ufeff", "\ufffd", "\ue000", "\U0001f600\U0001d11e", "e\u0301\u0300",
    "\u200d\u200b", "a\u00a0b", "\u3000", "${x}", "`", "\\", "\\n", "%0A", "javascript:1",
    "null", "undefined", "NaN", "__proto__", "constructor", "true()", "-0", "1e5", "00",
)
NODES = (
    'document {comment {"x"}, element a {}}', "document {}", "document {element a {}}",
    'document {comment {"}"}, processing-instruction p {"{"}, element a {}, comment {"\\"}}',
    'document {text {"only"}}', 'document {element a {}, element b {}}', "element a {}",
    'element style {"body { color: red }"}', 'element a {attribute b {"{"}, attribute c {"}"}}',
    'element a {attribute b {""}, attribute c {" "}, attribute d {"&#9;&#10;&#13;"}}',
    'attribute x {"<&amp;"">"}', 'attribute p__x {"1"}', 'element p__a {attribute xmlns__p {"u"}}',
    'element __a {}, element a__ {}, element a_b__c__d {}', "element a-b.c_d {}",
    'comment {""}', 'comment {" c "}', 'comment {"<a/> &amp; { } "" "}', 'text {""}', 'text {" "}',
    'processing-instruction p {""}', 'processing-instruction p {"a=""1"" {"}',
    'processing-instruction p {" "}', 'element a {text {"x"}, element b {}, text {"y"}}',
    'element a {" ", element b {}, "\n  ", element c {"\n"}, " "}', 'element a {" "}',
    'element a {attribute xml__space {"preserve"}, " ", element b {}, " "}',
    'element \u00e9\u05d0 {attribute \u00fc {"\u00df"}}',
    "for $n in 1 to 1000 return element i {$n}", "1 to 1000", "(1, 2.5, -2.5, 0.000001)",
    'xs:integer("-9223372036854775808"), 9223372036854775807, 999999999999.999999',
    "true(), false()", 'xs:untypedAtomic("u { "" &amp;"), xs:untypedAtomic("")', "()",
    'document {element a {}}, "{", 1, attribute b {"c"}, comment {"d"}, true()',
    'element deep {element b {element c {element d {element e {element f {"{}"}}}}}}',
)
LONG = 'string-join(for $n in 1 to 120000 return "{<é&amp;}""01234567890123456789012345678901")'


def literal(text: str) -> str:
    """A text as a string literal of a query."""
    escaped = text.replace("&", "&amp;").replace("\r", "&#xD;").replace('"', '""')
    return f'"{escaped}"'


def parts_of(item: Item) -> list[str]:
    """The values of an item in the tree, in order, if each is short."""
    if not isinstance(item, Node):
        return [atom_text(item)]
    if item.kind not in (NodeKind.DOCUMENT, NodeKind.ELEMENT):
        return [item.value]
    below = [part for child in item.children for part in parts_of(child)]
    return [*item.attributes.values(), *below]


def is_shown(part: str) -> bool:
    """Whether the tree shows a value as it is, without signs for white space."""
    return bool(part.strip()) or not part


class Values(PageTest):
    """What the page shows and copies."""

    client: Client

    @classmethod
    def setUpClass(cls) -> None:
        mux = cls.enterClassContext(RunningMux(on_file=False))
        cls.client = cls.enterClassContext(connect(mux.place))
        cls.place = mux.place
        super().setUpClass()
        cls.browser.go(cls.web.url)

    def check(self, query: str) -> None:
        """Checks all forms of a query's answer in the page."""
        reply, items = self.client.query_text(query), self.client.query(query)
        self.run_query(query)
        self.assertEqual(self.all("#refusal", "it.hidden"), [True])
        self.assertEqual(self.shown("constructors"), reply)
        self.assertEqual(self.copied("constructors"), reply)
        text = "\n".join(it.text if isinstance(it, Node) else atom_text(it) for it in items)
        self.assertEqual(self.shown("text"), text)
        self.assertEqual(self.copied("text"), text)
        exact = "\n".join(xml(it) for it in items)
        self.assertEqual(self.copied("xml"), exact)
        self.browser.evaluate("document.getElementById('indented').checked = false")
        self.assertEqual(self.shown("xml"), exact)
        self.browser.evaluate("document.getElementById('indented').checked = true")

    def check_tree(self, query: str) -> None:
        """Checks the values in the tree of an answer."""
        self.click("tab-tree")
        expected = [part for item in self.client.query(query) for part in parts_of(item)]
        seen = self.all("#panel .line")
        joined = "\n".join(seen)
        for part in filter(is_shown, expected[:200]):
            self.assertIn(part, joined)

    def check_all(self, queries: list[str]) -> None:
        """Checks each query."""
        for query in queries:
            with self.subTest(query=query[:100]):
                self.check(query)
                self.check_tree(query)

    def test_texts_that_are_awkward(self) -> None:
        self.check_all([f"element style {{{literal(text)}}}, {literal(text)}" for text in TEXTS])

    def test_attributes_that_are_awkward(self) -> None:
        self.check_all([f"element a {{attribute b {{{literal(text)}}}}}" for text in TEXTS])

    def test_nodes_that_are_awkward(self) -> None:
        self.check_all(list(NODES))

    def test_a_text_of_five_megabytes(self) -> None:
        self.assertGreater(len(self.client.query_text(LONG)), 5_000_000)
        self.check(LONG)
        self.check(f"element a {{{LONG}}}")

    def test_nothing_of_a_value_is_run(self) -> None:
        self.assertEqual(self.browser.evaluate("document.title"), "xqs")
        self.assertEqual(self.browser.log, [])


if __name__ == "__main__":
    unittest.main()
