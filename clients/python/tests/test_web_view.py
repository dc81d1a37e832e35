"""What the page gets of an answer: items with their XML in lines and their trees, and tables."""

import json
import unittest

from tests.test_random import Documents
from xqs import Item, Node, NodeKind, values
from xqs.web_table import table_of
from xqs.web_view import as_json, as_page_json
from xqs.xml_out import atom_text, xml

SOME = 'element a {attribute b {"}"}, comment {"{"}, element c {text {"t"}}}, 1, "x<", comment {""}'


def node_of(tree: list[object]) -> Node:
    """A node in a tree of the page."""
    kind, name, *rest = tree
    node = Node(NodeKind(str(kind)), str(name))
    if len(rest) == 1:
        node.value = str(rest[0])
        return node
    attributes, children = rest
    assert isinstance(attributes, list) and isinstance(children, list)
    node.attributes = dict(zip(attributes[0::2], attributes[1::2], strict=True))
    node.children = [node_of(child) for child in children]
    return node


class ViewTest(unittest.TestCase):
    """The JSON of an answer."""

    def check(self, text: str) -> None:
        """Checks an answer's trees, texts and XML against the package's own reading."""
        page, plain = json.loads(as_page_json(text, "keep")), json.loads(as_json(text, "keep"))
        self.assertEqual(page["constructors"], text)
        items = values(text)
        self.assertEqual(len(page["items"]), len(items))
        for item, seen, short in zip(items, page["items"], plain, strict=True):
            self.check_item(item, seen)
            exact = "".join(seen["xml"][1::2])
            self.assertEqual(short, {"type": seen["type"], "text": seen["text"], "xml": exact})

    def check_item(self, item: Item, seen: dict[str, list[object]]) -> None:
        """Checks one item."""
        self.assertEqual("".join(map(str, seen["xml"][1::2])), xml(item))
        if isinstance(item, Node):
            self.assertEqual(node_of(seen["tree"]), item)
            self.assertEqual(seen["text"], item.text)
        else:
            self.assertEqual((seen["tree"], seen["text"]), (None, atom_text(item)))

    def test_items_of_each_kind(self) -> None:
        for text in ("()", SOME, 'document {comment {"x"}, element a {}}', "document {}", "true()",
                     'element style {text {"body { color: red }"}}', 'attribute a {"""&amp;"}',
                     'xs:untypedAtomic(""), -2.5, xs:integer("-9223372036854775808")',
                     'document {text {"a"}, element __proto__ {attribute x {""}}}',
                     'processing-instruction p {""}, text {"&#xD;"}'):
            with self.subTest(text=text):
                self.check(text)

    def test_random_nodes(self) -> None:
        for seed in range(150):
            node = Documents(seed).element(4)
            with self.subTest(seed=seed):
                self.check(node.constructor())
                self.check(Node(NodeKind.DOCUMENT, children=[node, node]).constructor())

    def test_names_with_a_colon(self) -> None:
        text = 'element p__a {attribute xmlns__p {"u"}, text {"x__y"}}'
        [item] = json.loads(as_page_json(text, "flat"))["items"]
        self.assertEqual(item["tree"][:3], ["element", "p:a", ["xmlns:p", "u"]])
        self.assertEqual(item["xml"], [0, '<p:a xmlns:p="u">x__y</p:a>'])


class LinesTest(unittest.TestCase):
    """XML in lines."""

    def lines(self, text: str) -> list[tuple[int, str]]:
        """The lines of the first item."""
        found = json.loads(as_page_json(text, "keep"))["items"][0]["xml"]
        return list(zip(found[0::2], found[1::2], strict=True))

    def test_elements_in_lines(self) -> None:
        self.assertEqual(
            self.lines('document {element a {element b {element c {}}, text {"\n "}, element d '
                       '{text {" "}}, comment {"e"}}, processing-instruction p {""}}'),
            [(0, "<a>"), (1, "<b>"), (2, "<c/>"), (1, "</b>"), (-1, "\n "), (1, "<d> </d>"),
             (1, "<!--e-->"), (0, "</a>"), (0, "<?p?>")])

    def test_texts_stay_as_they_are(self) -> None:
        for text in ('element a {text {"x"}, element b {element c {}}}',
                     'element a {element b {element c {}}, text {"x"}}',
                     'element a {attribute xml__space {"preserve"}, element b {}}',
                     'element a {text {" "}}', 'attribute a {"1"}', '"a"', "document {}"):
            with self.subTest(text=text):
                lines = self.lines(text)
                self.assertLessEqual(len(lines), 1)

    def test_a_mixed_element_among_others(self) -> None:
        self.assertEqual(
            self.lines('element a {element b {text {"x"}, element c {}}, '
                       'element d {element e {}}}'),
            [(0, "<a>"), (1, "<b>x<c/></b>"), (1, "<d>"), (2, "<e/>"), (1, "</d>"), (0, "</a>")])


class TableTest(unittest.TestCase):
    """Sequences that make tables."""

    def test_elements_with_the_same_parts(self) -> None:
        text = ('element r {attribute k {"1"}, element n {text {"A"}}, element v {text {"2.5"}}}, '
                'element r {attribute k {"2"}, text {"\n"}, element v {text {" -7 "}}}')
        self.assertEqual(table_of(values(text), "keep"), {
            "columns": ["@k", "n", "v"], "kinds": ["number", "text", "number"],
            "rows": [["1", "A", "2.5"], ["2", None, " -7 "]]})

    def test_texts_and_numbers_in_turns(self) -> None:
        self.assertEqual(table_of(values('"a", 1, xs:untypedAtomic("b"), 2.5'), "keep"), {
            "columns": ["1", "2"], "kinds": ["text", "number"],
            "rows": [["a", "1"], ["b", "2.5"]]})

    def test_elements_with_a_text_alone(self) -> None:
        table = table_of(values('element p__t {text {"a"}}, element p__t {}'), "flat")
        self.assertEqual(table, {"columns": ["p:t"], "kinds": ["text"], "rows": [["a"], [""]]})

    def test_what_is_no_table(self) -> None:
        for text in ("()", "1, 2", '"a", "b"', '"a", 1, "b"', "document {element a {}}",
                     "element a {element b {element c {}}}", "element a {}, 1", '"a", true()',
                     'element a {text {"x"}, element b {}}', "element a {}, element b {}",
                     "element a {element b {}, element b {}}",
                     'element a {element b {attribute c {"1"}}}'):
            with self.subTest(text=text):
                self.assertIsNone(table_of(values(text), "keep"))


if __name__ == "__main__":
    unittest.main()
