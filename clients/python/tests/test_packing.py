"""Parts of long documents hold their nodes as texts, and the join makes the nodes again."""

import re
import unittest
from unittest import mock

from tests.support import ServerTest, store_part
from tests.test_random import Documents, plain
from xqs import Refused, packing
from xqs.incoming import constructor_parts
from xqs.packing import ATTRIBUTE, TEXT, packed_element, packed_leaf, unpacked
from xqs.parts import DocumentText
from xqs.stores import store_constructors, store_xml
from xqs.temporary import Temporary
from xqs.values import events

SMALL = mock.patch.multiple(packing, DEEPEST=2, LONGEST=120, SHORT=60, MOST_NODES=3)
"""A context in which texts have little room."""


def nested(depth: int, inner: str) -> str:
    """A node inside this number of elements."""
    return "element e {" * depth + inner + "}" * depth


@mock.patch.object(packing, "LEAST_PART", 0)
class Packing(ServerTest):
    def stored_in_parts(self, text: str, limit: int) -> str:
        """A document, read back after it was stored in parts of this number of bytes; and the
        parts."""
        document = DocumentText(Temporary(), limit)
        parts = list(constructor_parts(document, events(text)))
        for part in parts:
            store_part(self.server, part.address, part.text)
        self.server.store("y", document.whole())
        for part in parts:
            self.server.drop(part.address)
        self.parts = "".join(it.text for it in parts)
        return self.server.query_text('doc("y")')

    def check(self, content: str, limit: int = 400) -> None:
        """Stores a document with this content between others, and reads it back."""
        many = ", ".join(f'element r {{attribute n {{"{it}"}}, text {{"é""&amp;<"}}}}'
                         for it in range(40))
        self.server.store("x", f"document {{element t {{{many}, {content}, {many}}}}}")
        text = self.server.query_text('doc("x")')
        self.assertEqual(self.stored_in_parts(text, limit), text)
        self.assertIn("element s {", self.parts)

    def test_documents_by_chance(self) -> None:
        for seed in range(25):
            node = plain(Documents(seed).element(4))
            self.server.store("x", f"document {{element a {{{node}, {node}, {node}}}}}")
            text = self.server.query_text('doc("x")')
            with self.subTest(seed=seed):
                self.assertEqual(self.stored_in_parts(text, 150), text)
            with self.subTest(seed=seed, small=True), SMALL:
                self.assertEqual(self.stored_in_parts(text, 150), text)

    def test_what_has_no_room_in_a_text(self) -> None:
        for content in (
            'text {"' + "t" * 9_001 + '"}', 'comment {"' + "日" * 9_001 + '"}',
            'element a {attribute b {"' + "v" * 9_001 + '"}}',
            f"element {'n' * 100} {{}}", f"element {'n' * 99} {{attribute {'m' * 99} {{\"\"}}}}",
            "element a {" + ", ".join(["element b {}"] * 1_000) + "}",
            "element a {" + ", ".join(["element b {}"] * 999) + "}",
            'element a {text {"' + "t" * 9_000 + '"}}', nested(8, "comment {\"c\"}"),
            nested(9, 'text {"t"}'), nested(7, 'element e {attribute a {""}}'),
            nested(98, 'text {"t"}'), nested(97, "element e {}"),
            'processing-instruction p {"q"}, element a {comment {""}}, text {"&#xD;"}',
        ):
            with self.subTest(content[:60]):
                self.check(content)

    def test_parts_of_one_run_stay_in_their_order(self) -> None:
        self.check(", ".join(f'element r {{"{it}"}}' for it in range(2_000)), 300)
        self.assertGreater(len(re.findall("element s", self.parts)), 100)

    def test_runs_at_any_depth(self) -> None:
        records = ", ".join(f'element r {{text {{"{it}"}}}}' for it in range(200))
        for depth in (1, 2, 50, 57, 58, 59, 60, 61, 90, 97):
            text = f"document {{{nested(depth, records)}}}"
            with self.subTest(depth):
                self.assertEqual(self.stored_in_parts(text, 300), text)
                self.assertEqual("element s {" in self.parts, depth <= 60)

    def test_nodes_beside_the_root_element(self) -> None:
        many = ", ".join(f'comment {{"{it}"}}' for it in range(200))
        deep = nested(99, 'comment {"c"}')
        for text in (f"document {{{many}, element a {{}}, {many}}}",
                     f"document {{{many}, {deep}, {many}}}"):
            self.assertEqual(self.stored_in_parts(text, 300), text)

    def test_a_document_of_many_records_has_few_nodes_in_parts(self) -> None:
        records = b"".join(b"<r n='%d'><a>%d</a><b/></r>" % (it, it) for it in range(25_000))
        with mock.patch("xqs.stores.Sender._drop"):
            stored = store_xml(self.server, "x", [b"<t>", records, b"</t>"])
        self.assertGreater(stored.parts, 0)
        [nodes] = self.server.query(
            'count((collection() except doc("x"))/descendant-or-self::node())')
        assert isinstance(nodes, int)
        self.assertLess(nodes, stored.nodes // 4)
        self.assertEqual(self.server.query('count(doc("x")//r[@n = a])'), [25_000])

    def test_a_long_document_of_constructors(self) -> None:
        records = ", ".join(f'element r {{attribute n {{"{it}"}}, "{it}"}}' for it in range(25_000))
        store_constructors(self.server, "x", f"document {{element t {{{records}}}}}")
        self.assertEqual(self.server.query('count(doc("x")//r[@n = string(.)])'), [25_000])
        self.assertEqual(self.server.list(), ["x"])

    def test_no_node_is_lost_where_the_texts_are_wrong(self) -> None:
        records = b"<r>1</r>" * 60_000
        wrong = unpacked(["a"]).replace("substring($c0, 1, 3)", "'001'")
        with mock.patch("xqs.parts.unpacked", lambda them: wrong.replace(
                'doc("a")/*', ", ".join(f'doc("{it}")/*' for it in them))), \
                self.assertRaises(Refused) as caught:
            store_xml(self.server, "x", [b"<t>", records, b"</t>"])
        self.assertEqual(caught.exception.code, "prof:NOTDOC")
        self.assertEqual(self.server.list(), [])


class Texts(unittest.TestCase):
    def test_the_text_of_a_list(self) -> None:
        name, text = packed_leaf(ATTRIBUTE, "n", "1"), packed_leaf(TEXT, "", "ab")
        self.assertEqual(packed_element("e", [name, text]),
                         (1, "e", "002" + "40100260001" + "30000280002" + "n1ab", 1))
        self.assertEqual(packed_element("e", [text]), (2, "e", "ab", 1))
        self.assertEqual(packed_element("e", []), (1, "e", "000", 1))
        self.assertIsNone(packed_element("e", [name, None]))

    def test_the_expression_is_short(self) -> None:
        self.assertLess(len(unpacked(["a"])), 6_000)


if __name__ == "__main__":
    unittest.main()
