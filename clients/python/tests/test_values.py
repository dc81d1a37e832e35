"""Printed values, read and printed again."""

import re
import unittest
from decimal import Decimal

from tests.support import LIBRARY, TOP
from xqs import Misspelt, Node, NodeKind, Untyped, literal, q, values
from xqs.errors import SENTENCES
from xqs.values import Item

PAGE = (TOP / "docs" / "LANGUAGE.md").read_text()
EXAMPLE = re.compile(r"`([^`]+)`\s+gives\s+`([^`]+)`")
CODE = re.compile(r"`([A-Z]{4}\d{4}|prof:[A-Z0-9]+)`")


def printed(items: list[Item]) -> str:
    """Items as the server prints them, except for the brackets around numbers."""
    return ", ".join(re.sub(r"\A\((.*)\)\Z", r"\1", literal(it)) for it in items) or "()"


class LanguageRows(unittest.TestCase):
    def test_each_printed_row_of_the_page_is_read_and_printed_again(self) -> None:
        rows = [re.sub(r"\s*\n\s+", " ", answer) for _, answer in EXAMPLE.findall(PAGE)]
        self.assertGreater(len(rows), 90)
        for row in rows:
            with self.subTest(row):
                self.assertEqual(printed(values(row)), row)

    def test_each_code_of_the_page_has_a_sentence(self) -> None:
        protocol = (TOP / "docs" / "PROTOCOL.md").read_text()
        codes = set(CODE.findall(PAGE + protocol))
        self.assertGreater(len(codes), 40)
        self.assertEqual(codes - SENTENCES.keys(), set())


class Values(unittest.TestCase):
    def test_each_type(self) -> None:
        text = '-1, 2.50, "a""&amp;&#xD;", true(), false(), xs:untypedAtomic("u"), ()'
        items = values(text)
        self.assertEqual(items, [-1, Decimal("2.5"), 'a"&\r', True, False, "u"])
        self.assertEqual([type(it) for it in items], [int, Decimal, str, bool, bool, Untyped])
        self.assertEqual(values('xs:integer("-9223372036854775808")'), [-(2**63)])
        self.assertEqual(values("()"), [])

    def test_document(self) -> None:
        [document] = values(LIBRARY)
        assert isinstance(document, Node)
        self.assertEqual(str(document), LIBRARY)
        self.assertEqual(document.text, "AB")
        self.assertEqual([it["id"] for it in document.descendants("book")], ["1", "2"])

    def test_nodes_without_children(self) -> None:
        text = ('attribute a {"v"}, text {""}, comment {"c"}, processing-instruction p {""}, '
                "document {}, element e {}")
        self.assertEqual(printed(values(text)), text)
        self.assertEqual(values(text)[0], Node(NodeKind.ATTRIBUTE, "a", "v"))

    def test_long_text_is_read(self) -> None:
        long = 'a"' * 2_000_000
        self.assertEqual(values(literal(long)), [long])

    def test_what_is_no_printed_value_is_refused(self) -> None:
        for text in ("1 + 1", "element a {", '"a', "}", "<a/>", "1,2"):
            with self.subTest(text), self.assertRaises(Misspelt):
                values(text)


class Queries(unittest.TestCase):
    def test_values_are_bound_to_variables(self) -> None:
        self.assertEqual(q("1"), "1")
        self.assertEqual(q("$a, $b", a='"&', b=[1, Decimal("1E+2"), None, True]),
                         'let $a := """&amp;", $b := ((1), (100.0), (), true()) return ($a, $b\n)')

    def test_what_cannot_be_put_into_a_query(self) -> None:
        wrong: tuple[str | int | Decimal, ...] = ("\0", "\ud800", "\ufffe", 2**63, -(2**63) - 1,
                                                  Decimal("1e19"), Decimal("NaN"),
                                                  Decimal("0.0000001"))
        for value in wrong:
            with self.subTest(value), self.assertRaises(ValueError):
                q("$a", a=value)
        with self.assertRaises(TypeError):
            q("$a", a=1.5)  # type: ignore[arg-type]
        with self.assertRaises(ValueError):
            q("$a", **{"a := 1, $b": 2})
