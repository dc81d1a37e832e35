"""Names with a prefix in queries over flat names, and in their results."""

import asyncio
import unittest
from pathlib import Path

from tests.support import CommandTest, ServerTest, server_command
from xqs import Node, aio, values
from xqs.prefixed import PrefixFault, flat_query, flattened, prefixed, prefixed_text
from xqs.stores import store_xml
from xqs.tokens import tokens
from xqs.xml_in import XmlChoices
from xqs.xml_names import Names

MAPPED = {
    "//dc:title": "//dc__title",
    'doc("a:b")//dc:title/@xlink:href': 'doc("a:b")//dc__title/@xlink__href',
    "child::dc:a[self::x:y]": "child::dc__a[self::x__y]",
    "element(dc:x) | attribute(xlink:href)": "element(dc__x) | attribute(xlink__href)",
    'element dc:title {attribute xlink:href {"a:b"}}':
        'element dc__title {attribute xlink__href {"a:b"}}',
    'attribute xmlns {"u"}, attribute xmlns:p {"v"}, @xmlns, @xmlns:p':
        'attribute xmlns__ {"u"}, attribute xmlns__p {"v"}, @xmlns__, @xmlns__p',
    "processing-instruction(p:q)": "processing-instruction(p__q)",
    "//xs:element[xs:integer(@a:n) = 1]": "//xs__element[xs:integer(@a__n) = 1]",
    "for $x in a:b return$x/c:d": "for $x in a__b return$x/c__d",
    "//हिन्दी:a, //日本:語": "//हिन्दी__a, //日本__語",
    "a-1:b.c/d": "a-1__b.c/d",
    'p:a[x:y="1:2"]': 'p__a[x__y="1:2"]',
}
SAME = (
    'xs:integer("1"), fn:count((1, 2)), "a" => fn:concat("b")', "fn:count (: c :) (1)",
    '"""a:b""" || \'it\'\'s c:d\' || "&quot;e:f"', "(: a:b (: c:d :) e:f :) 1", "$dc:x", "$xmlns",
    "local:f(1)", "child::a", "dc__title", "1 - 1", "(: a:b", '"a:b', "a : b", "", "\x00a:b",
)


class Mapping(unittest.TestCase):
    def test_names_of_nodes_are_mapped(self) -> None:
        for text, flat in MAPPED.items():
            self.assertEqual(flat_query(text), flat)

    def test_anything_else_stays(self) -> None:
        for text in SAME:
            self.assertEqual(flat_query(text), text)

    def test_what_flat_names_can_not_say_is_refused_with_its_place(self) -> None:
        for text, why in (
            ("1,\n //p:*", '2:4: the language has no p:*; names by prefix are *[starts-with(name('),
            ("@p:*", "1:2: the language has no p:*"),
            ("//*:a", '1:3: the language has no *:a; names under any prefix are *[name() = "a" or'),
            ("//a__b:c", "1:3: the name a__b:c has __"),
            ("//p_:a", "1:3: the prefix of p_:a ends in _"),
        ):
            with self.subTest(text), self.assertRaises(PrefixFault) as caught:
                flat_query(text)
            self.assertTrue(str(caught.exception).startswith(why), caught.exception)

    def test_places_are_those_of_the_text_as_it_was_written(self) -> None:
        text = "a:b, xmlns, c, $d:e"
        flat = flattened(text)
        self.assertEqual(flat.text, "a__b, xmlns__, c, $d:e")
        for word in ("xmlns", "c,", "$d"):
            self.assertEqual(flat.place(flat.text.index(word)), text.index(word))
        self.assertEqual(flat.place(len(flat.text)), len(text))

    def test_items_and_texts_have_prefixes_again_and_strings_stay(self) -> None:
        text = ('element a__b {attribute xmlns__ {"a__b"}, text {"c__d"}, comment {"e__f"}}, '
                '"g__h", xs:untypedAtomic("i__j"), 1, -2, 2.5, true(), text {"k"}, text {"l"}, '
                'xs:integer("-9223372036854775808"), processing-instruction m__n {""}, '
                'attribute xml__lang {"o__p"}, document {element _q__r {}, element __s {}}')
        shown = (text.replace("a__b {", "a:b {").replace("xmlns__", "xmlns")
                 .replace("m__n", "m:n").replace("xml__lang", "xml:lang").replace("_q__r", "_q:r"))
        self.assertEqual(prefixed_text(text), shown)
        self.assertEqual(flat_query(shown), text)
        nodes = [it for it in map(prefixed, values(text)) if isinstance(it, Node)]
        self.assertEqual(", ".join(map(str, nodes)), ", ".join(
            str(it) for it in values(shown) if isinstance(it, Node)))
        self.assertEqual(prefixed_text("()"), "()")

    def test_names_are_those_of_the_fifth_edition(self) -> None:
        self.assertEqual([it.text for it in tokens("คำ·a\u0300, ªb")], ["คำ·a\u0300", ",", "ª"])


class Asked(ServerTest):
    def test_query_with_prefixes_over_a_flat_document(self) -> None:
        text = b'<r xmlns="u" xmlns:dc="v" xmlns:xl="w"><dc:title xl:href="h">T:t</dc:title></r>'
        store_xml(self.server, "a", [text], choices=XmlChoices(Names.FLAT))
        found = self.server.query_text(flat_query('doc("a")//dc:title, doc("a")/r/@xmlns:dc'))
        self.assertEqual(prefixed_text(found), (
            'element dc:title {attribute xl:href {"h"}, text {"T:t"}}, attribute xmlns:dc {"v"}'))
        self.assertEqual(self.server.query('doc("a")/r/@xmlns/string()', names="flat"), ["u"])
        asked = 'doc("a")//dc:title, "dc__title"'
        title, name = self.server.query(asked, names="flat")
        assert isinstance(title, Node)
        self.assertEqual((title.name, title["xl:href"], name), ("dc:title", "h", "dc__title"))
        self.assertEqual(list(self.server.iterate(asked, names="flat")), [title, name])
        with self.assertRaises(ValueError):
            self.server.query("1", names="local")

    def test_asyncio(self) -> None:
        async def ask() -> list[object]:
            async with await aio.connect(server_command()) as client:
                await client.store("a", "document {element dc__t {}}")
                return list(await client.query('doc("a")/dc:t', names="flat"))

        [node] = asyncio.run(ask())
        self.assertEqual(str(node), "element dc:t {}")


class ByCommand(CommandTest):
    def test_query_is_written_and_shown_with_prefixes(self) -> None:
        file: Path = self.write("a.xml", '<r xmlns:dc="v"><dc:t>x</dc:t></r>')
        self.assertEqual(self.run_command("store", "a", file, "--names", "flat")[0], 0)
        ask = ("query", "--names", "flat")
        self.assertEqual(self.run_command(*ask, 'doc("a")//dc:t, "dc__t"')[1],
                         'element dc:t {text {"x"}}, "dc__t"\n')
        self.assertEqual(self.run_command(*ask, "--xml", 'doc("a")//dc:t')[1], "<dc:t>x</dc:t>\n")
        status, out, said = self.run_command(*ask, 'doc("a")//dc:t, conut(1)')
        self.assertEqual((status, out), (1, ""))
        self.assertIn("1:17: there is no function conut", said)
        self.assertIn('doc("a")//dc:t, conut(1)', said)
        self.assertIn("1:11: the language has no dc:*", self.run_command(*ask, 'doc("a")//dc:*')[2])


if __name__ == "__main__":
    unittest.main()
