"""XML in and out: canonical forms, places of refusals, documents in parts."""

import asyncio
import io
import unittest
from xml.etree import ElementTree

from tests.support import ServerTest, long_test, server_command
from xqs import Node, Refused, aio, values
from xqs.parts import DocumentText, TooLarge
from xqs.stores import chunks_of, store_constructors, store_xml, store_xml_async
from xqs.temporary import Temporary
from xqs.values import events
from xqs.xml_in import XmlChoices, XmlFault, XmlReader
from xqs.xml_names import Names, incoming, outgoing
from xqs.xml_out import NotXml, node_events, write_document, xml

FLAT = XmlChoices(names=Names.FLAT)
BOMB = b"""<!DOCTYPE a [<!ENTITY a "ha"><!ENTITY b "&a;&a;&a;&a;&a;&a;&a;&a;&a;&a;">
%s]><a>&z;</a>""" % b"".join(
    b'<!ENTITY %c "%s">' % (after, b"&%c;" % before * 10)
    for before, after in zip(b"bcdefghijklmnopqrstuvwxy", b"cdefghijklmnopqrstuvwxyz", strict=True)
)


def constructor(text: str | bytes, choices: XmlChoices = XmlChoices(), size: int = 1 << 16,
                charset: str | None = None) -> str:
    """The constructor from XML, read in pieces of this number of bytes."""
    data = text.encode() if isinstance(text, str) else text
    reader = XmlReader("x.xml", Temporary(), choices, charset)
    for at in range(0, len(data), size):
        reader.feed(data[at : at + size])
    reader.close()
    return reader.whole


def canonical(text: str) -> str:
    """The canonical form of XML."""
    return ElementTree.canonicalize(text, with_comments=True)


def document_text(document: Node, names: str = "keep") -> str:
    """The file of a document."""
    pieces: list[str] = []
    write_document(node_events(document), pieces.append, names)
    return "".join(pieces)


class Refusals(unittest.TestCase):
    def refused(self, text: str | bytes, line: int, column: int, why: str,
                choices: XmlChoices = XmlChoices()) -> None:
        with self.assertRaises(XmlFault) as caught:
            constructor(text, choices)
        fault = caught.exception
        self.assertEqual((fault.source, fault.line, fault.column), ("x.xml", line, column))
        self.assertIn(why, fault.why)

    def test_not_well_formed(self) -> None:
        self.refused("<a>\n <b></a>", 2, 7, "mismatched tag")
        self.refused("", 1, 1, "no element")
        self.refused("<a>\0</a>", 1, 4, "invalid token")

    def test_names_with_a_colon(self) -> None:
        self.refused("<a>\n  <p:b/>\n</a>", 2, 3, "the name p:b needs namespaces")
        self.refused('<a xmlns="u"/>', 1, 1, "the name xmlns needs namespaces")
        self.refused("<a__b/>", 1, 1, "has __", FLAT)
        self.refused("<p_:a/>", 1, 1, "ends in _", FLAT)
        self.refused("<a><:b/></a>", 1, 4, "not a prefix", FLAT)
        self.refused('<a p:x="1" x="2"/>', 1, 1, "two attributes", XmlChoices(names=Names.LOCAL))

    def test_entities(self) -> None:
        text = '<!DOCTYPE a [<!ENTITY e "x">]>\n<a>&e;</a>'
        self.refused(text, 1, 25, "the entity e is declared here")
        self.assertEqual(constructor(text, XmlChoices(entities=True)),
                         'document {element a {text {"x"}}}')
        self.refused(BOMB, 1, 25, "declared here")
        self.refused('<!DOCTYPE a SYSTEM "a.dtd">\n<a>&e;</a>', 2, 4, "outside this text")
        self.refused('<!DOCTYPE a [<!ENTITY e SYSTEM "/etc/hostname">]>\n<a>&e;</a>', 2, 4,
                     "/etc/hostname, which is not read", XmlChoices(entities=True))

    def test_entities_that_are_not_known_are_refused_in_values_of_attributes_too(self) -> None:
        asked = XmlChoices(entities=True)
        why = "the entity u is declared outside this text"
        for before, tag, column in (
            ("", '<a y="1" x="&u;1"/>', 1), ("", "<a y='\"' x='1>2&u;'/>", 1),
            ('<!ENTITY f "1&u;2">', '<a x="&f;"/>', 1),
            ("<!ENTITY f \"<b y='&u;'/>\">", "<a>&f;</a>", 4),
            ('<!ENTITY f "&g;"><!ENTITY g "<b y=\'&u;\'/>">', "<a>&f;</a>", 4),
            ('<!ENTITY % p SYSTEM "p">%p;', '<a x="&u;"/>', 1),
        ):
            text = f'<!DOCTYPE a SYSTEM "a.dtd" [{before}]>\n{tag}'
            self.refused(text, 2, column, why, asked)
        default = '<!DOCTYPE a SYSTEM "a.dtd" [\n<!ATTLIST a x CDATA "1&u;">]><a/>'
        self.refused(default, 2, 21, why)
        known = '<!ENTITY f "1&g;2"><!ENTITY g "3"><!ATTLIST a y CDATA "&f;">'
        self.assertEqual(
            constructor(f'<!DOCTYPE a SYSTEM "a.dtd" [{known}]><a x="&f;&amp;&#65;"/>', asked),
            'document {element a {attribute x {"132&amp;A"}, attribute y {"132"}}}')
        self.assertEqual(
            constructor('<!DOCTYPE a SYSTEM "a.dtd"><a x="1"><![CDATA[&u;]]><!--&u;--></a>'),
            'document {element a {attribute x {"1"}, text {"&amp;u;"}, comment {"&amp;u;"}}}')

    def test_parameter_entities_of_the_text_itself_are_read(self) -> None:
        inside = "<!ENTITY % p '<!--c--><?q r?><!ATTLIST a x CDATA \"1\">'> %p;"
        self.assertEqual(constructor(f"<!DOCTYPE a [{inside}]><a/>"),
                         'document {element a {attribute x {"1"}}}')
        inside = "<!ENTITY % p '<!ENTITY u \"7\">'>\n%p;"
        self.refused(f"<!DOCTYPE a [{inside}]><a/>", 2, 1, "the entity u is declared here")
        self.assertEqual(
            constructor(f'<!DOCTYPE a [{inside}]><a x="&u;"/>', XmlChoices(entities=True)),
            'document {element a {attribute x {"7"}}}')
        bomb = "".join(f'<!ENTITY % a{at} "{f"&#37;a{at - 1};" * 10}">' for at in range(1, 9))
        self.refused(f'<!DOCTYPE a [<!ENTITY % a0 "<!--{"x" * 1000}-->">{bomb}\n%a8;]><a/>', 2, 1,
                     "amplification")

    def test_entity_bomb_that_is_asked_for_ends_soon(self) -> None:
        with self.assertRaises(XmlFault) as caught:
            constructor(BOMB, XmlChoices(entities=True))
        self.assertIn("amplification", caught.exception.why)

    def test_limits(self) -> None:
        self.assertIn("text", constructor("<a>" * 99 + "x" + "</a>" * 99))
        self.refused("<a>" * 101, 1, 301, "deeper than 100 levels")
        self.refused("<a>" * 100 + "x</a>", 1, 302, "deeper than 100 levels")

    @long_test
    def test_most_nodes(self) -> None:
        self.refused("<a>\n" + "<b/>" * 999_999, 2, 4 * 999_997 + 1, "more than 1,000,000 nodes")


class Reading(unittest.TestCase):
    def test_each_kind_of_node(self) -> None:
        text = '<?p q?><!--c--><a x="1" y="&lt;&#xA;"><b/>t&amp;"<![CDATA[<]]><?e?></a><!--d-->'
        self.assertEqual(constructor(text), (
            'document {processing-instruction p {"q"}, comment {"c"}, element a {attribute x '
            '{"1"}, attribute y {"<\n"}, element b {}, text {"t&amp;""<"}, '
            'processing-instruction e {""}}, comment {"d"}}'))

    def test_what_stands_in_a_document_type_is_no_node(self) -> None:
        kinds = "<!ELEMENT a ANY><!-- x --><?p q?><!ATTLIST a b CDATA 'c'><!-- y -->"
        for text in ("<!DOCTYPE a [<!-- x --><?p q?>]>", f"<!DOCTYPE a SYSTEM 'a.dtd' [{kinds}]>",
                     f"<!DOCTYPE a [{kinds}\n]\n>", "<!DOCTYPE a>"):
            for size in (1, 1 << 16):
                made = constructor(f"<!--1--><?i?>{text}<!--2--><?j k?><a/><!--3-->", size=size)
                self.assertEqual(made.replace('attribute b {"c"}', ""), (
                    'document {comment {"1"}, processing-instruction i {""}, comment {"2"}, '
                    'processing-instruction j {"k"}, element a {}, comment {"3"}}'))

    def test_pieces_of_any_size(self) -> None:
        text = "<a é='日'>日本<!--\U0001f600-->\r\n&#13;</a>"
        whole = constructor(text)
        for size in (1, 2, 3, 5):
            self.assertEqual(constructor(text, size=size), whole)

    def test_encodings(self) -> None:
        for name in ("utf-8", "utf-16", "iso-8859-1", "windows-1252"):
            text = f"<?xml version='1.0' encoding='{name}'?><a>é</a>"
            self.assertEqual(constructor(text.encode(name)), 'document {element a {text {"é"}}}')

    def test_white_space(self) -> None:
        text = "<a> <b>\n</b><c xml:space='preserve'> <d/> </c> x </a>"
        stripped = constructor(text, XmlChoices(Names.FLAT, strip=True))
        self.assertEqual(stripped, (
            'document {element a {element b {}, element c {attribute xml__space {"preserve"}, '
            'text {" "}, element d {}, text {" "}}, text {" x "}}}'))
        self.assertIn('text {" "}, element b {text {"\n"}}', constructor(text, FLAT))

    def test_default_values_of_the_internal_subset_are_kept(self) -> None:
        text = '<!DOCTYPE a [<!ATTLIST a x CDATA "1">]><a/>'
        self.assertEqual(constructor(text), 'document {element a {attribute x {"1"}}}')

    def test_local_names(self) -> None:
        text = '<p:a xmlns:p="u" xmlns="v" p:x="1"/>'
        self.assertEqual(constructor(text, XmlChoices(names=Names.LOCAL)),
                         'document {element a {attribute x {"1"}}}')

    def test_flat_names_are_turned_back(self) -> None:
        flat = incoming(Names.FLAT)
        for name in ("a", "p:a", "p:_a", "p-_q:a", "xmlns", "xmlns:p", "_a", "a_"):
            self.assertEqual(outgoing(flat(name)), name)
        self.assertEqual([outgoing(it) for it in ("__a", "a__", "__")], ["__a", "a__", "__"])


class Writing(unittest.TestCase):
    def test_texts_and_values_are_escaped(self) -> None:
        text = '<a x="&quot;&lt;&amp;&#x9;&#xA;&#xD;">&lt;]]&gt;&amp;&#xD;\n"</a>'
        [document] = values(constructor(text))
        self.assertEqual(xml(document), text)

    def test_items_that_are_no_documents(self) -> None:
        items = values('attribute p__a {"<"}, text {"<"}, true(), 1.5, "&amp;", element p__a {}')
        self.assertEqual([xml(it, "flat") for it in items],
                         ['p:a="&lt;"', "&lt;", "true", "1.5", "&amp;", "<p:a/>"])
        self.assertEqual(xml(items[-1]), "<p__a/>")

    def test_documents_that_are_no_xml_are_refused(self) -> None:
        for text, why in (
            ("document {}", "no element"),
            ("document {element a {}, element b {}}", "several elements"),
            ('document {element a {}, text {" "}}', "a text at its top"),
            ('document {element a {comment {"&#xD;"}}}', "carriage return"),
        ):
            [document] = values(text)
            assert isinstance(document, Node)
            with self.subTest(text), self.assertRaisesRegex(NotXml, why):
                document_text(document)

    def test_canonical_form_stays(self) -> None:
        for text in (
            '<?p q?><!--c--><a x="1"><b/>t<?e?></a><!--d-->',
            '<p:a xmlns:p="u" xmlns="v" p:x="1" y="&#xD;&#x9;"><b xmlns=""/></p:a>',
            "<a>\r\n&#13;&#x85;\u2028 ]]&gt; é\U0001f600</a>",
        ):
            [document] = values(constructor(text, FLAT))
            assert isinstance(document, Node)
            self.assertEqual(canonical(document_text(document, "flat")), canonical(text))


class Parts(unittest.TestCase):
    def test_each_part_holds_about_its_limit(self) -> None:
        temporary = Temporary()
        document = DocumentText(temporary, 1_000)
        document.open("a")
        for number in range(300):
            document.open("b")
            document.attribute("n", str(number))
            document.text('&"\r' * (number % 90))
            document.close()
        document.close()
        parts = document.take_parts()
        self.assertEqual([it.address for it in parts], temporary.given())
        self.assertGreater(len(parts), 30)
        self.assertLess(max(len(it.text) for it in parts), 1_300)
        made = "".join(it.text for it in parts) + document.whole()
        self.assertEqual(made.count("element b {"), 300)
        self.assertTrue(all(made.count(f'doc("{it.address}")') == 1 for it in parts))

    def test_nodes_are_counted_as_they_will_be(self) -> None:
        document = DocumentText(Temporary())
        document.open("a")
        for _ in range(5):
            document.text("x")
        document.text("")
        document.comment("c")
        document.text("y")
        self.assertEqual(document.nodes, 5)

    def test_too_deep(self) -> None:
        document = DocumentText(Temporary())
        for _ in range(100):
            document.open("a")
        with self.assertRaises(TooLarge):
            document.attribute("x", "1")


class Chunks(unittest.TestCase):
    def test_pieces_grow_so_that_long_tokens_are_not_read_again_too_often(self) -> None:
        pieces = [len(it) for it in chunks_of(io.BytesIO(b"x" * 20_000_000))]
        self.assertEqual(sum(pieces), 20_000_000)
        self.assertEqual(pieces[0], 1 << 16)
        self.assertLess(len(pieces), 40)


class Stores(ServerTest):
    def stored_as(self, text: str, choices: XmlChoices = XmlChoices()) -> int:
        """Stores XML, and compares canonical forms. Returns the number of parts."""
        stored = store_xml(self.server, "x", [text.encode()], "x.xml", choices)
        self.assertEqual(self.server.list(), ["x"])
        [document] = self.server.query('doc("x")')
        assert isinstance(document, Node)
        self.assertEqual(stored.nodes, self.server.query(
            'count((doc("x")/descendant-or-self::node(), doc("x")//@*))')[0])
        self.assertEqual(canonical(document_text(document, "flat")), canonical(text))
        return stored.parts

    def test_small_document_goes_as_one(self) -> None:
        self.assertEqual(self.stored_as('<p:a xmlns:p="u"><!--c-->t</p:a>', FLAT), 0)
        self.assertTrue(store_xml(self.server, "x", [b"<a/>"]).replaced)

    def test_document_over_two_megabytes(self) -> None:
        books = "".join(f'<book id="{it}"><title>{"T &amp; " * 60}"{it}"</title>x</book>'
                        for it in range(5_000))
        self.assertGreater(len(books), 2_400_000)
        self.assertGreater(self.stored_as(f"<lib>{books}</lib>"), 1)

    def test_long_texts_and_values(self) -> None:
        long = '&amp;é"\U0001f600' * 200_000
        self.assertGreater(self.stored_as(f"<a><b>{long}</b>x{long}</a>"), 4)
        self.assertGreater(self.stored_as(f"<a x='{long}' y='{long}'><b/></a>"), 4)
        self.assertGreater(self.stored_as(f"<a><!--{long}--><?p {long}?></a>"), 4)

    def test_many_attributes(self) -> None:
        values_ = " ".join(f'a{it}="{"v" * 1_000}"' for it in range(3_000))
        self.assertGreater(self.stored_as(f"<a {values_}><b {values_}/>t</a>"), 4)

    def test_deep_document_in_parts(self) -> None:
        inner = "".join(f"<l{it}>{'x' * 200_000}" for it in range(60))
        outer = "".join(f"{'y' * 20_000}</l{it}>" for it in reversed(range(60)))
        self.assertGreater(self.stored_as(inner + outer), 10)

    def test_refused_document_leaves_nothing(self) -> None:
        text = "<a>" + "<b>x</b>" * 100_000 + "</c>"
        with self.assertRaises(XmlFault):
            store_xml(self.server, "x", [text.encode()])
        self.assertEqual(self.server.list(), [])

    def test_constructors_of_any_length(self) -> None:
        books = (f'element b {{attribute n {{"{it}"}}, text {{"{"t" * 300}"}}}}'
                 for it in range(6_000))
        text = "document {element a {" + ", ".join(books) + "}}"
        self.assertGreater(store_constructors(self.server, "x", text).parts, 1)
        self.assertEqual(self.server.query_text('doc("x")'), text)
        for wrong in ("element a {}", "1", "document {}, document {}", "document {document {}}",
                      "document {element a {", 'document {attribute a {"1"}}', "()"):
            with self.subTest(wrong), self.assertRaises(ValueError):
                store_constructors(self.server, "y", wrong)
        self.assertEqual(self.server.list(), ["x"])

    def test_empty_and_odd_documents(self) -> None:
        for text in ("document {}", 'document {text {"t"}, comment {"c"}}'):
            store_constructors(self.server, "x", text)
            self.assertEqual(self.server.query_text('doc("x")'), text)

    def test_wrong_address_is_told(self) -> None:
        with self.assertRaises(ValueError):
            store_xml(self.server, "a b", [b"<a/>"])

    def test_refusal_of_the_server_comes_through(self) -> None:
        with self.assertRaises(Refused) as caught:
            self.server.store("x", "element a {}")
        self.assertEqual(caught.exception.code, "prof:NOTDOC")

    def test_asyncio(self) -> None:
        async def store() -> int:
            async with await aio.connect(server_command()) as client:
                text = "<a>" + f"<b>{'x' * 300}</b>" * 6_000 + "</a>"
                stored = await store_xml_async(client, "x", [text.encode()])
                self.assertEqual(await client.list(), ["x"])
                self.assertEqual(await client.query('count(doc("x")/a/b)'), [6_000])
                return stored.parts

        self.assertGreater(asyncio.run(store()), 0)


class Events(unittest.TestCase):
    def test_events_of_a_node_are_those_of_its_text(self) -> None:
        text = 'document {element a {attribute x {"1"}, text {"t"}}}'
        [document] = values(text)
        self.assertEqual(list(node_events(document)), list(events(text)))
