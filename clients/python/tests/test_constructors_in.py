"""Constructors from files: written by hand, of any length, and exported."""

import io
import unittest

from tests.support import CommandTest, ServerTest
from xqs.constructor_reader import ConstructorReader
from xqs.constructors import write_constructors
from xqs.faults import PlacedFault
from xqs.incoming import MAX_QUERY, incoming
from xqs.stores import store_constructors, store_file
from xqs.temporary import Temporary
from xqs.xml_in import XmlChoices
from xqs.xml_names import Names

FLAT = XmlChoices(Names.FLAT)
WRITTEN = {
    " document{ } (: c (: d :) :)\r\n": "document {}",
    'document {element a {attribute b {"1"}, "x", "y", text {"z"}, comment {}}}':
        'document {element a {attribute b {"1"}, text {"x yz"}, comment {""}}}',
    "document {\n  element a {'it''s &lt;&#65;&#x42;&quot;',\r\n    "
    "element b {\"\"\"\"}, \r text {}}}":
        'document {element a {text {"it\'s <AB"""}, element b {text {""""}}}}',
    'document {text {"a", \'b\'}, "c", element text {element element {}}}':
        'document {text {"a bc"}, element text {element element {}}}',
    'document {element a {processing-instruction p {"q"}, attribute-x {}}}': "",
    'document {element a {"", attribute b {"1", "2"}, attribute c {}}}':
        'document {element a {text {""}, attribute b {"1 2"}, attribute c {""}}}',
}
REFUSED = {
    'document {element a {element b {} element c {}}}': (1, 35, "a comma is missing"),
    "document {element a {,}}": (1, 22, "a comma comes before the first item"),
    'document {element a {"x",}}': (1, 26, "nothing follows the comma"),
    'document {element a {"x"': (1, 25, "ends inside a constructor"),
    "element a {}": (1, 1, "not exactly one document"),
    "": (1, 1, "not exactly one document"),
    "document {}, document {}": (1, 14, "not exactly one document"),
    "document {document {}}": (1, 11, "not exactly one document"),
    'document {attribute a {"1"}}': (1, 11, "a document has no attributes"),
    'document {\n doc("x")}': (2, 2, "must have only constructors"),
    'document {\n element {"a"} {}}': (2, 2, "the name of the element is missing"),
    "document {element a {text {element b {}}}}": (1, 28, "holds strings, and here is element"),
    'document {element a {"&x;"}}': (1, 22, "an & that begins no reference"),
    'document {element a {"&#xD800;"}}': (1, 22, "an & that begins no reference"),
    "document {element p:a {}}": (1, 11, "the choice 'flat' takes it"),
    'document {element a {"x", attribute b {"1"}}}': (1, 27, "an attribute comes after other"),
    'document {element a {attribute b {"1"}, attribute c {}, attribute b {"2"}}}':
        (1, 57, "the element has two attributes called b"),
    'document {comment {"a--b"}}': (1, 11, "a comment holds -- or ends in -"),
    'document {comment {"a", "-"}}': (1, 28, "a comment holds -- or ends in -"),
    'document {processing-instruction p {"?>"}}': (1, 11, "a processing instruction holds ?>"),
    'document {processing-instruction xMl {}}': (1, 39, "a processing instruction is called xml"),
    'document {element a {"\x01"}}': (1, 22, "a character that XML doesn't have"),
    'document {element a {"&#1;"}}': (1, 22, "a character that XML doesn't have"),
    "document {}}": (1, 12, "a brace closes"),
    "document {element a {1}}": (1, 22, "must have only constructors"),
    "document {} (: c": (1, 13, "must have only constructors"),
}


class Reading(unittest.TestCase):
    def test_constructors_as_they_are_written(self) -> None:
        for text, printed in WRITTEN.items():
            pieces: list[str] = []
            if printed:
                write_constructors(ConstructorReader(text, "f.xq"), pieces.append)
                self.assertEqual("".join(pieces), printed)

    def test_anything_else_is_refused_with_its_place(self) -> None:
        for text, (line, column, why) in REFUSED.items():
            with self.subTest(text), self.assertRaises(PlacedFault) as caught:
                list(ConstructorReader(text, "f.xq"))
            fault = caught.exception
            self.assertEqual((fault.source, fault.line, fault.column), ("f.xq", line, column))
            self.assertIn(why, fault.why)

    def test_too_many_levels_have_their_place(self) -> None:
        text = "document {\n" + "element a {" * 101 + "}" * 101 + "}" + " " * MAX_QUERY
        with self.assertRaises(PlacedFault) as caught:
            list(incoming(io.BytesIO(text.encode()), "f.xq", Temporary()).parts())
        self.assertEqual((caught.exception.line, caught.exception.column), (2, 1101))

    def test_what_is_a_query(self) -> None:
        def kind(data: bytes, source: str = "a.xml", by_name: bool = True) -> str:
            return type(incoming(io.BytesIO(data), source, Temporary(), by_name=by_name)).__name__

        for data in (b"<a/>", b"\n<a/>", b"\xef\xbb\xbf\n <a/>", b"", b" \n",
                     "<a/>".encode("utf-16"), "<a/>".encode("utf-16-be"),
                     "<?xml?>".encode("cp037")):
            for source in ("a.xml", "a.xq", "a"):
                self.assertEqual(kind(data, source), "XmlDocument", data)
                self.assertEqual(kind(data, source, False), "XmlDocument", data)
        for data, source in ((b"doc('a')", "a.xml"), (b"x<a/>", "a.svg"), (b"text", "README")):
            self.assertEqual(kind(data, source), "XmlDocument")
            self.assertEqual(kind(data, source, False), "QueryDocument")
        for data, source in ((b"doc('a')", "a.xq"), (b"\n document{}", "a.xml"),
                             (b"\xef\xbb\xbfdocument {}", "a"), (b"(: c :) 1", "b/a.xquery")):
            self.assertEqual(kind(data, source), "QueryDocument")

    def test_names_and_bytes_of_queries(self) -> None:
        data = b"\xef\xbb\xbfdocument {element dc:a {attribute xmlns {'u'}}}"
        document = incoming(io.BytesIO(data), "f.xq", Temporary(), FLAT)
        self.assertEqual(document.whole(), "document {element dc__a {attribute xmlns__ {'u'}}}")
        wrong_texts = {b"document {\n '\xff'}": (2, 3), b"document {\n element a:* {}}": (2, 10)}
        for wrong, place in wrong_texts.items():
            with self.assertRaises(PlacedFault) as caught:
                incoming(io.BytesIO(wrong), "f.xq", Temporary(), FLAT)
            self.assertEqual((caught.exception.line, caught.exception.column), place)


def large(count: int, between: str = ", ") -> str:
    """The text of a document with this number of children."""
    items = between.join(f'element b {{attribute n {{"{it}"}}, text {{"{"t" * 300}"}}}}'
                         for it in range(count))
    return "document {element a {" + items + "}}"


class Stored(ServerTest):
    def test_a_text_over_a_megabyte_goes_in_parts(self) -> None:
        printed, written = large(4_000), large(4_000, "\n  (: next :) , ")
        for text in (printed, written):
            stored = store_file(self.server, "x", io.BytesIO(text.encode()), "f.xq")
            self.assertGreater(stored.parts, 0)
            self.assertEqual(self.server.query_text('doc("x")'), printed)
        self.assertEqual(self.server.list(), ["x"])
        with self.assertRaises(PlacedFault):
            store_constructors(self.server, "y", large(4_000, " "))
        self.assertEqual(self.server.list(), ["x"])

    def test_a_query_that_is_short_is_asked(self) -> None:
        self.server.store("x", 'document {element a {"1"}}')
        store_file(self.server, "y", io.BytesIO(b'document {element b {doc("x")/a}}'))
        self.assertEqual(self.server.query_text('doc("y")'),
                         'document {element b {element a {text {"1"}}}}')


class Exported(CommandTest):
    def test_exported_constructors_load_again(self) -> None:
        self.write("big.xq", large(4_000))
        self.write("dc.xq", 'document {element dc:a {attribute xmlns:dc {"u"}}}')
        self.write("no.txt", "text")
        load = ("load", "--match", "*.xq", "--names", "flat")
        status, out, said = self.run_command(*load, self.folder / "in")
        self.assertEqual((status, out), (0, ""), said)
        first = self.folder / "first"
        export = ("export", "--form", "constructors", "--names", "flat")
        self.assertEqual(self.run_command(*export, first)[0], 0)
        self.assertEqual((first / "big.xq").read_text(), large(4_000) + "\n")
        self.assertEqual((first / "dc.xq").read_text(),
                         'document {element dc:a {attribute xmlns:dc {"u"}}}\n')
        self.assertEqual(self.run_command("drop", "big.xq", "dc.xq")[0], 0)
        self.assertEqual(self.run_command(*load, first)[0], 0)
        second = self.folder / "second"
        self.assertEqual(self.run_command(*export, second)[0], 0)
        for name in ("big.xq", "dc.xq"):
            self.assertEqual((second / name).read_bytes(), (first / name).read_bytes())
        self.assertEqual(self.run_command("get", "dc.xq", "--names", "flat")[1],
                         (first / "dc.xq").read_text())

    def test_files_of_both_kinds_load_together(self) -> None:
        self.write("a.xml", "document {element a {}}")
        self.write("b.xml", "<b/>")
        self.write("c.xml", "element c {}")
        self.write("d.xml", "")
        self.write("e.xq", "document {element e {}")
        words = ("load", "--match", "*.xml", "--match", "*.xq", self.folder / "in")
        status, out, said = self.run_command(*words)
        self.assertEqual(status, 1)
        self.assertEqual([it.split(": ")[0] for it in out.splitlines()],
                         ["c.xml:1:1", "d.xml:1:1", "e.xq"])
        self.assertEqual(self.run_command("list")[1].split(), ["a.xml", "b.xml"])


if __name__ == "__main__":
    unittest.main()
