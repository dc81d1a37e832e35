"""The parts of `xqs web` without HTTP: forms, queries, statuses, access."""

import os
import stat
import time
import unittest

from tests.support import FolderTest
from xqs import Closed, Refused, Wanting
from xqs.asking import question_over
from xqs.folders import FolderFault
from xqs.protocol import FrameFault
from xqs.web_forms import (
    FORMS,
    JSON,
    LIST_FORMS,
    OTHER_FORMS,
    TEXT,
    TEXT_XML,
    XML,
    XQUERY,
    as_results,
    chosen,
    spelled_items,
    spelled_list,
)
from xqs.web_guard import NAMES, TokenFault, check_host, check_origin, check_token, read_token
from xqs.web_query import Asked, take_body
from xqs.web_status import HttpRefusal, placed, refusal_of
from xqs.xml_out import FLAT


class FormsTest(unittest.TestCase):
    """Forms of values, and which one is chosen."""

    def test_the_form_that_is_liked_best(self) -> None:
        browser = "text/html,application/xhtml+xml,application/xml;q=0.9,*/*;q=0.8"
        for accept, form in ((None, XML), ("*/*", XML), ("", XML), (browser, XML),
                             ("application/xquery", XQUERY), ("text/*", TEXT_XML),
                             ("application/xml;q=0.1, application/xquery;q=0.2", XQUERY),
                             ("application/*;q=0.5, application/xml;q=0", XQUERY),
                             ("APPLICATION/XQUERY;Q=1", XQUERY), ("application/xquery;q=x", None),
                             ("application/xml;q=nan", None), ("application/xml;q=2", None),
                             ("application/json", JSON), ("text/plain", TEXT),
                             ("image/png", None), ("*/*;q=0", None)):
            with self.subTest(accept=accept):
                if form:
                    self.assertEqual(chosen(accept, FORMS), form)
                else:
                    with self.assertRaises(HttpRefusal) as caught:
                        chosen(accept, FORMS)
                    self.assertEqual(caught.exception.status, 406)
        self.assertEqual(chosen(browser, OTHER_FORMS), TEXT)
        self.assertEqual(chosen("application/json", LIST_FORMS), JSON)

    def test_items_as_xml_and_as_plain_text(self) -> None:
        text = ('1, -2.5, true(), xs:untypedAtomic("u"), "a<b", document {element p__a {'
                'attribute i {"<"}, text {"t"}}}, attribute p__b {"v"}, comment {"c"}, '
                'text {"&amp;"}')
        items = list(spelled_items(text, "keep"))
        nodes = ['<p__a i="&lt;">t</p__a>', 'p__b="v"', "<!--c-->"]
        self.assertEqual([it.xml for it in items],
                         ["1", "-2.5", "true", "u", "a&lt;b", *nodes, "&amp;"])
        self.assertEqual([it.plain for it in items],
                         ["1", "-2.5", "true", "u", "a<b", *nodes, "&"])
        self.assertEqual([it.xml for it in spelled_items(text, "flat")][5:7],
                         ['<p:a i="&lt;">t</p:a>', 'p:b="v"'])
        self.assertEqual(list(spelled_items("()", "keep")), [])

    def test_what_is_a_text_of_xml_by_itself(self) -> None:
        for text, is_whole in (
                ("element a {}", True), ('element a {text {"x"}, element b {}}', True),
                ("document {element a {}}", True), ("document {}", False), ("1", False),
                ('document {comment {"c"}, element a {}, processing-instruction p {""}}', True),
                ("document {element a {}, element b {}}", False), ('attribute a {"1"}', False),
                ('document {text {" "}, element a {}}', False), ('comment {"c"}', False),
                ('element a {comment {"&#xD;"}}', False), ('element a {text {"&#xD;"}}', True)):
            with self.subTest(text=text):
                [item] = spelled_items(text, "keep")
                self.assertEqual(item.is_whole, is_whole)

    def test_items_as_one_document(self) -> None:
        self.assertEqual(as_results(spelled_items('2, text {"t"}, document {}', "keep")),
                         '<rest:results xmlns:rest="http://basex.org/rest">'
                         '<rest:result type="xs:integer">2</rest:result>'
                         '<rest:result type="text()">t</rest:result>'
                         '<rest:result type="document-node()"></rest:result></rest:results>')

    def test_lists(self) -> None:
        for form, text in ((JSON, '["a", "b/c"]'), (TEXT, "a\nb/c\n"), (XQUERY, '"a", "b/c"')):
            self.assertEqual(spelled_list(["a", "b/c"], form), text)
        self.assertIn('resources="1"><rest:resource type="xml">a</rest:resource>',
                      spelled_list(["a"], XML))


class QueryTest(unittest.TestCase):
    """Queries of URLs and bodies."""

    def test_a_document_and_variables(self) -> None:
        asked = Asked()
        self.assertEqual(asked.query(asked.question(), "a/b"), 'doc("a/b")')
        asked.take("query", "//x (: c :)")
        self.assertEqual(asked.query(asked.question(), "a"), 'doc("a")/(//x (: c :)\n)')
        asked.take("$v", '"')
        self.assertEqual(asked.query(asked.question()), 'let $v := """" return (//x (: c :)\n)')
        with self.assertRaises(HttpRefusal):
            Asked().query(None)

    def test_folders(self) -> None:
        asked = Asked()
        asked.take("query", 'collection("p")/a')
        self.assertTrue(asked.may_ask_for_folders())
        text = asked.query(asked.question(lambda: ["a", "p/1"]))
        self.assertIn('doc-available(.)', text)
        self.assertNotIn('collection', text)
        asked = Asked(text="count(//a)")
        self.assertFalse(asked.may_ask_for_folders())
        asked.take("in", "p")
        self.assertTrue(asked.may_ask_for_folders())
        for wrong in (Asked(folder="p"), Asked(text="1", folder="p"),
                      Asked(text="collection($x)")):
            with self.assertRaises((HttpRefusal, FolderFault)):
                wrong.question(lambda: ["a"])

    def test_what_is_no_parameter(self) -> None:
        for name, value in (("x", "1"), ("wrap", "maybe"), ("names", "local"), ("$1", ""),
                            ("$a b", ""), ("$", "")):
            with self.subTest(name=name), self.assertRaises(HttpRefusal):
                Asked().take(name, value)

    def test_a_body(self) -> None:
        asked = Asked()
        take_body(asked, b"<query><text>1 &lt; 2</text><variable name='$x' value='v'/></query>")
        self.assertEqual((asked.text, asked.variables), ("1 < 2", {"x": "v"}))
        for body in (b"", b"<query>", b"<a/>", b"<!DOCTYPE query><query/>",
                     "<!DOCTYPE query><query/>".encode("utf-16"), b"<query><run/></query>",
                     b"<query><parameter name='query' value='1'/></query>"):
            with self.subTest(body=body), self.assertRaises(HttpRefusal) as caught:
                take_body(Asked(), body)
            self.assertEqual(caught.exception.status, 400)


class StatusTest(unittest.TestCase):
    """Errors as statuses."""

    def test_each_kind_of_error(self) -> None:
        for error, changes, status, code in (
                (Refused("XPST0003"), False, 400, "XPST0003"),
                (Refused("FODC0002"), False, 404, "FODC0002"),
                (Refused("prof:ABSENT"), True, 404, "prof:ABSENT"),
                (Refused("prof:NODES"), True, 413, "prof:NODES"),
                (Refused("xqs:SECONDS"), False, 504, "xqs:SECONDS"),
                (Wanting("memory"), False, 503, "memory"), (Wanting("store"), True, 503, "store"),
                (Closed("ended"), False, 503, "xqs:CLOSED"),
                (Closed("ended"), True, 502, "xqs:CLOSED"),
                (FrameFault("long"), False, 413, "prof:LONG"),
                (ConnectionRefusedError(), False, 503, "xqs:SERVER"),
                (ValueError("x"), False, 400, "xqs:REQUEST"),
                (HttpRefusal(418, "c", "s"), False, 418, "c")):
            with self.subTest(error=error, changes=changes):
                told = refusal_of(error, changes)
                assert told is not None
                self.assertEqual((told.status, told.code), (status, code))
        self.assertIsNone(refusal_of(RuntimeError(), False))

    def test_the_place_of_a_fault_is_looked_for_in_short_queries(self) -> None:
        error = Refused("XPST0017")
        for query, headers in (("1,\n cuont(1)", {"Xqs-Place": "2:2"}), ("count(1)", {})):
            self.assertEqual(placed(error, question_over(list, query)).headers, headers)
        query = "a:b, c:d, cuont(1)"
        asked = question_over(list, query, FLAT)
        self.assertEqual(placed(error, asked).headers, {"Xqs-Place": "1:11"})
        begin = time.monotonic()
        long = "count(1)," * 100_000 + "cuont(1)"
        self.assertEqual(placed(error, question_over(list, long)).headers, {})
        self.assertEqual(placed(error, None).headers, {})
        self.assertLess(time.monotonic() - begin, 1)

    def test_a_refusal_is_its_code_and_a_sentence(self) -> None:
        self.assertEqual(str(refusal_of(Refused("FOAR0001"), False)),
                         "FOAR0001: a division by zero")


class GuardTest(FolderTest):
    """Hosts, origins, tokens."""

    def test_hosts(self) -> None:
        names = NAMES | {"archive.example"}
        for host in ("127.0.0.1", "localhost:1", "[::1]", "[::1]:80", "LocalHost", "localhost:",
                     "archive.example:80"):
            check_host(host, names)
        with self.assertRaises(HttpRefusal):
            check_host(None, names)
        for host in ("", "evil.example", "127.0.0.2", "::1", "localhost.evil.example",
                     "localhost:80:80", "a@localhost", "archive.example.evil.example"):
            with self.subTest(host=host), self.assertRaises(HttpRefusal):
                check_host(host, names)

    def test_origins(self) -> None:
        host = {"Host": "localhost:1"}
        check_origin("PUT", "/rest/a", host)
        check_origin("PUT", "/rest/a", host | {"Origin": "http://localhost:1"})
        check_origin("GET", "/", host | {"Sec-Fetch-Site": "cross-site",
                                         "Sec-Fetch-Mode": "navigate"})
        for headers in ({"Origin": "null"}, {"Origin": "http://localhost:2"}, {"Origin": ""},
                        {"Origin": "http://localhost:1.evil.example"}, {"Origin": "localhost:1"},
                        {"Origin": "ftp://localhost:1"}, {"Sec-Fetch-Site": "same-site"},
                        {"Sec-Fetch-Site": "cross-site", "Sec-Fetch-Mode": "navigate"}):
            with self.subTest(headers=headers), self.assertRaises(HttpRefusal):
                check_origin("GET", "/rest", host | headers)

    def test_tokens(self) -> None:
        check_token("GET", None, None)
        check_token("POST", None, "t")
        check_token("PUT", "Bearer t", "t")
        for given, token, status in (("Bearer t", None, 403), (None, "t", 401), ("t", "t", 401),
                                     ("Bearer", "t", 401), ("Bearer \ud800", "t", 401),
                                     ("Bearer é", "t", 401), ("Basic t", "t", 401)):
            with self.subTest(given=given), self.assertRaises(HttpRefusal) as caught:
                check_token("DELETE", given, token)
            self.assertEqual(caught.exception.status, status)

    def test_a_new_token_is_its_owners(self) -> None:
        path = self.folder / "token"
        token = read_token(path)
        self.assertGreater(len(token), 40)
        self.assertEqual(stat.S_IMODE(path.stat().st_mode), 0o600)
        self.assertEqual(read_token(path), token)

    def test_token_files_that_are_refused(self) -> None:
        path = self.folder / "token"
        for text in ("", "short", "with a space in it..", "two-lines-of-it\nand-another-one",
                     "é" * 20):
            path.write_text(text)
            path.chmod(0o600)
            with self.subTest(text=text), self.assertRaises(TokenFault):
                read_token(path)
        path.write_text("long-enough-to-be-one")
        os.chmod(path, 0o644)
        with self.assertRaises(TokenFault):
            read_token(path)


if __name__ == "__main__":
    unittest.main()
