"""`xqs web` as clients of REST expect it: tags, conditions, lists, media types, methods."""

import gzip
import json
import threading
import unittest

from tests.serving import RunningMux
from webs import BOOK, XQUERY, Answer, RunningWeb, WebTest, asked
from xqs import connect

XML, JSON, TEXT = "application/xml", "application/json", "text/plain"


class Tags(WebTest):
    """Entity tags, and answers that the client has already."""

    def test_each_answer_has_a_tag(self) -> None:
        self.web.put("a", BOOK)
        for path in ("/rest/a", "/rest", asked("1 to 3"), "/rest/a?names=flat"):
            got = self.web.ask("GET", path)
            self.assertRegex(got.headers["ETag"], r'^"[\w.-]+"$')
            self.assertEqual(got.headers["ETag"], self.web.ask("GET", path).headers["ETag"])
            self.assertEqual(got.headers["ETag"], self.web.ask("HEAD", path).headers["ETag"])
            same = self.web.ask("GET", path, If_None_Match=f'"x", W/{got.headers["ETag"]}')
            self.check(same, 304, "")
            self.assertEqual(same.headers["ETag"], got.headers["ETag"])
            self.assertNotIn("Content-Type", same.headers)
            self.check(self.web.ask("GET", path, If_None_Match='"x"'), 200, got.body)
            self.check(self.web.ask("GET", path, If_Match=got.headers["ETag"]), 200, got.body)
            self.check_refused(self.web.ask("GET", path, If_Match='"x"'), 412, "xqs:CONDITION")

    def test_forms_have_tags_of_their_own(self) -> None:
        self.web.put("a?names=flat", '<p:a xmlns:p="u"/>')
        tags = {self.web.ask("GET", f"/rest/a?names={names}", Accept=form).headers["ETag"]
                for names in ("keep", "flat") for form in (XML, "text/xml", TEXT, JSON, XQUERY)}
        self.assertEqual(len(tags), 10)

    def test_another_document_has_another_tag(self) -> None:
        tags = set()
        for text in ("<a/>", "<a> </a>", "<a><!----></a>", "<a><b/></a>", "<b/>"):
            self.web.put("a", text)
            tags.add(self.web.ask("GET", "/rest/a").headers["ETag"])
        self.assertEqual(len(tags), 5)

    def test_a_document_larger_than_a_reply(self) -> None:
        value = "&amp;<x/>" + "a long text " * 90_000
        text = f"<a>{f'<b>{value}</b>' * 16}</a>"
        self.web.put("huge", text)
        got = self.web.ask("HEAD", "/rest/huge")
        self.assertEqual(got.headers["Content-Length"], str(len(text)))
        self.check(self.web.ask("GET", "/rest/huge", If_None_Match=got.headers["ETag"]), 304, "")
        self.check(self.web.put("huge", "<a/>", If_Match=got.headers["ETag"]), 200)


class Updates(WebTest):
    """No update is lost."""

    def tag(self, accept: str = "*/*") -> str:
        """The current tag of the document."""
        return self.web.ask("GET", "/rest/a", Accept=accept).headers["ETag"]

    def test_a_change_of_the_state_that_was_read(self) -> None:
        self.web.put("a", "<a>1</a>")
        for accept in (XML, XQUERY, JSON, TEXT):
            self.check(self.web.put("a", "<a>2</a>", If_Match=self.tag(accept)), 200, "replaced\n")
        old = self.tag()
        self.check(self.web.put("a", "<a>3</a>"), 200)
        self.check_refused(self.web.put("a", "<a>4</a>", If_Match=old), 412, "xqs:CONDITION")
        self.check(self.web.ask("GET", "/rest/a"), 200, "<a>3</a>")
        self.check(self.web.put("a", "<a>4</a>", If_Match=f'{old}, {self.tag()}'), 200)
        self.check_refused(self.web.put("a", "<a>5</a>", If_Match=f"W/{self.tag()}"),
                           412, "xqs:CONDITION")
        self.check_refused(self.web.put("a", "<a>5</a>", If_Match="x"), 400, "xqs:REQUEST")
        self.check(self.web.ask("GET", "/rest/a"), 200, "<a>4</a>")

    def test_a_document_that_is_there_or_not(self) -> None:
        self.check_refused(self.web.put("a", "<a/>", If_Match="*"), 412, "xqs:CONDITION")
        self.check_refused(self.web.put("a", "<a/>", If_Match='"x"'), 412, "xqs:CONDITION")
        self.check(self.web.put("a", "<a/>", If_None_Match="*"), 201, "stored\n")
        self.check_refused(self.web.put("a", "<b/>", If_None_Match="*"), 412, "xqs:CONDITION")
        self.check(self.web.put("a", "<b/>", If_Match="*"), 200, "replaced\n")
        self.check_refused(self.web.put("a", "<c/>", If_None_Match=self.tag()),
                           412, "xqs:CONDITION")
        self.check(self.web.put("a", "<c/>", If_None_Match='"x"'), 200)
        self.check(self.web.ask("GET", "/rest", Accept=JSON), 200, '["a"]')

    def test_a_drop_of_the_state_that_was_read(self) -> None:
        self.web.put("a", "<a/>")
        self.check_refused(self.web.delete("a", If_Match='"x"'), 412, "xqs:CONDITION")
        self.check(self.web.delete("a", If_Match=self.tag()), 200)
        self.check_refused(self.web.delete("a", If_Match="*"), 412, "xqs:CONDITION")
        self.check_refused(self.web.delete("a"), 404, "prof:ABSENT")

    def test_what_is_refused_is_told_as_without_a_condition(self) -> None:
        self.check_refused(self.web.put("a", "1", XQUERY, If_None_Match="*"), 400, "prof:NOTDOC")
        self.check_refused(self.web.put("a", "<a>", If_None_Match="*"), 400, "xqs:REQUEST")
        self.check(self.web.put("a", "document {1}", XQUERY, If_None_Match="*"), 201)
        self.check_refused(self.web.put("a", "1 div 0", XQUERY, If_Match=self.tag()),
                           400, "FOAR0001")
        self.check(self.web.ask("GET", "/rest", Accept=JSON), 200, '["a"]')

    def test_sixteen_writers_count_without_a_loss(self) -> None:
        self.web.put("a", "<n>0</n>")
        tries: list[int] = []

        def count() -> None:
            for number in range(200):
                got = self.web.ask("GET", "/rest/a")
                body = f"<n>{int(got.body[3:-4]) + 1}</n>"
                if self.web.put("a", body, If_Match=got.headers["ETag"]).status == 200:
                    tries.append(number)
                    return

        threads = [threading.Thread(target=count) for _ in range(16)]
        for thread in threads:
            thread.start()
        for thread in threads:
            thread.join()
        self.assertEqual(len(tries), 16)
        self.check(self.web.ask("GET", "/rest/a"), 200, "<n>16</n>")

    def test_other_writers_of_the_server_are_seen(self) -> None:
        with RunningMux() as mux, RunningWeb(place=mux.place) as web, connect(mux.place) as other:
            changes = ('comment {"x"}', "processing-instruction p {1}", 'attribute y {"1"}', '"t"',
                       "element b {}", "element b {element c {}}", "element b {}, element c {}",
                       'element b {}, comment {"x"}', 'element b {comment {"x"}}')
            for change in changes:
                other.store("a", f"document {{element a {{{change}}}}}")
                tag = web.ask("GET", "/rest/a").headers["ETag"]
                for another in changes:
                    other.store("a", f"document {{element a {{{another}}}}}")
                    got = web.put("a", "<new/>", If_Match=tag)
                    self.assertEqual((change, another, got.status),
                                     (change, another, 200 if another == change else 412))


class Lists(WebTest):
    """Addresses by prefix, page by page."""

    def test_pages(self) -> None:
        for address in ("b", "p/1", "p/2", "p/3", "q"):
            self.web.put(address, "<a/>")
        for path in ("/rest", "/rest/"):
            got = self.web.ask("GET", f"{path}?prefix=p/&limit=2", Accept=JSON)
            self.check(got, 200, '["p/1", "p/2"]')
            self.assertEqual(got.headers["Xqs-Total"], "3")
            link = got.headers["Link"]
            self.assertTrue(link.endswith('>; rel="next"'))
            last = self.web.ask("GET", link[1:].split(">")[0], Accept=TEXT)
            self.check(last, 200, "p/3\n")
            self.assertNotIn("Link", last.headers)
            self.check(self.web.ask("GET", f"{path}?after=p/3", Accept=TEXT), 200, "q\n")
        for wrong in ("limit=0", "limit=x", "prefix=a&prefix=b", "prefx=a", "prefix=a&query=1"):
            self.check_refused(self.web.ask("GET", f"/rest?{wrong}"), 400, "xqs:REQUEST")


class Forms(WebTest):
    """Media types of answers and of bodies."""

    def test_what_is_no_xml_is_not_called_so(self) -> None:
        for query, kind, body in (
                ("1 to 3", TEXT, "1\n2\n3"), ('"<a/>"', TEXT, "<a/>"), ("()", TEXT, ""),
                ("element a {}", XML, "<a/>"), ("document {element a {}}", XML, "<a/>"),
                ("element a {}, element b {}", TEXT, "<a/>\n<b/>"),
                ('attribute a {"1"}', TEXT, 'a="1"')):
            for accept in ("*/*", "text/html,application/xml;q=0.9,*/*;q=0.8"):
                got = self.web.ask("GET", asked(query), Accept=accept)
                self.check(got, 200, body)
                self.assertEqual(got.headers["Content-Type"], f"{kind}; charset=utf-8")
        self.check_refused(self.web.ask("GET", asked("1"), Accept=XML), 406, "xqs:ACCEPT")
        self.check(self.web.ask("GET", asked("element a {}"), Accept=TEXT), 200, "<a/>")

    def test_items_as_json(self) -> None:
        got = self.web.ask("GET", asked('1, "a<b", element e {"x"}'), Accept=JSON)
        self.assertEqual(got.headers["Content-Type"], JSON)
        self.assertEqual(json.loads(got.body), [
            {"type": "xs:integer", "text": "1", "xml": "1"},
            {"type": "xs:string", "text": "a<b", "xml": "a&lt;b"},
            {"type": "element()", "text": "x", "xml": "<e>x</e>"}])

    def test_the_character_set_of_the_content_type_comes_first(self) -> None:
        text = '<?xml version="1.0" encoding="ISO-8859-1"?><a>é</a>'
        for charset, encoding, body in (
                ("utf-8", "utf-8", "<a>é</a>"), ("iso-8859-1", "latin-1", "<a>é</a>"),
                ("utf-8", "utf-8-sig", "<a>é</a>"), ("iso-8859-1", "utf-8-sig", "<a>é</a>"),
                ("Shift_JIS", "shift_jis", "<a>日本</a>"), ("utf-16", "utf-16", "<a>é</a>")):
            raw = text.replace("é", body[3:-4]).encode(encoding)
            got = self.web.put("a", raw, f"{XML}; charset={charset}")
            self.assertIn(got.status, (200, 201), got)
            self.check(self.web.ask("GET", "/rest/a"), 200, body)
        self.check(self.web.put("a", text.encode("latin-1")), 200)
        self.check(self.web.ask("GET", "/rest/a"), 200, "<a>é</a>")
        self.check(self.web.put("b", 'document {"é"}'.encode("latin-1"),
                                f"{XQUERY}; charset=latin1"), 201)
        self.check(self.web.ask("GET", "/rest/b"), 200, "é")
        got = self.web.ask("POST", "/rest", '"é"'.encode("latin-1"),
                           Content_Type=f'{XQUERY}; charset="iso-8859-1"')
        self.check(got, 200, "é")
        for charset in ("none", "hex", "unicode_escape"):
            self.check_refused(self.web.put("a", "<a/>", f"{XML}; charset={charset}"),
                               415, "xqs:CHARSET")

    def test_bodies_that_are_no_documents(self) -> None:
        for kind in (TEXT, JSON, "text/html", "multipart/form-data", "application/zip",
                     "application/x-www-form-urlencoded"):
            self.check_refused(self.web.put("a", "<a/>", kind), 415, "xqs:TYPE")
        for kind in (XML, "text/xml", "image/svg+xml", "application/tei+xml; charset=utf-8"):
            self.assertIn(self.web.put("a", "<a/>", kind).status, (200, 201))
        packed = self.web.put("a", gzip.compress(b"<a/>"), Content_Encoding="gzip")
        self.check_refused(packed, 415, "xqs:TYPE")

    def test_prefixes_in_queries(self) -> None:
        self.web.put("a?names=flat", '<r xmlns:dc="u"><dc:t dc:x="1">p__q:r</dc:t></r>')
        self.check(self.web.ask("GET", asked("//dc:t/@dc:x", names="flat").replace(
            "/rest?", "/rest/a?")), 200, 'dc:x="1"')
        self.check(self.web.ask("GET", asked('doc("a")//dc:t', names="flat"), Accept=XQUERY), 200,
                   'element dc:t {attribute dc:x {"1"}, text {"p__q:r"}}')
        got = self.web.ask("GET", asked("1,\n  //a__b:c", names="flat"))
        self.check_refused(got, 400, "xqs:NAMES")
        self.assertEqual(got.headers["Xqs-Place"], "2:5")
        self.check_refused(self.web.ask("GET", asked("//dc:t")), 400, "prof:PREFIX")
        text = 'document {element dc:t {attribute dc:x {"a:b"}}}'
        self.check(self.web.put("b?names=flat", text, XQUERY), 201)
        self.check(self.web.ask("GET", "/rest/b?names=flat", Accept=XQUERY), 200, text)


class Methods(WebTest):
    """Methods, places of new documents, parameters."""

    def test_a_new_document_has_a_place(self) -> None:
        got = self.web.put("p/new.xml", "<a/>")
        self.check(got, 201)
        self.assertEqual(got.headers["Location"], "/rest/p/new.xml")
        self.assertNotIn("Location", self.web.put("p/new.xml", "<b/>").headers)

    def test_parameters_that_there_are_not(self) -> None:
        self.web.put("css", "<style/>")
        for method, path in (
                ("DELETE", "/rest/css?query=//style"), ("DELETE", "/rest/css?x"),
                ("PUT", "/rest/css?query=1"), ("PUT", "/rest/css?names=flat&names=keep"),
                ("PUT", "/rest/css?wrap=yes"), ("GET", "/rest/css?x=1"), ("HEAD", "/rest/css?x=1"),
                ("GET", "/rest?query=1&query=2"), ("POST", "/rest?x=1"), ("GET", "/?x=1"),
                ("POST", "/rest?query=1"), ("OPTIONS", "/rest/css?x=1"), ("GET", "/archive?x=1")):
            got = self.web.ask(method, path, "<a/>" if method in ("PUT", "POST") else None,
                               Authorization=self.web.account)
            self.assertEqual((method, path, got.status, got.headers.get("Xqs-Code")),
                             (method, path, 400, "xqs:REQUEST"))
        self.check(self.web.ask("GET", "/rest/css"), 200, "<style/>")

    def test_bytes_that_are_no_text(self) -> None:
        for path in ("/rest?query=%FF", "/rest?query=1&$x=%C3", "/rest?%FF=1"):
            self.check_refused(self.web.ask("GET", path), 400, "prof:UTF8")
        self.check_refused(self.web.ask("GET", "/rest/%FF"), 400, "prof:ADDRESS")
        got = self.web.ask("GET", "/rest", Host="l\xde")
        self.check_refused(got, 403, "xqs:HOST")
        self.check(self.web.ask("GET", asked("'a+b c&amp;%2B'")), 200, "a+b c&%2B")

    def test_the_methods_of_a_path(self) -> None:
        for path, allow in (("/rest", "GET, HEAD, POST, OPTIONS"),
                            ("/rest/a", "GET, HEAD, POST, PUT, DELETE, OPTIONS")):
            got = self.web.ask("OPTIONS", path)
            self.check(got, 204, "")
            self.assertEqual(got.headers["Allow"], allow)

    def test_no_document_is_put_where_it_would_be_dropped(self) -> None:
        got = self.web.put("xqs.temporary/a", "<a/>")
        self.check_refused(got, 403, "xqs:TEMPORARY")
        self.check_refused(self.web.put("xqs.temporary/a", "document {}", XQUERY),
                           403, "xqs:TEMPORARY")
        self.check(self.web.ask("GET", "/rest", Accept=JSON), 200, "[]")

    def test_the_password_of_an_account_is_the_token(self) -> None:
        for given in (self.web.account, self.web.basic("xqs"), self.web.basic("")):
            got: Answer = self.web.ask("PUT", "/rest/a", "<a/>", Authorization=given)
            self.assertIn(got.status, (200, 201))
        for given in (self.web.basic("xqs", "x"), "Basic", "Basic =", "Basic //8="):
            got = self.web.ask("PUT", "/rest/a", "<a/>", Authorization=given)
            self.check_refused(got, 401, "xqs:TOKEN")

    def test_headers_for_browsers(self) -> None:
        for path in ("/", "/page/page.js", "/rest", "/rest/none", asked("1")):
            headers = self.web.ask("GET", path).headers
            self.assertEqual(headers["X-Content-Type-Options"], "nosniff")
            self.assertEqual(headers["Referrer-Policy"], "no-referrer")
            self.assertEqual(headers["Cross-Origin-Opener-Policy"], "same-origin")
            self.assertEqual(headers["Cross-Origin-Resource-Policy"], "same-origin")
            self.assertIn("frame-ancestors 'none'", headers["Content-Security-Policy"])
            self.assertNotIn("unsafe", headers["Content-Security-Policy"])

    def test_files_of_the_page(self) -> None:
        for name, kind in (("page.js", "text/javascript"), ("page.css", "text/css"),
                           ("words.json", JSON)):
            got = self.web.ask("GET", f"/page/{name}")
            self.assertEqual((got.status, got.headers["Content-Type"].split(";")[0]), (200, kind))
        for name in ("none.js", "..%2Fweb.py", "%2Fetc%2Fpasswd", "..", "page.html%00"):
            self.assertIn(self.web.ask("GET", f"/page/{name}").status, (400, 404), name)

    def test_addresses_of_files(self) -> None:
        body = json.dumps({"paths": ["a b.xml", "é", "x" * 300], "prefix": "p/"})
        got = self.web.ask("POST", "/page/addresses", body, Content_Type=JSON)
        found = json.loads(got.body)
        self.assertEqual([it.get("address") for it in found],
                         ["p/a_x0020_b.xml", "p/_x00E9_", None])
        for wrong in ("", "[]", "{}", '{"paths": 1, "prefix": ""}', "[" * 100_000):
            got = self.web.ask("POST", "/page/addresses", wrong, Content_Type=JSON)
            self.check_refused(got, 400, "xqs:REQUEST")

    def test_an_archive(self) -> None:
        for address in ("p/a.xml", "p/q/b", "c"):
            self.web.put(address, f"<a>{address}</a>")
        self.web.put("p/none", "document {}", XQUERY)
        files = self.web.archive("/archive?prefix=p/")
        self.assertEqual(files["a.xml"].split("\n")[1], "<a>p/a.xml</a>")
        self.assertEqual(sorted(files), ["a.xml", "q/b.xml", "refused.txt"])
        self.assertIn("p/none: ", files["refused.txt"])
        self.assertEqual(len(self.web.archive("/archive")), 4)


del WebTest

if __name__ == "__main__":
    unittest.main()
